" Vim syntax file for Dialog sources
if exists('b:current_syntax')
  finish
endif

syn case match
syn iskeyword @,48-57,+,-,_,128-255

syn match dialogBadEscape "\\."
syn match dialogEscape    "\\[#$@~*|\\()\[\]{}]"
syn match dialogObject    "#[A-Za-z0-9+_\u0080-\uffff-]\+"
syn match dialogTopic     "^#[A-Za-z0-9+_\u0080-\uffff-]\+\ze\s*\(%%.*\)\?$"
syn match dialogVariable  "\$[A-Za-z0-9+_\u0080-\uffff-]*"
syn match dialogWord      "@\([^ \t()\[\]{}|*~#$@\\]\|\\[#$@~*|\\()\[\]{}]\)\+"
syn match dialogNegation  "\~\ze\s*[({]"
syn match dialogMany      "\*\ze\s*("
syn match dialogAccess    "^@\ze\s*("

" A name may have any blanks between its words.
syn match dialogKeyword   "(\s*\(now\|if\|then\|elseif\|else\|endif\|or\|exhaust\|stoppable\|select\|stopping\|cycling\|at\s\+random\|purely\s\+at\s\+random\|then\s\+at\s\+random\|then\s\+purely\s\+at\s\+random\)\s*)"
syn match dialogKeyword   "(\s*\(collect\|accumulate\|into\)\s\+\ze\$"
syn match dialogControl   "(\s*\(fail\|just\|stop\|quit\|repeat\s\+forever\)\s*)"
syn match dialogSpacing   "(\s*\(par\|line\|space\|no\s\+space\|uppercase\)\s*)"
syn match dialogSpacing   "(\s*space\s\+\ze[$0-9]"
syn match dialogDeclared  "(\s*global\s\+variable\>"
syn match dialogEntry     "(\s*program\s\+entry\s\+point\s*)"
syn match dialogRefused   "(\s*\(bold\|italic\|reverse\|fixed\s\+pitch\|roman\|link\|clear\|restore\|undo\|restart\|script\s\+on\|script\s\+off\|collect\s\+words\|removable\s\+word\s\+endings\|log\)\s*)"
syn match dialogRefused   "(\s*\(div\|span\|link\|\(inline\s\+\)\?status\s\+bar\|get\s\+key\|save\|save\s\+undo\|interface\|generate\|determine\s\+object\)\s\+\ze[$@#0-9\[{*]"

syn match dialogComment   "%%.*$" contains=dialogTodo
syn keyword dialogTodo    contained TODO FIXME XXX

hi def link dialogBadEscape Error
hi def link dialogEscape    SpecialChar
hi def link dialogObject    Constant
hi def link dialogTopic     Title
hi def link dialogVariable  Identifier
hi def link dialogWord      String
hi def link dialogNegation  Operator
hi def link dialogMany      Operator
hi def link dialogAccess    PreProc
hi def link dialogKeyword   Keyword
hi def link dialogControl   Statement
hi def link dialogSpacing   Special
hi def link dialogDeclared  StorageClass
hi def link dialogEntry     Function
hi def link dialogRefused   Error
hi def link dialogComment   Comment
hi def link dialogTodo      Todo

let b:current_syntax = 'dialog'
