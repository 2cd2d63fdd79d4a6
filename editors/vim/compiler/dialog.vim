" :compiler dialog, then :make runs the source, and goes to the line where it is refused
" let g:dialog_command = 'dg' names another command, let g:dialog_files = 'game.dg library.dg' with scripts/together several files: see editors/README.md
if exists('current_compiler')
  finish
endif
let current_compiler = 'dialog'

execute 'CompilerSet makeprg=' . escape(get(g:, 'dialog_command', 'dialog'), ' \|"') . '\ debug\ ' . escape(get(g:, 'dialog_files', '%:S'), ' \|"') . '\ </dev/null'
" Only the lines of a refused source are errors: a transcript may hold any text, `at 10:30: the bus` too.
CompilerSet errorformat=%f:%l:\ %\\%%(bad\ character%\\\|unclosed\ construct%\\\|unexpected\ token%\\\|not\ in\ this\ profile%\\\|bad\ head%\\\|access\ rule\ loops\ or\ is\ repeated%\\\|cannot\ be\ changed\ here%\\\|bad\ initial\ value%\\\|too\ many%\\\|no\ rule\ for\ (program\ entry\ point)%\\\|source\ too\ long%\\)%\\@=%m,%-G%.%#
