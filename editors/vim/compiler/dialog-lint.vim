" :compiler dialog-lint, then :make shows the slips of the source at hand, and goes to the first
" let g:dialog_command = 'dg' names the program that was installed so, and its linter is dg-lint
if exists('current_compiler')
  finish
endif
let current_compiler = 'dialog-lint'

execute 'CompilerSet makeprg=' . escape(get(g:, 'dialog_command', 'dialog') . '-lint %:S', ' \|"') . '\ </dev/null'
CompilerSet errorformat=%f:%l:\ %m,%-G%.%#
