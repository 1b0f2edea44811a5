" `:compiler obsidian`, and then `:make` checks the file: the quickfix list has the place of its fault and what is said of it.
if exists('current_compiler')
  finish
endif
let current_compiler = 'obsidian'
CompilerSet makeprg=obsidian\ check\ %:S
" The program's line and its mark are left out of a message; what is wrong, the note and the help stay.
CompilerSet errorformat=%f:%l:%c:\ %tote:\ %m,%E%f:%l:%c:\ %n\ %m,%-C%*\\d\ \|%.%#,%-C\ %#\|%.%#,%+C\ \ %m,%-G%.%#
