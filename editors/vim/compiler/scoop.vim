" Checks a system by scoop: all faults and warnings, each with what is said of it.
" The system is what g:scoop_files or b:scoop_files names, as in `let g:scoop_files = 'src/*.e'`, and else the file of the buffer.
" `:make --root CLASS.PROCEDURE` passes an option on.
if exists('current_compiler')
  finish
endif
let current_compiler = 'scoop'

" (standard output has the lines of the faults alone; standard error has them too, with what is said of each)
let s:files = escape(get(b:, 'scoop_files', get(g:, 'scoop_files', '%:S')), ' \|"')
execute 'CompilerSet makeprg=sh\ -c\ ''exec\ scoop\ check\ --all\ --explain\ \"$@\"\ 2>&1\ >/dev/null''\ scoop\ $*\ ' . s:files

" (a line of the text and its carets are left out if they are indented)
CompilerSet errorformat=%Erefused\ %m\ %f:%l:%c,%Wwarning:\ %m\ %f:%l:%c,%I%f:%l:%c:\ %m,%Z`scoop\ explain\ %.%#,%-C%*[\ \	]%.%#,%C%m
