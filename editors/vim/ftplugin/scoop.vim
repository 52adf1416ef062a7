" Settings for SCOOP texts.
if exists('b:did_ftplugin')
  finish
endif
let b:did_ftplugin = 1

setlocal comments=:-- commentstring=--\ %s
setlocal formatoptions-=t formatoptions+=croql
" (the layout has a tab for each level)
setlocal noexpandtab shiftwidth=0 softtabstop=0
setlocal suffixesadd=.e
let b:undo_ftplugin = 'setlocal comments< commentstring< formatoptions< expandtab< shiftwidth< softtabstop< suffixesadd<'

" Folds for classes and routines, all open at first.
if get(g:, 'scoop_folding', 1)
  setlocal foldmethod=expr foldexpr=scoop#Fold(v:lnum) foldlevel=99
  let b:undo_ftplugin .= ' foldmethod< foldexpr< foldlevel<'
endif

" `%` jumps between the words of a construct, if matchit is there.
let b:match_ignorecase = 1
let b:match_words = '\<\%(class\|redefine\|do\|if\|from\|check\)\>:\<\%(elseif\|else\|until\|loop\|ensure\)\>:\<end\>'

command! -buffer -bar ScoopFormat call scoop#Format()
compiler scoop
let b:undo_ftplugin .= ' makeprg< errorformat< | unlet! b:match_ignorecase b:match_words b:current_compiler | delcommand -buffer ScoopFormat'
