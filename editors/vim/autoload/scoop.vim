" Indentation, folds and layout of SCOOP texts.

" What an `end` closes.
let s:openers = ['class', 'redefine', 'do', 'if', 'from', 'check']
" What begins a line at the depth of the construct that it belongs to.
let s:parts = ['end', 'elseif', 'else', 'until', 'loop', 'ensure', 'then']
let s:sections = ['note', 'indexing', 'deferred', 'expanded', 'frozen', 'class', 'inherit', 'create', 'feature', 'invariant']
let s:class = '^\s*\%(\%(deferred\|expanded\|frozen\)\s\+\)\=class\>'

" A line without its strings and its comment.
function! s:Code(lnum) abort
  return substitute(getline(a:lnum), '"\%([^"%]\|%.\)*"\=\|--.*$', '', 'g')
endfunction

" The first word of a line, in lower case.
function! s:Word(lnum) abort
  return tolower(matchstr(s:Code(a:lnum), '^\s*\zs\w\+'))
endfunction

" The word and the line of the innermost construct that is open before a line; ['', 0] outside of classes.
function! s:Innermost(lnum) abort
  let l:start = a:lnum - 1
  while l:start > 1 && getline(l:start) !~? '^\s*feature\>' && getline(l:start) !~? s:class
    let l:start -= 1
  endwhile
  let l:open = getline(l:start) =~? '^\s*feature\>' ? [['class', 0]] : []
  for l:at in range(l:start, a:lnum - 1)
    for l:word in split(tolower(s:Code(l:at)), '\W\+')
      if index(s:openers, l:word) >= 0
        call add(l:open, [l:word, l:at])
      elseif l:word ==# 'end' && !empty(l:open)
        call remove(l:open, -1)
      endif
    endfor
  endfor
  return empty(l:open) ? ['', 0] : l:open[-1]
endfunction

" The nearest line of code before a line, or after it, or 0.
function! s:CodeLine(lnum, step) abort
  let l:at = a:lnum + a:step
  while l:at >= 1 && l:at <= line('$')
    if s:Code(l:at) =~# '\S'
      return l:at
    endif
    let l:at += a:step
  endwhile
  return 0
endfunction

" The depth of a line directly in a class, or before one.
function! s:ClassDepth(lnum, word) abort
  if index(s:sections + ['end'], a:word) >= 0
    return 0
  elseif index(['require', 'local', 'do', 'ensure'], a:word) >= 0
    return 2
  endif
  let l:at = s:CodeLine(a:lnum, -1)
  while l:at > 0
    let l:word = s:Word(l:at)
    if index(['require', 'local'], l:word) >= 0
      return 3
    elseif index(s:sections + ['end'], l:word) >= 0
      return l:word ==# 'end' && indent(l:at) == 0 ? 0 : 1
    endif
    let l:at = s:CodeLine(l:at, -1)
  endwhile
  return 0
endfunction

" How far a line is indented, as `scoop format` does it: a comment as the code after it.
function! scoop#Indent(lnum) abort
  let l:code = s:Code(a:lnum) =~# '\S' || getline(a:lnum) !~# '\S' ? a:lnum : s:CodeLine(a:lnum, 1)
  let l:word = s:Word(l:code)
  let [l:opener, l:at] = s:Innermost(a:lnum)
  if l:opener ==# '' || l:opener ==# 'class'
    return s:ClassDepth(a:lnum, l:word) * shiftwidth()
  elseif index(s:parts, l:word) >= 0
    return indent(l:at)
  endif
  let l:goes_on = s:Code(s:CodeLine(a:lnum, -1)) =~? '\%([-+*/\\=<>]\|\<\%(and\|or\|xor\|implies\|not\)\)\s*$'
  return indent(l:at) + (l:goes_on ? 2 : 1) * shiftwidth()
endfunction

" A fold for each class, and one for each routine in it.
function! scoop#Fold(lnum) abort
  let l:depth = indent(a:lnum) / shiftwidth()
  if getline(a:lnum) =~? s:class
    return '>1'
  elseif getline(a:lnum) =~? '^end\>'
    return '<1'
  elseif l:depth == 1 && indent(nextnonblank(a:lnum + 1)) / shiftwidth() > 1
    return '>2'
  elseif l:depth == 2 && getline(a:lnum) =~? '^\s*end\>'
    return '<2'
  endif
  return '='
endfunction

" Puts the text in its layout by `scoop format`, or says why it is refused.
function! scoop#Format() abort
  let l:text = systemlist('scoop format -', getline(1, '$'))
  if v:shell_error
    echohl ErrorMsg | echomsg join(l:text, ' ') | echohl None
    return
  endif
  let l:view = winsaveview()
  call setline(1, l:text)
  if line('$') > len(l:text)
    silent execute len(l:text) + 1 . ',$delete _'
  endif
  call winrestview(l:view)
endfunction
