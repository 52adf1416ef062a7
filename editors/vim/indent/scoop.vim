" Indentation of SCOOP texts.
if exists('b:did_indent')
  finish
endif
let b:did_indent = 1

setlocal indentexpr=scoop#Indent(v:lnum)
setlocal indentkeys=!^F,o,O,0=~class,0=~inherit,0=~create,0=~feature,0=~invariant,0=~require,0=~local,0=~do,0=~ensure
setlocal indentkeys+=0=~end,0=~elseif,0=~else,0=~until,0=~loop,0=~then
let b:undo_indent = 'setlocal indentexpr< indentkeys<'
