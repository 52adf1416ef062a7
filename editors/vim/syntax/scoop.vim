" Syntax of scoop's language. Letter case doesn't count.
if exists("b:current_syntax")
  finish
endif

syn case ignore

syn keyword scoopStatement as class create deferred do else elseif end expanded feature from frozen if indexing inherit is local loop note redefine then until
syn keyword scoopContract check ensure invariant require
syn keyword scoopOperator and implies not old or xor
syn keyword scoopMark attached detachable separate
syn keyword scoopConstant current false result true void
syn keyword scoopLeftOut across agent alias assign debug export external inspect like once rename rescue retry select undefine variant when
syn keyword scoopType integer boolean any none
syn keyword scoopPrint print
syn match scoopNumber "\<\d\+\(_\+\d\+\)*\>"
syn match scoopEscape "%[NT%\"']" contained
syn region scoopString start=+"+ skip=+%"+ end=+"+ oneline contains=scoopEscape
syn match scoopComment "--.*$"

hi def link scoopStatement Statement
hi def link scoopContract PreProc
hi def link scoopOperator Operator
hi def link scoopMark StorageClass
hi def link scoopConstant Constant
hi def link scoopLeftOut Error
hi def link scoopType Type
hi def link scoopPrint Function
hi def link scoopNumber Number
hi def link scoopEscape SpecialChar
hi def link scoopString String
hi def link scoopComment Comment

let b:current_syntax = "scoop"
