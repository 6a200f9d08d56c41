" Vim syntax of BRASIL scripts. Copy the folders syntax and ftdetect into ~/.vim.
if exists('b:current_syntax')
  finish
endif

syntax case match

" Whatever no other rule takes begins no token.
syntax match brasilBad /\S/

syntax match brasilSymbol /[{}()[\];:,.?]/
syntax match brasilOperator /<-\|[<>=!]=\|&&\|||\|[-<>=!+*/%]/

syntax match brasilNumber /[0-9]\+\(\.[0-9]\+\)\?/

syntax match brasilName /[A-Za-z_][A-Za-z0-9_]*/
syntax match brasilRange /#\(visible\|reach\)\>/
syntax keyword brasilDeclaration class public private state effect const void run die spawn when
syntax keyword brasilStatement if else foreach Extent
syntax keyword brasilType int bool
" As a type, and as a function where a parenthesis follows.
syntax match brasilType /\<fixed\>/
syntax keyword brasilFunction abs sqrt trunc rand
syntax match brasilFunction /\<fixed\>\ze\_s*(/
syntax keyword brasilCombinator min max sum count or
syntax keyword brasilConstant this
syntax keyword brasilBoolean true false

syntax keyword brasilTodo contained TODO FIXME NOTE
syntax match brasilComment "//.*$" contains=brasilTodo
syntax region brasilComment start="/\*" end="\*/" contains=brasilTodo

highlight default link brasilBad Error
highlight default link brasilSymbol Delimiter
highlight default link brasilOperator Operator
highlight default link brasilNumber Number
highlight default link brasilName Identifier
highlight default link brasilRange PreProc
highlight default link brasilDeclaration Keyword
highlight default link brasilStatement Statement
highlight default link brasilType Type
highlight default link brasilFunction Function
highlight default link brasilCombinator Function
highlight default link brasilConstant Constant
highlight default link brasilBoolean Boolean
highlight default link brasilTodo Todo
highlight default link brasilComment Comment

let b:current_syntax = 'brasil'
