" SPDX-License-Identifier: MIT OR Apache-2.0
" Syntax of definition files of units.
if exists('b:current_syntax') | finish | endif
syntax case match

" Comments. `#:` gives the unit that a definition conforms to, `#=` its status and source.
syntax keyword unitsTodo TODO FIXME XXX contained
syntax match unitsComment /#.*$/ contains=@Spell,unitsTodo
syntax match unitsExpected /#:.*$/ contains=unitsStatusTail
syntax match unitsStatus /#=.*$/ contains=@Spell,unitsStatusWord
syntax match unitsStatusTail /#=.*$/ contained contains=@Spell,unitsStatusWord
syntax match unitsStatusWord /\%(#=\s*\)\@<=\%(exact\|conventional\|measured\|rounded\)\>/ contained

" Expressions
syntax match unitsNumber /\%(\d\+\.\?\d*\|\.\d\+\)\%([eE][-+]\?\d\+\)\?/ contained
" A digit within or after a name belongs to the name.
syntax match unitsWord /[^[:blank:]0-9_,.!#+*\/|^;~()\[\]\-][^[:blank:]#+*\/|^;~()\[\]\-]*/ contained
            \ contains=unitsOperatorWord,unitsRoot,unitsRefused
syntax match unitsOperator /[-+*\/|^;~]/ contained
syntax match unitsOperatorWord /\%(^\|[[:blank:]()]\)\@1<=per\ze\%([[:blank:]()]\|$\)/ contained
syntax match unitsRoot /\<\%(sqrt\|cuberoot\)\ze\s*(/ contained
syntax match unitsRefused /\<\%(a\?\%(sin\|cos\|tan\)h\?\|ln\|log\|log2\|exp\)\ze(/ contained
syntax match unitsPrimitive /!\%(dimensionless\)\?\ze\s*\%(#.*\)\?$/ contained
syntax match unitsOption /\<\%(\%(units\|domain\|range\)\ze=\|noerror\>\)/ contained
syntax match unitsContinued /\\\ze\s*\%(#.*\)\?$/ contained
syntax cluster unitsExpression contains=unitsNumber,unitsWord,unitsOperator,unitsPrimitive,unitsOption,unitsContinued,
            \unitsComment,unitsExpected,unitsStatus

" A backslash at the end of a line continues a definition.
syntax region unitsDefinition matchgroup=unitsName keepend contains=@unitsExpression
            \ start=/^\s*+\?\s*[^[:blank:]0-9_,.!#+*\/|^;~()\[\]\-][^[:blank:]#+*\/|^;~()\[\]\-]*\ze\s/
            \ skip=/\\\s*\%(#.*\)\?$/ end=/$/
syntax region unitsPrefixDefinition matchgroup=unitsPrefix keepend contains=@unitsExpression
            \ start=/^\s*+\?\s*[^[:blank:]0-9_,.!#+*\/|^;~()\[\]\-][^[:blank:]#+*\/|^;~()\[\]\-]*-\ze\s/
            \ skip=/\\\s*\%(#.*\)\?$/ end=/$/
syntax region unitsFunctionDefinition matchgroup=unitsFunction keepend contains=@unitsExpression
            \ start=/^\s*+\?\s*[^[:blank:]0-9_,.!#+*\/|^;~()\[\]\-][^[:blank:]#+*\/|^;~()\[\]\-]*\ze[(\[]/
            \ skip=/\\\s*\%(#.*\)\?$/ end=/$/

" Directives
syntax region unitsUnknownDirective matchgroup=unitsDirectiveError keepend contains=unitsComment
            \ start=/^\s*!\s*\S*/ skip=/\\\s*\%(#.*\)\?$/ end=/$/
syntax region unitsListDefinition matchgroup=unitsDirective keepend contains=unitsList,unitsContinued
            \ start=/^\s*!\s*unitlist\>/ skip=/\\\s*\%(#.*\)\?$/ end=/$/
syntax match unitsList /\%(unitlist\s\+\)\@<=\S\+/ contained nextgroup=unitsListUnits
syntax match unitsListUnits /.*/ contained contains=@unitsExpression
syntax region unitsDirectiveLine matchgroup=unitsDirective keepend contains=unitsComment,unitsContinued
            \ start=/^\s*!\s*\%(include\|\%(end\)\?\%(locale\|var\|utf8\)\|set\|varnot\|message\|prompt\)\ze\%(\s\|$\)/
            \ skip=/\\\s*\%(#.*\)\?$/ end=/$/

highlight default link unitsTodo Todo
highlight default link unitsComment Comment
highlight default link unitsExpected SpecialComment
highlight default link unitsStatus SpecialComment
highlight default link unitsStatusTail SpecialComment
highlight default link unitsStatusWord Keyword
highlight default link unitsNumber Number
highlight default link unitsOperator Operator
highlight default link unitsOperatorWord Operator
highlight default link unitsRoot Keyword
highlight default link unitsRefused Error
highlight default link unitsPrimitive Special
highlight default link unitsOption Keyword
highlight default link unitsContinued Special
highlight default link unitsName Identifier
highlight default link unitsPrefix Type
highlight default link unitsFunction Function
highlight default link unitsList Structure
highlight default link unitsDirective PreProc
highlight default link unitsDirectiveError Error
highlight default link unitsDirectiveLine String

let b:current_syntax = 'units'
