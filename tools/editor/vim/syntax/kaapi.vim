" Jobs of kaapi. Copy this folder's syntax/ and ftdetect/ into ~/.vim/.
if exists("b:current_syntax")
  finish
endif

syntax match kaapiName "\<\h\w*\>"
syntax keyword kaapiDeclaration object task loop main
syntax keyword kaapiStatement let if else for in fork
" these mean something only in their places, and are names elsewhere
syntax match kaapiContext "\<of\>\ze\s*\d"
syntax match kaapiContext "\<\(input\|output\)\>\ze\s*\(output\s*\)\?;"
syntax match kaapiMode "\<\(int\|rp\|wp\|xp\|r\|w\|x\)\>\ze\s\+\h"
syntax match kaapiMode "\<cwp\?\s*(\s*\(add\|min\|max\|and\|or\|xor\)\s*)"
syntax match kaapiOperator "\<\(add\|min\|max\|and\|or\|xor\)\>\ze\s*="
syntax match kaapiFunction "\<\(satadd\|min\|max\|and\|or\|xor\)\>\ze\s*("
syntax match kaapiKernel "\<k_\(mul\|minplus\|stencil\|scan\)\>"
syntax match kaapiNumber "\<\d\+\>"
syntax match kaapiOperator "==\|!=\|<=\|>=\|\.\.\|[-+*/%<>=]"
syntax match kaapiComment "#.*$"
" behind the word there are numbers and no comments
syntax region kaapiData matchgroup=kaapiDeclaration start="\<data\>" end="\%$" contains=kaapiNumber

highlight default link kaapiDeclaration Structure
highlight default link kaapiStatement Statement
highlight default link kaapiContext Keyword
highlight default link kaapiMode StorageClass
highlight default link kaapiFunction Function
highlight default link kaapiKernel Special
highlight default link kaapiNumber Number
highlight default link kaapiOperator Operator
highlight default link kaapiComment Comment

setlocal commentstring=#\ %s
let b:current_syntax = "kaapi"
