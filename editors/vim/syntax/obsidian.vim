" Vim syntax file of the Obsidian language: its words, signs, numbers, strings and comments.
if exists('b:current_syntax')
  finish
endif

syntax case match

" Of two items that match at one place the later one counts.
syntax match obsidianName /\<\h\w*\>/
syntax match obsidianNumber /\d\+/
syntax match obsidianName /\d\@1<=\h\w*/
syntax match obsidianCall /\<\h\w*\ze\_s*(/
syntax match obsidianSign /[{}()\[\];,.@|]/
syntax match obsidianOperator /[=<>+\-*%!]/
syntax match obsidianOperator "/"
syntax match obsidianOperator /->\|>>\|::\|==\|!=\|<=\|>=\|&&\|||/

syntax keyword obsidianDeclaration contract interface nextgroup=obsidianTypeName skipwhite skipempty
syntax keyword obsidianDeclaration transaction nextgroup=obsidianFunctionName skipwhite skipempty
syntax keyword obsidianDeclaration state nextgroup=obsidianStateName skipwhite skipempty
syntax match obsidianTypeName /\h\w*/ contained
syntax match obsidianFunctionName /\h\w*/ contained
syntax match obsidianStateName /\h\w*/ contained

syntax keyword obsidianModifier main asset private implements available returns where is
syntax keyword obsidianPermission Owned Unowned Shared
syntax keyword obsidianType int bool string
syntax keyword obsidianConditional if else
syntax keyword obsidianRepeat while
syntax keyword obsidianStatement return revert disown
syntax keyword obsidianWordOperator new in
syntax keyword obsidianBoolean true false
syntax keyword obsidianThis this

syntax match obsidianBadEscape /\\./ contained
syntax match obsidianEscape /\\["\\nt]/ contained
syntax region obsidianString start=/"/ skip=/\\./ end=/"/ oneline contains=obsidianEscape,obsidianBadEscape

syntax match obsidianComment "//.*$" contains=@Spell
syntax region obsidianComment start="/\*" end="\*/" contains=@Spell

highlight default link obsidianNumber Number
highlight default link obsidianCall Function
highlight default link obsidianOperator Operator
highlight default link obsidianSign Delimiter
highlight default link obsidianDeclaration Structure
highlight default link obsidianTypeName Type
highlight default link obsidianFunctionName Function
highlight default link obsidianStateName Constant
highlight default link obsidianModifier StorageClass
highlight default link obsidianPermission Special
highlight default link obsidianType Type
highlight default link obsidianConditional Conditional
highlight default link obsidianRepeat Repeat
highlight default link obsidianStatement Statement
highlight default link obsidianWordOperator Operator
highlight default link obsidianBoolean Boolean
highlight default link obsidianThis Identifier
highlight default link obsidianEscape SpecialChar
highlight default link obsidianBadEscape Error
highlight default link obsidianString String
highlight default link obsidianComment Comment

let b:current_syntax = 'obsidian'
