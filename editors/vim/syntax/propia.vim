" Highlighting of texts for propia.
if exists('b:current_syntax')
  finish
endif

syntax case match
syntax match propiaAtom /\<[a-z][A-Za-z0-9_]*\>/
syntax match propiaVariable /\<[A-Z_][A-Za-z0-9_]*\>/
syntax match propiaNumber /-\?\<[0-9]\+\>/
syntax region propiaQuoted start=/'/ skip=/''/ end=/'/ oneline
syntax match propiaOperator /:-\|?-\|::\|\.\.\|#=<\|#<\|#\\=\|#=\|=/
syntax match propiaMode /\<infers\>\_s*\<\(most\|unique\|consistent\)\>/
syntax match propiaBuiltIn /\<\(plus\|times\|indomain\)\>\ze\_s*(/
syntax match propiaDirective /:-\_s*lib\_s*([^)]*)/
syntax match propiaComment /%.*$/
syntax region propiaComment start=/\/\*/ end=/\*\//

highlight default link propiaAtom Identifier
highlight default link propiaVariable Type
highlight default link propiaNumber Number
highlight default link propiaQuoted String
highlight default link propiaOperator Operator
highlight default link propiaMode Keyword
highlight default link propiaBuiltIn Function
highlight default link propiaDirective PreProc
highlight default link propiaComment Comment

let b:current_syntax = 'propia'
