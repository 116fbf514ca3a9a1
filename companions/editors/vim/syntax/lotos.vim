" LOTOS: colours. Made by companions/make-editor-files from the table of the reserved words.
if exists("b:current_syntax")
  finish
endif
syntax case ignore
syntax keyword lotosStructure endspec endproc endtype library endlib behaviour behavior where is
syntax keyword lotosStructure specification process type nextgroup=lotosDefinition skipwhite skipempty
syntax keyword lotosSection sorts opns eqns formalsorts formalopns formaleqns forall ofsort of for using renamedby actualizedby sortnames opnnames
syntax keyword lotosBehaviour stop exit noexit i hide in let choice par accept any
syntax match lotosOffer "[!?]"
syntax match lotosSign "|||\|||\||\[\|\]|\|\[\]\|\[>\|>>\|:=\|->\|=>"
syntax match lotosDefinition "\w\+" contained
syntax match lotosSort ":\_s*\zs\a\w*"
syntax match lotosNoSort ":\_s*\zs\%(noexit\|exit\)\>"
syntax region lotosComment start="(\*" end="\*)" contains=@Spell
syntax sync minlines=200
highlight default link lotosStructure Structure
highlight default link lotosSection Statement
highlight default link lotosBehaviour Keyword
highlight default link lotosNoSort Keyword
highlight default link lotosOffer Special
highlight default link lotosSign Operator
highlight default link lotosDefinition Function
highlight default link lotosSort Type
highlight default link lotosComment Comment
let b:current_syntax = "lotos"
