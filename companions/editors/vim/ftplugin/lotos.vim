" LOTOS: comments, pairs of words, and :make. Made by companions/make-editor-files from the table of the reserved words.
if exists("b:did_ftplugin")
  finish
endif
let b:did_ftplugin = 1
setlocal comments=s1:(*,mb:*,ex:*) commentstring=(*\ %s\ *)
setlocal expandtab shiftwidth=2 softtabstop=2
let b:match_ignorecase = 1
let b:match_words = '\<specification\>:\<behaviou\?r\>:\<endspec\>,\<process\>:\<endproc\>'
    \ . ',\<type\>:\<endtype\>,\<library\>:\<endlib\>'
let b:undo_ftplugin = "setlocal comments< commentstring< expandtab< shiftwidth< softtabstop<"
    \ . " | unlet! b:match_words b:match_ignorecase"
compiler lotos
