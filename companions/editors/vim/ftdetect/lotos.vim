" LOTOS: which files it is. Made by companions/make-editor-files from the table of the reserved words.
autocmd BufNewFile,BufRead *.lotos setfiletype lotos
