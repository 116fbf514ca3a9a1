" LOTOS: the language server, by the plugin vim-lsp where it is there. Made by companions/make-editor-files from the table of the reserved words.
if exists("g:loaded_lotos_server")
  finish
endif
let g:loaded_lotos_server = 1
autocmd User lsp_setup call lsp#register_server({
    \ 'name': 'lotos',
    \ 'cmd': {info -> ['lotos-language-server']},
    \ 'allowlist': ['lotos'],
    \ 'initialization_options': {'words': get(g:, 'lotos_words', {})},
    \ })
