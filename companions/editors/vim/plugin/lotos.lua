-- LOTOS: the language server, by the client that Neovim has. Made by companions/make-editor-files from the table of the reserved words.
if vim.g.loaded_lotos_client or not vim.lsp then
  return
end
vim.g.loaded_lotos_client = true
vim.api.nvim_create_autocmd("FileType", {
  pattern = "lotos",
  callback = function(about)
    local server = {
      name = "lotos",
      cmd = { "lotos-language-server" },
      root_dir = vim.fn.fnamemodify(vim.api.nvim_buf_get_name(about.buf), ":p:h"),
      init_options = { words = vim.g.lotos_words or vim.empty_dict() },
    }
    if vim.lsp.start then
      vim.lsp.start(server)
    else
      vim.lsp.buf_attach_client(about.buf, vim.lsp.start_client(server))
    end
  end,
})
