-- Starts the language server, unless `vim.g.scoop_server` is false.
if vim.g.scoop_server ~= false then
  require('scoop').start(vim.api.nvim_get_current_buf())
end
