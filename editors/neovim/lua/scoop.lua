-- The language server of scoop in neovim. `vim/` has all other settings.
local scoop = {}

-- The client of each folder, if this neovim doesn't keep that itself (0.7).
local clients = {}

-- The files of the system, if a variable names them, as `vim.g.scoop_files = 'src/*.e'`: of the buffer, or of all buffers.
local function options(buffer)
  local pattern = vim.b[buffer].scoop_files or vim.g.scoop_files
  if not pattern then
    return vim.empty_dict()
  end
  local found = {}
  for word in pattern:gmatch('%S+') do
    for _, name in ipairs(vim.fn.glob(word, false, true)) do
      table.insert(found, vim.fn.fnamemodify(name, ':p'))
    end
  end
  return { files = found }
end

local function attached(_, buffer)
  vim.bo[buffer].omnifunc = 'v:lua.vim.lsp.omnifunc'
  vim.bo[buffer].tagfunc = 'v:lua.vim.lsp.tagfunc'
end

-- What starts the server for a buffer.
function scoop.configuration(buffer)
  return {
    name = 'scoop',
    cmd = vim.g.scoop_command or { 'scoop', 'lsp' },
    root_dir = vim.fn.fnamemodify(vim.api.nvim_buf_get_name(buffer), ':p:h'),
    init_options = options(buffer),
    on_attach = attached,
  }
end

-- Starts the server for a buffer, or attaches it to the one of its folder.
function scoop.start(buffer)
  local configuration = scoop.configuration(buffer)
  if vim.bo[buffer].buftype ~= '' or vim.fn.executable(configuration.cmd[1]) == 0 then
    return nil
  end
  if vim.lsp.start then
    return vim.lsp.start(configuration, { bufnr = buffer })
  end
  local folder = configuration.root_dir
  if not clients[folder] or vim.lsp.client_is_stopped(clients[folder]) then
    clients[folder] = vim.lsp.start_client(configuration)
  end
  if clients[folder] then
    vim.lsp.buf_attach_client(buffer, clients[folder])
  end
  return clients[folder]
end

return scoop
