-- A session with the settings of editors/, in the folder that tests/neovim makes.
local compared, wrong = 0, 0
local ended

local function say(text)
  io.stderr:write(text .. '\n')
end

local function expect(what, wanted, found)
  compared = compared + 1
  if not vim.deep_equal(wanted, found) then
    wrong = wrong + 1
    say(what .. ': wanted `' .. vim.inspect(wanted) .. '`, and there is `' .. vim.inspect(found) .. '`')
  end
end

local function finish()
  say(('neovim: %d answers compared, %d of them wrong'):format(compared, wrong))
  vim.cmd(wrong == 0 and 'qall!' or 'cquit!')
end

-- The diagnostics once there are `count` of them, or after twenty seconds.
local function diagnostics(count)
  vim.wait(20000, function() return #vim.diagnostic.get(0) == count end, 20)
  return vim.diagnostic.get(0)
end

local function lines()
  return vim.api.nvim_buf_get_lines(0, 0, -1, true)
end

-- Where a text begins in the buffer: line and byte, from 0.
local function place(text)
  for number, line in ipairs(lines()) do
    local at = line:find(text, 1, true)
    if at then return number - 1, at - 1 end
  end
end

local function go_to(text)
  local line, byte = place(text)
  vim.api.nvim_win_set_cursor(0, { line + 1, byte })
end

-- Each example without its indentation is indented as it was, but for comments.
local function indents()
  local differing = {}
  for _, file in ipairs(vim.fn.glob(vim.env.TOP .. '/examples/**/*.e', false, true)) do
    vim.cmd('edit ' .. vim.fn.fnameescape(file))
    local wanted = lines()
    vim.cmd([[silent %s/^\s\+//e]])
    vim.cmd('silent normal! gg=G')
    for number, line in ipairs(lines()) do
      if line ~= wanted[number] and not wanted[number]:find('^%s*%-%-') then
        table.insert(differing, ('%s:%d: %s'):format(file, number, line))
      end
    end
    vim.cmd('bwipeout!')
  end
  expect('indentation of the examples', {}, differing)
end

-- `:make` lists the fault of a system of two files, with its help.
local function lists_faults()
  local line, byte = place('conut')
  vim.cmd('silent make!')
  local found = vim.fn.getqflist()
  expect('faults by :make', 1, #found)
  local fault = found[1] or {}
  expect('place of the fault by :make', { line + 1, byte + 1, 'E' }, { fault.lnum, fault.col, fault.type })
  expect('what :make says of it', 'V1 UnknownName\nnothing that is known here has the name `conut`\nhelp: did you mean `count`?', fault.text)
end

-- Folds of class and routine, and the layout.
local function has_settings()
  expect('the type of the file', 'scoop', vim.bo.filetype)
  expect('what begins a comment', '-- %s', vim.bo.commentstring)
  expect('folds', { 1, 1, 2, 2, 2, 1 }, vim.tbl_map(vim.fn.foldlevel, { 1, 3, 5, 6, 8, 9 }))
  vim.api.nvim_buf_set_lines(0, 2, 3, true, { '  count :INTEGER' })
  vim.cmd('ScoopFormat')
  expect('the layout by :ScoopFormat', true, vim.tbl_contains(lines(), '\tcount: INTEGER'))
end

local function tries_settings()
  vim.g.scoop_server = false
  indents()
  vim.g.scoop_files = 'app.e cell.e'
  vim.cmd('edit app.e')
  lists_faults()
  has_settings()
  vim.cmd('bwipeout!')
  vim.g.scoop_files, vim.g.scoop_server = nil, nil
end

local function ask(method, parameters)
  local answers = vim.lsp.buf_request_sync(0, method, parameters, 20000) or {}
  for _, answer in pairs(answers) do
    if answer.error then say(method .. ': ' .. vim.inspect(answer.error)) end
    return answer.result
  end
end

local function at_cursor()
  return vim.lsp.util.make_position_params(0, 'utf-16')
end

local function of_file()
  return { textDocument = vim.lsp.util.make_text_document_params() }
end

-- The client of the buffer once the server is ready.
local function ready_client()
  local client
  vim.wait(20000, function()
    for _, it in pairs((vim.lsp.get_clients or vim.lsp.buf_get_clients)()) do client = it end
    return client and client.initialized
  end, 20)
  return client
end

-- One fault: in a line with characters of two and four bytes, of a class that uses the class of another file.
local function reads_a_fault()
  local found = diagnostics(1)
  expect('diagnostics of a fault', 1, #found)
  local fault = found[1] or {}
  local line, byte = place('conut')
  expect('place of the fault', { line, byte, byte + 5 }, { fault.lnum, fault.col, fault.end_col })
  expect('severity of the fault', vim.diagnostic.severity.ERROR, fault.severity)
  expect('code of the fault', 'V1', tostring(fault.code or vim.tbl_get(fault, 'user_data', 'lsp', 'code')))
  expect('the fault names what is unknown', true, (fault.message or ''):find('conut', 1, true) ~= nil)
end

-- Over a fault it is said what its code means, over a name how that is declared.
local function hovers()
  go_to('conut')
  local answer = ask('textDocument/hover', at_cursor()) or {}
  expect('what the code means', 1, (vim.inspect(answer.contents):find('V1 UnknownName', 1, true) and 1))
  go_to('cell print')
  local said = ask('textDocument/hover', at_cursor()) or {}
  expect('what the name means', 'cell: CELL', (said.contents or {}).value)
  go_to('feature')
  expect('what is said of a place without a fault', nil, ask('textDocument/hover', at_cursor()))
end

-- The help's edit is a code action, and mends the fault.
local function applies_a_help()
  go_to('conut')
  local line, byte = place('conut')
  local parameters = vim.lsp.util.make_given_range_params({ line + 1, byte }, { line + 1, byte + 4 }, 0, 'utf-16')
  parameters.context = { diagnostics = {} }
  local edits = vim.tbl_filter(function(action) return action.edit ~= nil end, ask('textDocument/codeAction', parameters) or {})
  expect('code actions with an edit', 1, #edits)
  if edits[1] then vim.lsp.util.apply_workspace_edit(edits[1].edit, 'utf-16') end
  expect('the fault is mended', { nil, true }, { (place('conut')), place('count := 1') ~= nil })
  expect('diagnostics of the mended text', 0, #diagnostics(0))
end

-- What is typed is checked at once, also while the text isn't grammatical.
local function follows_typing()
  local line = place('count := 1')
  vim.api.nvim_buf_set_lines(0, line + 1, line + 1, true, { '\t\t\tcount := True' })
  local found = diagnostics(1)
  expect('place of a fault that was typed', { 1, line + 1 }, { #found, (found[1] or {}).lnum })
  vim.api.nvim_buf_set_lines(0, line + 1, line + 2, true, { '\t\t\tcount :=' })
  expect('diagnostics of a text that is cut', 1, #diagnostics(1))
  vim.api.nvim_buf_set_lines(0, line + 1, line + 2, true, {})
  expect('diagnostics after that is deleted', 0, #diagnostics(0))
end

-- The layout is that of `scoop format`.
local function formats()
  local line = place('count := 1')
  vim.api.nvim_buf_set_lines(0, line + 1, line + 1, true, { '   count:=count+1 -- more' })
  local before = lines()
  local wanted = vim.fn.systemlist({ 'scoop', 'format', '-' }, before)
  if vim.lsp.buf.format then vim.lsp.buf.format({ timeout_ms = 20000 }) else vim.lsp.buf.formatting_sync(nil, 20000) end
  expect('the layout', wanted, lines())
  expect('the layout changes something', false, vim.deep_equal(before, wanted))
  expect('diagnostics of the text in its layout', 0, #diagnostics(0))
end

local function lists_symbols()
  local names = {}
  local function add(symbols)
    for _, symbol in ipairs(symbols or {}) do
      names[symbol.name] = true
      add(symbol.children)
    end
  end
  add(ask('textDocument/documentSymbol', of_file()))
  expect('symbols', { true, true, true, nil }, { names.APPLICATION, names.count, names.make, names.CELL })
end

local function folds()
  local found = vim.tbl_filter(function(it) return it.startLine == 0 and it.endLine > 6 end, ask('textDocument/foldingRange', of_file()) or {})
  expect('a fold of the class', 1, #found)
end

-- The range of a text on the first line that has it.
local function range(text)
  local line, byte = place(text)
  return { start = { line = line, character = byte }, ['end'] = { line = line, character = byte + #text } }
end

-- A name is declared in this file or in the other one, and is written in several places.
local function finds_names()
  go_to('count := 1')
  local found = ask('textDocument/definition', at_cursor()) or {}
  expect('where a name is declared', range('count'), found.range)
  local parameters = at_cursor()
  parameters.context = { includeDeclaration = true }
  expect('places of a name', 4, #(ask('textDocument/references', parameters) or {}))
  go_to('CELL')
  found = ask('textDocument/definition', at_cursor()) or {}
  expect('the file of a class', 'cell.e', vim.fn.fnamemodify(vim.uri_to_fname(found.uri or 'file:///'), ':t'))
end

-- What is in scope can be written, with its type.
local function completes()
  local line = place('count := 1')
  vim.api.nvim_buf_set_lines(0, line + 1, line + 1, true, { '\t\t\tcount := co' })
  vim.api.nvim_win_set_cursor(0, { line + 2, 13 })
  local details = {}
  for _, item in ipairs(ask('textDocument/completion', at_cursor()) or {}) do details[item.label] = item.detail or '' end
  expect('what can be written', { 'count: INTEGER', 'cell: CELL', '' }, { details.count, details.cell, details['if'] })
  vim.api.nvim_buf_set_lines(0, line + 1, line + 2, true, {})
  expect('diagnostics after that', 0, #diagnostics(0))
end

-- A name is changed everywhere, in both files, or not at all.
local function renames()
  go_to('CELL')
  local parameters = vim.tbl_extend('force', at_cursor(), { newName = 'BOX' })
  local edit = ask('textDocument/rename', parameters) or {}
  expect('files in which a class changes', 2, vim.tbl_count(edit.changes or {}))
  go_to('count := 1')
  parameters = vim.tbl_extend('force', at_cursor(), { newName = 'total' })
  vim.lsp.util.apply_workspace_edit(ask('textDocument/rename', parameters) or {}, 'utf-16')
  expect('the name is changed', { nil, true }, { (place('count')), place('total := total + 1') ~= nil })
  expect('diagnostics after a name is changed', 0, #diagnostics(0))
end

local steps = { reads_a_fault, hovers, applies_a_help, follows_typing, formats, lists_symbols, folds, finds_names, completes, renames }

local function tries_server()
  local scoop = require('scoop')
  local configuration = scoop.configuration
  scoop.configuration = function(buffer)
    return vim.tbl_extend('force', configuration(buffer), { on_exit = function(code) ended = code end })
  end
  vim.g.scoop_files = 'app.e cell.e'
  vim.cmd('edit app.e')
  local client = ready_client()
  expect('a client of the buffer', 'scoop', client and client.name)
  if not client then return end
  for _, step in ipairs(steps) do
    step()
  end
  vim.lsp.stop_client(client.id)
  vim.wait(20000, function() return ended ~= nil end, 20)
  expect('the status of the server', 0, ended)
end

for _, part in ipairs(vim.env.SERVER and { tries_settings, tries_server } or { tries_settings }) do
  local done, why = pcall(part)
  if not done then expect('the session: ' .. why, true, false) end
end
finish()
