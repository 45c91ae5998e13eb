-- Neovim over `twire lsp`: opens a brief, breaks it, mends it, and lays it out. Each case is a line 'ok' or 'FAILED'.
-- For Neovim 0.7.2: nvim --headless -u NONE -c 'luafile neovim.lua', with the program in TWIRE, and the brief in BRIEF.
local function want(name, wanted, found)
  local line = vim.inspect(wanted) == vim.inspect(found) and 'ok ' .. name
    or 'FAILED: ' .. name .. ': wanted ' .. vim.inspect(wanted) .. ' found ' .. vim.inspect(found)
  io.stdout:write(line .. '\n')
end

local function lines()
  return vim.api.nvim_buf_get_lines(0, 0, -1, false)
end

-- What is shown: its code, its line from 0 on, and its columns; and its severity, where that is not an error.
local function shown()
  local found = {}
  for _, one in ipairs(vim.diagnostic.get(0)) do
    local severity = one.severity ~= vim.diagnostic.severity.ERROR and one.severity or nil
    table.insert(found, { one.code or one.user_data.lsp.code, one.lnum, one.col, one.end_col, severity })
  end
  table.sort(found, function(a, b) return a[2] < b[2] or a[2] == b[2] and a[3] < b[3] end)
  return found
end

-- What is shown once this many are.
local function shown_when(count)
  vim.wait(20000, function() return #vim.diagnostic.get(0) == count end, 20)
  return shown()
end

local function ask(method, line, character)
  local params = { textDocument = vim.lsp.util.make_text_document_params(), position = { line = line, character = character } }
  local answers = vim.lsp.buf_request_sync(0, method, params, 20000)
  for _, answer in pairs(answers or {}) do return answer.result end
end

local function run()
  vim.cmd('edit ' .. vim.fn.fnameescape(vim.env.BRIEF))
  local status
  local client = vim.lsp.start_client({
    name = 'twire', cmd = { vim.env.TWIRE, 'lsp' },
    on_exit = function(code) status = code end,
  })
  vim.lsp.buf_attach_client(0, client)
  want('an unsafe pair, at both messages', { { 'unsafe', 2, 8, 19 }, { 'unsafe', 3, 8, 18 } }, shown_when(2))

  vim.api.nvim_buf_set_lines(0, 5, 6, false, { 'controller guard read_limt ;' })
  local before = vim.diagnostic.severity.INFO
  want('a brief that is broken, and what was unsafe before',
    { { 'unsafe', 2, 8, 19, before }, { 'unsafe', 3, 8, 18, before }, { 'P8', 5, 17, 26 } }, shown_when(3))

  vim.api.nvim_buf_set_lines(0, 5, 6, false, { 'controller guard    read_limit ;', 'never main   guard;' })
  want('a brief that is mended', {}, shown_when(0))

  local said = ask('textDocument/hover', 3, 10)
  want('what a message is', true, said ~= nil and said.contents.value:find('S 48 Wr A 01 A Sr 48 Rd A (1 read) NA P', 1, true) ~= nil)
  local at = ask('textDocument/definition', 5, 22)
  want('where a message is given', { 3, 8 }, { at.range.start.line, at.range.start.character })

  vim.lsp.buf.formatting_sync(nil, 20000)
  want('a brief that is laid out', vim.fn.readfile(vim.env.FORMATTED), lines())
  vim.lsp.buf.formatting_sync(nil, 20000)
  want('and once more', vim.fn.readfile(vim.env.FORMATTED), lines())

  vim.lsp.stop_client(client)
  vim.wait(20000, function() return status ~= nil end, 20)
  want('the status of the server', 0, status)
end

-- A board in three files, all of which are named. The second one is opened first.
local function board()
  local files = vim.split(vim.env.BOARD, ' ')
  local command, status = { vim.env.TWIRE, 'lsp' }, nil
  for _, file in ipairs(files) do vim.list_extend(command, { '--with', file }) end
  local client = vim.lsp.start_client({ name = 'twire', cmd = command, on_exit = function(code) status = code end })
  vim.cmd('edit ' .. files[2])
  vim.lsp.buf_attach_client(0, client)
  vim.wait(20000, function() return (vim.lsp.get_client_by_id(client) or {}).initialized end, 20)
  local at = ask('textDocument/definition', 1, 20)
  want('a device of the first file', { vim.uri_from_fname(vim.fn.fnamemodify(files[1], ':p')), 1 }, { at.uri, at.range.start.line })
  want('nothing is wrong with the file that was opened first', {}, shown())

  vim.cmd('edit ' .. files[3])
  vim.lsp.buf_attach_client(0, client)
  vim.api.nvim_buf_set_lines(0, 1, 2, false, { 'message get write eeprom any*2 ;' })
  want('an unsafe pair, at its second message', { { 'unsafe', 1, 8, 11 } }, shown_when(1))
  vim.cmd('buffer ' .. files[2])
  want('and at its first one', { { 'unsafe', 1, 8, 11 } }, shown_when(1))
  vim.cmd('edit! ' .. files[1])
  vim.lsp.buf_attach_client(0, client)
  vim.api.nvim_buf_set_lines(0, 1, 2, false, { 'device eprom 0x50 ;' })
  vim.cmd('buffer ' .. files[2])
  vim.wait(20000, function() return #shown() == 2 and shown()[2][1] == 'P8' end, 20)
  want('a name that the first file has no more, and what was unsafe before',
    { { 'unsafe', 1, 8, 11, vim.diagnostic.severity.INFO }, { 'P8', 1, 18, 24 } }, shown())

  vim.lsp.stop_client(client)
  vim.wait(20000, function() return status ~= nil end, 20)
  want('the status of the server of a board', 0, status)
end

local fine, why = pcall(run)
if fine then
  vim.cmd('set hidden | enew!')
  fine, why = pcall(board)
end
if not fine then io.stdout:write('FAILED: ' .. tostring(why) .. '\n') end
vim.cmd('qall!')
