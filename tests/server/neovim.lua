-- Opens the texts TEXTS in Neovim, each with a language server PROGRAM, then changes the last as CHANGES says, and writes what is shown to ANSWERS.
local told = {}
local shows = vim.lsp.handlers['textDocument/publishDiagnostics']
local function takes(err, result, ctx, config)
  shows(err, result, ctx, config)
  told[#told + 1] = result.version
end
local function seen()
  local found = {}
  for _, it in ipairs(vim.diagnostic.get(0)) do
    found[#found + 1] = {it.code or it.user_data.lsp.code, it.lnum, it.col, it.end_col}
  end
  return found
end
local function waits(count)
  return vim.wait(20000, function() return #told >= count end, 5)
end
local lines = {}
for _, path in ipairs(vim.json.decode(vim.env.TEXTS)) do
  told = {}
  vim.cmd('edit ' .. path)
  local id = vim.lsp.start_client({name = 'blech_ls', cmd = {vim.env.PROGRAM}, root_dir = vim.fn.getcwd(),
    handlers = {['textDocument/publishDiagnostics'] = takes}})
  vim.lsp.buf_attach_client(0, id)
  lines[#lines + 1] = vim.json.encode({name = path, told = waits(1), seen = seen()})
end
for number, text in ipairs(vim.json.decode(vim.env.CHANGES)) do
  local before = #told
  vim.api.nvim_buf_set_lines(0, 0, -1, false, vim.split(text, '\n'))
  lines[#lines + 1] = vim.json.encode({name = 'change ' .. number, told = waits(before + 1), seen = seen()})
end
vim.fn.writefile(lines, vim.env.ANSWERS)
vim.cmd('qall!')
