-- Drives the language server from Neovim without a screen, for tools/checks/check_lsp.py.
-- UNITS_LSP is PYTHON|SERVER|UNITS_WHY|FILE.
local python, server, program, file = unpack(vim.split(vim.env.UNITS_LSP, '|', { plain = true }))

local function check(holds, text)
  print((holds and 'holds: ' or 'failed: ') .. text .. '\n')
end

vim.cmd('edit ' .. vim.fn.fnameescape(file))
local client = vim.lsp.start_client({
  name = 'units',
  cmd = { python, '-B', server, '--program', program },
  root_dir = vim.fn.fnamemodify(file, ':h'),
})
vim.lsp.buf_attach_client(0, client)
vim.wait(20000, function() return #vim.diagnostic.get(0) > 0 end, 50)

local messages, severities = {}, {}
for _, diagnostic in ipairs(vim.diagnostic.get(0)) do
  messages[diagnostic.lnum], severities[diagnostic.lnum] = diagnostic.message, diagnostic.severity
end
check(messages[1] == 'shelf: unknown unit: missing in shelf', 'diagnostics in Neovim')
check(
  messages[4] == 'rod: 5 m does not conform to kg' and severities[4] == vim.diagnostic.severity.WARN
    and severities[5] == vim.diagnostic.severity.INFO,
  'warnings in Neovim'
)

local function ask(method, line, character)
  local params = {
    textDocument = vim.lsp.util.make_text_document_params(),
    position = { line = line, character = character },
  }
  local answers = vim.lsp.buf_request_sync(0, method, params, 20000) or {}
  local _, answer = next(answers)
  return answer and answer.result
end

local places = ask('textDocument/definition', 0, 9)
check(
  places and places[1] and places[1].uri:match('base.units$') and places[1].range.start.line == 3,
  'definition in Neovim'
)
local hover = ask('textDocument/hover', 3, 10)
check(hover and hover.contents.value:match('^board: plural, 12 in = 0.3048 m'), 'hover in Neovim')

vim.api.nvim_buf_set_lines(0, 1, 2, false, { 'shelf 3 in' })
vim.wait(20000, function() return #vim.diagnostic.get(0) == 3 end, 50)
check(#vim.diagnostic.get(0) == 3, 'diagnostics of a change in Neovim')
