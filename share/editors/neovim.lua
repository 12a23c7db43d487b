-- SPDX-License-Identifier: MIT OR Apache-2.0
-- Neovim: diagnostics, go to definition and hover for definition files of units. Load it in ~/.config/nvim/init.lua:
--   dofile('/usr/local/share/units/editors/neovim.lua')
local here = debug.getinfo(1, 'S').source:match('^@(.*/)') or './'
local server = here .. '../lsp/units_lsp.py'
if vim.fn.filereadable(server) == 0 then server = here .. '../../tools/units_lsp.py' end

vim.api.nvim_create_autocmd({ 'BufRead', 'BufNewFile' }, { pattern = '*.units', command = 'setfiletype units' })
vim.api.nvim_create_autocmd('FileType', {
  pattern = 'units',
  callback = function(event)
    local client = vim.lsp.start_client({
      name = 'units',
      cmd = { 'python3', server },
      root_dir = vim.fn.fnamemodify(event.file, ':p:h'),
      -- init_options = {
      --   root = 'all.units', -- the file to check, relative to the folder of the edited one
      --   findings = { '--captures', '--unused' }, -- what is reported besides the default findings
      -- },
    })
    vim.lsp.buf_attach_client(event.buf, client)
  end,
})
