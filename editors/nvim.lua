-- For Neovim with nvim-dap: dofile('/path/to/zebludor/editors/nvim.lua'), then :lua require('dap').continue() in a source;
-- :make shows what tools/why --lines refuses; require('dap').step_back() and reverse_continue() go back.
local tools = vim.fn.fnamemodify(debug.getinfo(1, 'S').source:sub(2), ':p:h:h') .. '/tools/'
local dap = require('dap')
dap.adapters.zebludor = { type = 'executable', command = tools .. 'dap' }
dap.configurations.asm = { { type = 'zebludor', request = 'launch', name = 'Zebludor', program = '${file}', stopOnEntry = true } }
vim.api.nvim_create_autocmd('FileType', { pattern = 'asm', callback = function()
  vim.bo.makeprg, vim.bo.errorformat = tools .. 'why --lines %', '%f:%l: %trror: %m,%f:%l: %tarning: %m'
end })
