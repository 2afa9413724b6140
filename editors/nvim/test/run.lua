-- Tests of live occur, in Neovim without settings:
--
--     OCCUR=build/occur GREP=build/grep nvim --headless -u NONE -i NONE -n -S editors/nvim/test/run.lua
--
-- EDITS and SEED in the environment change the random edits, LINES the sizes that are timed, STALL for how
-- many milliseconds Neovim may not answer, and ONLY which tests are run.

local here = vim.fn.fnamemodify(debug.getinfo(1, "S").source:sub(2), ":p:h")
vim.opt.runtimepath:prepend(vim.fn.fnamemodify(here, ":h"))
package.path = here .. "/?.lua;" .. package.path
vim.cmd("runtime plugin/live_occur.lua")
vim.o.hidden = true
vim.o.swapfile = false

local bench = require("bench")
vim.api.nvim_echo = function(chunks) -- Messages would be between the lines of the tests.
  bench.said = table.concat(vim.tbl_map(function(chunk)
    return chunk[1]
  end, chunks))
end
require("live_occur").setup({ program = vim.fn.fnamemodify(vim.env.OCCUR or "occur", ":p"), delay = 20 })
local ran, fault = xpcall(function()
  local all = "pure characters lists keys edit preview faults project states random script large"
  for _, name in ipairs(vim.split(vim.env.ONLY or all, " ")) do
    dofile(here .. "/" .. name .. "_test.lua")
  end
end, debug.traceback)
if not ran then
  bench.fail("the tests", fault)
end
io.stdout:write(("%d passed, %d failed\n"):format(bench.passed, bench.failed))
vim.cmd("cquit " .. (bench.failed == 0 and 0 or 1))
