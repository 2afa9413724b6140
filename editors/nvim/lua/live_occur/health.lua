-- :checkhealth live_occur

local M = {}

local health = vim.health or {}

-- What writes a report of this kind: its name differs between the versions of Neovim.
local function reporter(kind)
  return health[kind] or health["report_" .. kind] or vim.fn["health#report_" .. kind]
end

local start, ok, fail = reporter("start"), reporter("ok"), reporter("error")

local SCRIPT = { "text off", "file 0 1", "ab", "flag o on", "patterns 1", "b", "changes" }
local REPLIES = { "ok", "ok", "ok", "ok", "h 0 0 0 1 1", "r 0 1-2", "status 0" }

function M.check()
  local program = vim.fn.expand(require("live_occur.settings").program)
  start("live_occur")
  if vim.fn.has("nvim-0.7") == 1 then
    ok("Neovim is 0.7 or later")
  else
    fail("Neovim is older than 0.7")
  end
  if vim.fn.executable(program) ~= 1 then
    return fail(program .. " isn't found", { "Set `program` in require('live_occur').setup" })
  end
  ok("the program is " .. vim.fn.exepath(program))
  local replies = vim.fn.systemlist({ program }, SCRIPT)
  if vim.deep_equal(replies, REPLIES) then
    ok("it answers as it should; its version is " .. vim.fn.systemlist({ program }, { "version" })[1])
  else
    fail("it doesn't answer as it should: " .. table.concat(replies, ", "), { "Install a newer Gaxtrel" })
  end
end

return M
