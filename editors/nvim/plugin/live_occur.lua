-- The commands of live occur. What they need is loaded at the first use.

if vim.g.loaded_live_occur or vim.fn.has("nvim-0.7") == 0 then
  return
end
vim.g.loaded_live_occur = 1

local function command(name, wanted, options)
  vim.api.nvim_create_user_command(name, function(call) require("live_occur")[wanted](call) end, options)
end
command("LiveOccur", "command",
  { nargs = "*", bang = true, range = true, desc = "List the lines that match, and keep the list right" })
command("LiveOccurQuickfix", "quickfix", { desc = "Make a quickfix list of a list of LiveOccur" })
command("LiveOccurResume", "resume", { desc = "Show the last list of LiveOccur again" })

local group = vim.api.nvim_create_augroup("live_occur", {})
local function on(events, callback, pattern)
  vim.api.nvim_create_autocmd(events, { group = group, callback = callback, pattern = pattern })
end
on({ "BufReadCmd", "BufFilePost" }, function(event)
  require("live_occur").not_kept(event.buf)
end, "live-occur://*")

-- What is typed for a list has a preview.
on({ "CmdlineEnter", "CmdlineChanged" }, function()
  local prompt = package.loaded["live_occur.prompt"]
  if prompt and (prompt.now or prompt.prompt) or vim.fn.getcmdline():find("LiveOccur", 1, true) then
    require("live_occur.prompt").changed()
  end
end)
for event, name in pairs({ CmdwinEnter = "shrink", CmdlineLeave = "leave" }) do
  on(event, function()
    local prompt = package.loaded["live_occur.prompt"]
    if prompt then
      prompt[name]()
    end
  end)
end
