-- The commands, and what other code can call.

local settings = require("live_occur.settings")
local shared = require("live_occur.shared")

local api, fn = vim.api, vim.fn
local blame = shared.blame
local M = {}

-- Changes settings.
function M.setup(options)
  for name, value in pairs(options or {}) do
    if settings[name] == nil and name ~= "states" then
      error("live_occur has no setting " .. name, 2)
    end
    settings[name] = value
  end
end

-- Runs the autocommands of users for an event, in a buffer.
function M.tell(event, buffer)
  if api.nvim_buf_is_valid(buffer) and fn.exists("#User#" .. event) == 1 then
    local ran, problem = pcall(api.nvim_buf_call, buffer, function()
      api.nvim_exec_autocmds("User", { pattern = event, modeline = false })
    end)
    blame(not ran and problem)
  end
end

-- Shows a list in a window of its own, where `mods` say. Returns a fault, where there is no room.
local function show_window(list, mods)
  local has_place = mods and mods:find("%l")
  local ran, problem = pcall(function()
    vim.cmd(has_place and mods .. " split" or "botright " .. settings.height .. "split")
    api.nvim_win_set_buf(0, list.buffer)
    if has_place and (mods:find("vert") or mods:find("tab")) then
      vim.wo.winfixheight = false
    end
  end)
  return not ran and shared.short(problem) or nil
end

-- Ends a list, and notes what it was, so that it can be resumed.
local function finish(list, group)
  if not list.closed then
    M.last = { buffers = {}, wish = list.wish, context = list.context, root = list.root }
    for _, file in ipairs(list.root and {} or list.files) do
      if shared.is_valid(file.buffer) then
        table.insert(M.last.buffers, file.buffer)
        M.last.range = M.last.range or file.ranged and { file.from + 1, file.to } or nil
      end
    end
  end
  list:close()
  vim.schedule(function()
    pcall(api.nvim_del_augroup_by_id, group)
    pcall(api.nvim_buf_delete, list.buffer, { force = true })
  end)
end

local function watch(list)
  local edit, keys = require("live_occur.edit"), require("live_occur.keys")
  local buffer = list.buffer
  local group = api.nvim_create_augroup("live_occur_" .. buffer, {})
  local function on(events, callback, everywhere)
    local options = { group = group, callback = callback, buffer = not everywhere and buffer or nil }
    options.nested = events == "BufWriteCmd" -- Files are saved, which other plugins follow.
    api.nvim_create_autocmd(events, options)
  end
  local function close()
    finish(list, group)
  end
  on("BufWipeout", close)
  on("VimLeavePre", close, true)
  on("BufUnload", function()
    local quit = vim.bo[buffer].bufhidden == "unload"
    vim.schedule(function() -- `:e` unloads it, too, and has loaded it again by then.
      if not list.closed and not api.nvim_buf_is_loaded(buffer) then -- After `:q!` it goes on.
        (quit and fn.bufload or close)(buffer)
      end
    end)
  end)
  on("QuitPre", function()
    if list.edit then -- Vim asks about a buffer that isn't just hidden.
      vim.bo[buffer].bufhidden = "unload"
      vim.schedule(function()
        if api.nvim_buf_is_valid(buffer) then
          vim.bo[buffer].bufhidden = "hide"
        end
      end)
    end
  end)
  on("BufReadCmd", function() -- `:e` gives an edit up, or writes the rows anew.
    if list.edit then
      edit.finish(list)
      return shared.say("the rows are as they were")
    end
    list:put(0, -1, { "" })
    list:restart()
  end)
  on("BufWriteCmd", function(event) edit.write(list, event.file) end)
  on("BufWinEnter", list.set_window)
  on("CursorMoved", function() keys.moved(list) end)
  on("BufLeave", function() keys.unmark() end)
  on("BufFilePost", function() list:put_headings() end, true)
  on({ "BufReadPost", "BufNewFile", "BufWinEnter" }, function(event) list:loaded(event.buf) end, true)
end

-- Shows a list that was made, with its keys. Returns a fault where there is no room.
local function show(list, mods)
  require("live_occur.draw").start()
  list:make_buffer()
  watch(list)
  local fault = show_window(list, mods)
  if fault then
    list:close()
    api.nvim_buf_delete(list.buffer, { force = true })
    return fault
  end
  require("live_occur.keys").set(list)
  vim.bo[list.buffer].filetype = "live_occur" -- A user's own keys for it come after these.
  list:step()
end

-- Opens a list of the lines of buffers that match a pattern, or several with newlines between. The options
-- are `syntax`, `flags`, `range`, `root` and `mods`. Returns it, or nil and a fault with, for a refused
-- pattern, the place.
function M.open(pattern, buffers, options)
  local wanted = vim.tbl_extend("force", { buffers = buffers, pattern = pattern }, options or {})
  if fn.getcmdwintype() ~= "" then
    return nil, "there can be no list while the window of the command line is open"
  end
  local prompt = require("live_occur.prompt")
  local switch, preview = prompt.switch, prompt.take(wanted)
  local list, fault, place = preview and preview.list, nil, nil
  if not list then
    list, fault = require("live_occur.list").new(buffers, wanted)
  end
  if not list then
    return nil, fault
  end
  fault, place = list:change_now(function(wish)
    wish.patterns = wanted.wish and wish.patterns or vim.split(pattern, "\n")
    wish.syntax = wanted.syntax or wish.syntax
    switch(wish)
  end)
  if fault then
    list:close()
    return nil, fault, place
  end
  list.context = wanted.context or list.context
  fault = show(list, wanted.mods)
  if fault then
    return nil, fault
  end
  require("live_occur.keys").take_up(list, preview)
  return list
end

-- Opens a list, or says why there is none; the byte of the pattern where a fault is has the group ErrorMsg.
local function open_or_tell(wanted, mods)
  wanted.mods = mods
  local list, fault, place = M.open(wanted.pattern, wanted.buffers, wanted)
  if list or not place then
    return blame(fault)
  end
  local pattern, at = wanted.pattern, wanted.pattern:sub(place + 1, place + 1)
  local parts = { { "LiveOccur: " .. fault:sub(1, #fault - #pattern) }, { pattern:sub(1, place) } }
  vim.list_extend(parts, { { at == "" and " " or at, "ErrorMsg" }, { pattern:sub(place + 2) } })
  api.nvim_echo(parts, true, {})
end

-- :LiveOccur
function M.command(call)
  local prompt = require("live_occur.prompt")
  local range = call.range > 0 and { call.line1, call.line2 } or nil
  local wanted, fault = prompt.read_words(call.args, range, call.bang)
  if prompt.reading then
    return prompt.reading(wanted)
  elseif fault then
    return blame(fault)
  elseif wanted.pattern ~= "" then
    return open_or_tell(wanted, call.mods)
  end
  local function with(text)
    return vim.tbl_extend("force", wanted, { pattern = text })
  end
  prompt.ask({ prompt = "List lines that match: " }, with, function(text)
    open_or_tell(with(text), call.mods)
  end)
end

-- The list of a buffer, else the current one, else one in view.
function M.list_of(buffer)
  local all = require("live_occur.list").all
  local list = all[buffer or api.nvim_get_current_buf()]
  for _, window in ipairs(not buffer and api.nvim_tabpage_list_wins(0) or {}) do
    list = list or all[api.nvim_win_get_buf(window)]
  end
  return list
end

-- The hits of a list, which is that of a buffer, the current one, or one in view: at most `count` from
-- number `first` on, or all. Each has `buffer` (or none, while its file isn't open), `file`, `line` from 1,
-- `text`, which may be shortened, and `parts`, the pairs of bytes before each matched part and up to its end.
-- Also returns whether all hits have come.
function M.hits(buffer, first, count)
  local list, hits = M.list_of(buffer), {}
  if not list then
    return nil
  end
  first = first or 1
  list:each_hit(first, count and first + count - 1 or math.huge, function(file, line, parts, row)
    local hit = { line = line, parts = {}, text = shared.line(list.buffer, row) }
    hit.buffer = not file.path and file.buffer or nil
    hit.file = file.path or api.nvim_buf_get_name(file.buffer)
    for from, to in shared.each_part(parts) do
      table.insert(hit.parts, { from, to })
    end
    hits[#hits + 1] = hit
  end)
  return hits, list:settled()
end

-- :LiveOccurQuickfix
function M.quickfix()
  local list = M.list_of()
  return list and require("live_occur.keys").quickfix(list) or not list and blame("there is no list in view")
end

-- :LiveOccurResume
function M.resume()
  local hidden, last = nil, M.last
  for buffer, list in pairs(require("live_occur.list").all) do
    hidden = #list:windows() == 0 and (not hidden or buffer > hidden.buffer) and list or hidden
  end
  if hidden then
    return blame(show_window(hidden))
  elseif not last then
    return blame("there was no list")
  end
  local buffers = vim.tbl_filter(api.nvim_buf_is_valid, last.buffers)
  if #buffers == 0 and not last.root then
    return blame("its buffers are gone")
  end
  local pattern = table.concat(last.wish.patterns, "\n")
  open_or_tell(vim.tbl_extend("force", last, { buffers = buffers, pattern = pattern }))
end

-- A list that a session of Vim had is shown: it can't be had again by that.
function M.not_kept(buffer)
  if not require("live_occur.list").all[buffer] then
    vim.bo[buffer].buftype, vim.bo[buffer].bufhidden, vim.bo[buffer].swapfile = "nofile", "wipe", false
    api.nvim_buf_set_lines(buffer, 0, -1, false, { "A session keeps no list: :LiveOccur makes a new one" })
    vim.bo[buffer].modifiable, vim.bo[buffer].modified = false, false
  end
end

return M
