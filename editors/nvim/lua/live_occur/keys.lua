-- What the keys of a list do.

local List = require("live_occur.list")
local prompt = require("live_occur.prompt")
local row_texts = require("live_occur.row")
local shared = require("live_occur.shared")

local api, fn = vim.api, vim.fn
local blame, say = shared.blame, shared.say
local space = api.nvim_create_namespace("live_occur_shown")
local PIECE = 5000 -- how many hits are put into the quickfix list at once
local MINE = "LiveOccur: " -- what the description of each key begins with
local M = {}

-- Going to lines

-- A window for a buffer: one that shows it, else the previous one, else a new one.
local function window_for(buffer)
  local list_window, usable = api.nvim_get_current_win(), nil
  local candidates = { fn.win_getid(fn.winnr("#")), unpack(api.nvim_tabpage_list_wins(0)) }
  for _, window in ipairs(candidates) do
    local shown = window ~= 0 and window ~= list_window and api.nvim_win_get_buf(window)
    if shown == buffer then
      return window
    elseif shown and not List.all[shown] and api.nvim_win_get_config(window).relative == "" then
      usable = usable or window
    end
  end
  if not usable then
    vim.cmd("aboveleft split")
  end
  return usable or api.nvim_get_current_win()
end

-- The line that is shown, by its buffer and its window, is marked until the list is left.
local shown = {}

function M.unmark()
  if shared.is_valid(shown.buffer) then
    api.nvim_buf_clear_namespace(shown.buffer, space, 0, -1)
  end
  shown = {}
end

-- Goes to a line of a file, from 0, in a window for it. That is a jump, but in a window that showed another
-- line for the list just before.
function M.go_to(list, file, line, column, split, shown_before)
  local buffer = list:open_buffer(file)
  api.nvim_set_current_win(window_for(buffer))
  if split then
    vim.cmd("split")
  end
  if not pcall(vim.cmd, "buffer " .. buffer) then
    vim.cmd("sbuffer " .. buffer) -- The window's own buffer can't be left.
  end
  if api.nvim_get_current_win() ~= shown_before then
    vim.cmd("normal! m'")
  end
  line = math.min(line, api.nvim_buf_line_count(buffer) - 1)
  column = math.min(column, #shared.line(buffer, line) - 1)
  api.nvim_win_set_cursor(0, { line + 1, math.max(0, column) })
  vim.cmd("normal! zv")
  require("live_occur").tell("LiveOccurVisit", buffer)
end

-- Does what was chosen in a preview: makes a quickfix list, or goes to a hit.
function M.take_up(list, preview)
  if preview and preview.quickfix then
    M.quickfix(list)
  elseif preview and preview.chosen then
    list.chosen = preview.hit
    M.go_to(list, preview.hit.file, preview.hit.file.from + preview.hit.place, 0)
  end
end

-- Goes to the line of the row: in a new window, where `split`; and comes back, where `stay`.
function M.visit(list, split, stay)
  local at = list:at(api.nvim_win_get_cursor(0)[1] - 1)
  if not at or at.stale then
    return
  end
  local line = at.place and list:line_of(at.file, at.place) or 0
  local column = at.place and row_texts.column(at.parts) or 0
  local list_window, shown_before = api.nvim_get_current_win(), stay and shown.window
  M.unmark()
  M.go_to(list, at.file, line, column, split, shown_before)
  if stay then
    line = fn.line(".")
    if line < fn.line("w0") + 1 or line > fn.line("w$") - 1 then
      vim.cmd("normal! zz")
    end
    shown = { buffer = at.file.buffer, window = api.nvim_get_current_win() }
    local options = { end_row = line, hl_group = "LiveOccurChosen", hl_eol = true, strict = false }
    api.nvim_buf_set_extmark(shown.buffer, space, line - 1, 0, options)
    api.nvim_set_current_win(list_window)
  end
end

-- Shows the line of the row, if the list follows, as the cursor moves.
function M.moved(list)
  local row = api.nvim_win_get_cursor(0)[1]
  if list.follow and not list.edit and row ~= list.followed then
    list.followed = row
    M.visit(list, false, true)
  end
end

-- Patterns

-- Asks for a pattern until one is taken, which is then that of this number: the prompt says why the one
-- before was refused. Where nothing is typed the list stays as it is.
local function ask_pattern(list, question, text, number, fault)
  local options = { prompt = (fault and fault .. "; " or "") .. question, default = text }
  prompt.ask(options, function(pattern)
    return { list = list, pattern = pattern, number = number }
  end, function(pattern)
    local preview, switch = prompt.left, prompt.switch
    list:change(function(wish)
      wish.patterns[number or #wish.patterns + 1] = pattern
      switch(wish)
    end, function(problem, place)
      if problem then
        local why = place and problem:gsub(" in: .*", "") or problem
        return ask_pattern(list, question, pattern, number, why)
      end
      M.take_up(list, preview)
    end)
  end)
end

-- Lets one of some items be chosen, and takes its number and itself.
local function choose(items, options, take)
  shared.interruptible(vim.ui.select, items, options, function(item, number)
    if item then
      take(number, item)
    end
  end)
end

local function choose_pattern(list, question, take)
  local patterns = list.wish.patterns
  if #patterns == 0 then
    say("there is no pattern")
  elseif #patterns == 1 then
    take(1)
  else
    choose(patterns, { prompt = question }, take)
  end
end

-- Quickfix

-- Puts hits from number `first` on into the quickfix list of this number, and all others after it. It
-- begins again where rows were changed meanwhile.
local function fill(list, id, first, tick)
  if list.closed or fn.getqflist({ id = id }).id ~= id then
    return
  end
  local now = api.nvim_buf_get_changedtick(list.buffer)
  first = now == tick and first or 1
  local items = {}
  list:each_hit(first, first + PIECE - 1, function(file, line, parts, row)
    items[#items + 1] = { lnum = line, col = row_texts.column(parts) + 1, filename = file.path,
      bufnr = not file.path and file.buffer or nil, text = shared.line(list.buffer, row) }
  end)
  local title = "LiveOccur " .. table.concat(list.wish.patterns, "  ")
  local more = #items == PIECE or not list:settled()
  title = title .. (more and ("  %d so far"):format(first + #items - 1) or "")
  fn.setqflist({}, first == 1 and "r" or "a", { id = id, title = title, items = items })
  if more then
    vim.defer_fn(function() fill(list, id, first + #items, now) end, #items == PIECE and 1 or 50)
  end
end

-- Makes a quickfix list of the hits as they are now, in pieces.
function M.quickfix(list)
  if list.edit then
    return blame("rows are edited; :w or :e! ends that")
  end
  list:wait(100)
  fn.setqflist({}, " ", { title = "LiveOccur" })
  fill(list, fn.getqflist({ id = 0 }).id, 1)
  local first = fn.getqflist({ items = 1, size = 1 }).items[1]
  if List.all[api.nvim_get_current_buf()] then -- So that :cnext takes another window than the list's.
    api.nvim_set_current_win(window_for(first and first.bufnr or 0))
  end
  vim.cmd("botright copen")
end

-- The keys

-- For each what it does, as a text and as a function. One without switches an option of what matches.
M.keys = {
  { "<CR>", "goes to the line", function(list) M.visit(list) end },
  { "<2-LeftMouse>", "goes to the line, by the mouse", function(list) M.visit(list) end },
  { "<C-w><CR>", "goes to the line in a new window", function(list) M.visit(list, true) end },
  { "<Space>", "shows the line", function(list) M.visit(list, false, true) end },
  { "f", "following on or off", function(list)
    list.follow = not list.follow
    say("following is " .. (list.follow and "on" or "off"))
  end },
  { "e", "edits the rows", function(list) require("live_occur.edit").begin(list) end },
  { "a", "adds a pattern", function(list) ask_pattern(list, "Add pattern: ", "") end },
  { "c", "changes a pattern", function(list)
    choose_pattern(list, "Change pattern", function(number)
      ask_pattern(list, "Change pattern: ", list.wish.patterns[number], number)
    end)
  end },
  { "d", "drops a pattern", function(list)
    choose_pattern(list, "Drop pattern", function(number)
      list:change(function(wish) table.remove(wish.patterns, number) end)
    end)
  end },
  { "B", "basic expressions" },
  { "E", "extended expressions" },
  { "F", "fixed strings" },
  { "i", "both cases" },
  { "v", "lines that don't match" },
  { "x", "whole lines" },
  { "I", "smart case" },
  { "C", "lines around", function(list)
    local shown = table.concat(list.context, " ")
    prompt.ask({ prompt = "Lines before and after: ", default = shown }, nil, function(text)
      local before, after = text:match("^%s*(%d+)%s+(%d+)%s*$")
      if not before then
        return blame("two numbers are needed")
      end
      list:set_context(tonumber(before), tonumber(after))
    end)
  end },
  { "+", "one more buffer", function(list)
    prompt.ask({ prompt = "Add buffer: ", completion = "buffer" }, nil, function(text)
      local buffer = fn.bufnr(text)
      if buffer < 1 or List.all[buffer] then
        return blame(buffer < 1 and "there is no one buffer " .. text or "a list isn't searched")
      end
      list:add_buffer(buffer)
    end)
  end },
  { "-", "one buffer less", function(list)
    local options = { prompt = "Leave out buffer", format_item = function(file) return list:name_of(file) end }
    choose(list.files, options, function(_, file) list:remove_file(file) end)
  end },
  { "R", "brings the list up to date at once", function(list) list:read_again() list:step() end },
  { "r", "starts the program again", function(list) list:restart() end },
  { "Q", "makes a quickfix list", M.quickfix },
  { "<C-c>", "reads no more files", function(list)
    local count = list:stop_reading()
    list:step()
    list:show_header()
    say(count > 0 and count .. " files are not read" or "all files were read")
  end },
  { "q", "ends the list", function(list)
    for _, window in ipairs(list:windows()) do
      pcall(api.nvim_win_close, window, true) -- The last one can't be closed, and shows another buffer.
    end
    vim.cmd("silent! bwipeout! " .. list.buffer)
  end },
}

-- Puts the keys aside, but for those that a user has set.
function M.unset(list)
  list.unset = {}
  for _, map in ipairs(api.nvim_buf_get_keymap(list.buffer, "n")) do
    if (map.desc or ""):sub(1, #MINE) == MINE then
      list.unset[map.desc] = true
      vim.keymap.del("n", map.lhs, { buffer = list.buffer })
    end
  end
end

-- Sets the keys, or those that were put aside.
function M.set(list)
  for _, key in ipairs(M.keys) do
    local text = MINE .. key[2]
    if not list.unset or list.unset[text] then
      vim.keymap.set("n", key[1], function()
        local ran, problem = pcall(key[3] or list.toggle, list, key[1])
        blame(not ran and problem)
      end, { buffer = list.buffer, nowait = true, silent = true, desc = text })
    end
  end
end

return M
