-- What would be listed, shown while a pattern is typed: in a window above the command line.
--
-- The list itself is asked for a page of its hits, while it gets the lines of its buffers. At Enter it is
-- taken over as it is. One that was made for the preview ends with the command line otherwise; another one
-- then gets back what it had.

local List = require("live_occur.list")
local draw = require("live_occur.draw")
local hunks = require("live_occur.hunks")
local project = require("live_occur.project")
local row_texts = require("live_occur.row")
local settings = require("live_occur.settings")
local shared = require("live_occur.shared")

local api, fn, uv = vim.api, vim.fn, vim.uv or vim.loop
local DELAY = 30 -- milliseconds without a typed letter before a pattern is looked for
local PARTS = 50 -- how many parts of a line are highlighted in its buffer
local timer = uv.new_timer()
local function none() end

-- `switch` does with a wish what keys have switched while a pattern was typed.
local M = { space = api.nvim_create_namespace("live_occur_preview"), switch = none }
local Preview = {}
Preview.__index = Preview

-- What is typed

-- The buffers that `++buffers=` names.
local function buffers_of(names)
  if names == "all" then
    return vim.tbl_map(function(info) return info.bufnr end, fn.getbufinfo({ buflisted = 1 }))
  end
  local buffers = {}
  for name in names:gmatch("[^,]+") do
    local buffer = fn.bufnr(tonumber(name) or name)
    if buffer < 1 then
      return nil, "there is no buffer " .. name
    end
    buffers[#buffers + 1] = buffer
  end
  return buffers
end

-- What is searched by the words of :LiveOccur, as a table with `buffers`, `root`, `range`, `syntax` and
-- `pattern`; or nil and a fault.
function M.read_words(words, range, bang)
  local wanted = { buffers = {}, range = range, syntax = bang and "extended" or settings.syntax }
  local names, folder, fault
  names, wanted.pattern = words:match("^%+%+buffers=(%S+) ?(.*)$")
  if names then
    wanted.buffers, fault = buffers_of(names)
    return wanted.buffers and wanted, fault
  end
  folder, wanted.pattern = words:match("^%+%+project(%S*) ?(.*)$")
  if folder and (folder == "" or folder:sub(1, 1) == "=") then
    local name = api.nvim_buf_get_name(0)
    local here = name ~= "" and vim.bo.buftype == "" and fn.fnamemodify(name, ":p:h") or fn.getcwd()
    wanted.root = folder ~= "" and fn.expand(folder:sub(2)) or project.root(here)
    return wanted
  end
  wanted.buffers, wanted.pattern = { api.nvim_get_current_buf() }, words
  return wanted
end

-- What is typed now would list this, or nil. Vim itself reads a command of a plain range and nothing more:
-- it is run, and says to `reading` what it would list.
local function target()
  local kind, text = fn.getcmdtype(), fn.getcmdline()
  if kind == "@" and M.prompt then
    return M.prompt(text)
  end
  local before, command = text:match("^[%s:]*(.-)(LiveOccur!?%s.*)$")
  local range, wanted = (before or "?"):gsub("%l+%s", ""), nil
  if kind ~= ":" or range:gsub("'.", ""):find("[^%d%s.,;$%%+-]") then
    return nil
  end
  local view = fn.winsaveview()
  function M.reading(read)
    wanted = read
  end
  pcall(api.nvim_command, range .. command)
  M.reading = nil
  fn.winrestview(view)
  return wanted
end

-- What tells one list from another that it can't take over.
local function key_of(wanted)
  local list = wanted.list and wanted.list.buffer
  return vim.inspect({ wanted.buffers, wanted.range, wanted.root, list, wanted.number })
end

-- The list

local function start(wanted)
  local list = wanted.list or List.new(wanted.buffers, wanted)
  if not list or list.ended then
    return nil
  end
  list.trial = setmetatable({ key = key_of(wanted), first = 0, own = not wanted.list, list = list,
    window = -1, marked = {} }, Preview)
  list.session:read_all(true)
  return list.trial
end

-- Lets the list search for what is typed, as keys have switched it.
function Preview:want(wanted)
  local before, switch = self.wanted, M.switch
  if vim.deep_equal(wanted, before) and self.switch == switch then
    return
  elseif before and (wanted.pattern ~= before.pattern or self.switch ~= switch) then
    self.chosen, self.first, self.total = nil, 0, nil
  end
  self.wanted, self.switch = wanted, switch
  self.list:change(function(wish)
    if self.own then
      wish.patterns, wish.syntax = vim.split(self.wanted.pattern, "\n"), self.wanted.syntax
    else
      wish.patterns[self.wanted.number or #wish.patterns + 1] = self.wanted.pattern
    end
    M.switch(wish)
  end, function(fault)
    self.fault = fault and fault:gsub(" in: .*", "")
    self:ask_page()
  end, true)
end

-- Sends what comes next. Nothing is sent while a reply is to come.
function Preview:step()
  local list = self.list
  if list.session.closed or list.session:busy() or list.wishes[1] then
    return
  end
  local before = list.session.sent
  list:send()
  if list.session.sent > before or self.partial and not (list.due or list:has_edits()) then
    self:ask_page()
  elseif list.due then
    list:later()
  end
end

function Preview:ask_page()
  local count = math.max(1, settings.height - 1)
  if self.chosen then
    self.first = math.max(math.min(self.first, self.chosen), self.chosen - count + 1)
  end
  local first = self.first
  self.list.session:send(("page %d %d"):format(first, count), nil, function(reply)
    if reply.kind == "status" and M.now == self and fn.getcmdtype() ~= "" then
      self:show(reply.total, self:hits(reply.page), first)
    end
    self:step()
  end)
end

-- The window

-- The hits of a page: for each its file, its place and its line from 0, its parts and its text.
function Preview:hits(page)
  local hits = {}
  for number = 1, self.fault and 0 or page.count do
    local file, place = self.list.files[page.files[number] + 1], page.places[number]
    local line = file.from + hunks.place(file.pending, place)
    local text = page.lines[number] or shared.line(file.buffer, line) or ""
    hits[number] = { file = file, place = place, line = line, parts = page.parts[number], text = text }
  end
  return hits
end

-- The rows that are shown for the hits of a page, and marks on them.
function Preview:rows(total, hits, first)
  local list, file = self.list, nil
  self.partial = list.due or list:has_edits() -- Files or edits are still to come.
  local so_far = self.partial and " so far" or ""
  local rows = { (self.fault or shared.counted(total, "hit") .. so_far) .. "  " .. list:options() }
  local found = { {} }
  for number, hit in ipairs(hits) do
    if #list.files > 1 and hit.file ~= file then
      rows[#rows + 1] = list:name_of(hit.file)
      found[#rows] = { { 0, #rows[#rows], "LiveOccurBuffer" } }
    end
    file = hit.file
    local text, start = row_texts.text(hit.text, hit.parts)
    local shift = row_texts.margin + row_texts.shift(row_texts.kept_parts(hit.parts, start))
    text = row_texts.number(hit.line + 1) .. text:gsub("[\n%z]", " ")
    rows[#rows + 1], found[#rows + 1] = text, { { 0, row_texts.margin, "LiveOccurNumber" } }
    draw.add_parts(found[#rows], hit.parts, shift, #text)
    if first + number - 1 == self.chosen then
      found[#rows], self.hit = { { 0, #text, "LiveOccurChosen" } }, hit
    end
  end
  return rows, found
end

-- Highlights the hits of a page in their buffers.
function Preview:highlight(hits)
  self:clear()
  for _, hit in ipairs(hits) do
    local file, found = hit.file, {}
    draw.add_parts(found, not file.path and hit.parts or "", 0, math.huge)
    for _, mark in ipairs(vim.list_slice(found, 1, PARTS)) do
      local options = { end_row = hit.line, end_col = mark[2], hl_group = mark[3], strict = false }
      pcall(api.nvim_buf_set_extmark, file.buffer, M.space, hit.line, mark[1], options)
      self.marked[file.buffer] = true
    end
  end
end

function Preview:clear()
  for buffer in pairs(self.marked) do
    if api.nvim_buf_is_valid(buffer) then
      api.nvim_buf_clear_namespace(buffer, M.space, 0, -1)
    end
  end
  self.marked = {}
end

-- Opens the window, or gives it another height.
function Preview:open(height)
  local above = vim.o.lines - vim.o.cmdheight
  height = math.max(1, math.min(height, above - 3))
  local place = { relative = "editor", width = vim.o.columns, height = height, col = 0, focusable = false,
    style = "minimal", row = math.max(0, above - height - (vim.o.laststatus > 0 and 1 or 0)) }
  if api.nvim_win_is_valid(self.window) then
    return api.nvim_win_set_config(self.window, place)
  end
  place.noautocmd = true
  self.buffer = api.nvim_create_buf(false, true)
  vim.bo[self.buffer].bufhidden = "wipe"
  self.window = api.nvim_open_win(self.buffer, false, place)
  vim.wo[self.window].winhighlight, vim.wo[self.window].wrap = "NormalFloat:Normal", false
end

-- Shows the hits of a page.
function Preview:show(total, hits, first)
  local rows, found = self:rows(total, hits, first)
  self.total, self.shown = total, rows
  draw.start()
  self:open(#rows)
  api.nvim_buf_set_lines(self.buffer, 0, -1, false, rows)
  api.nvim_buf_clear_namespace(self.buffer, M.space, 0, -1)
  local head = { end_row = 1, hl_group = "LiveOccurPreview", hl_eol = true, strict = false }
  api.nvim_buf_set_extmark(self.buffer, M.space, 0, 0, head)
  for row, each in ipairs(found) do
    for _, mark in ipairs(each) do
      api.nvim_buf_add_highlight(self.buffer, M.space, mark[3], row - 1, mark[1], mark[2])
    end
  end
  self:highlight(hits)
  vim.cmd("redraw")
end

-- Ends the preview, and its list, unless that is taken over.
function Preview:close()
  if api.nvim_win_is_valid(self.window) then
    api.nvim_win_close(self.window, true)
  end
  self:clear()
  local list = self.list
  list.trial = nil
  if self.own and not self.taken then
    list:close()
  elseif not list.closed and not list.ended then
    list.session:read_all(false)
    if not self.own then
      list:change(function() end) -- It wants what it wanted, unless that was changed at Enter.
    end
  end
end

-- Ends a preview as soon as that is possible: it isn't while the window of the command line is open.
local function finish(preview)
  if fn.getcmdwintype() ~= "" or not pcall(preview.close, preview) then
    vim.defer_fn(function() finish(preview) end, 20)
  end
end

-- Keys

-- Chooses another hit of all.
function Preview:choose(count)
  local total = self.total or 1 -- Where a key comes before the hits, the first one is chosen.
  if total > 0 then
    self.chosen = self.chosen and (self.chosen + count) % total or (count > 0 and 0 or total - 1)
    self:ask_page()
  end
end

local KEYS = {
  ["<C-n>"] = function(preview) preview:choose(1) end,
  ["<C-p>"] = function(preview) preview:choose(-1) end,
  ["<M-s>Q"] = function(preview)
    preview.quickfix = true
    api.nvim_feedkeys("\r", "nt", false)
  end,
}
for key in ("ivxIBEF"):gmatch(".") do
  KEYS["<M-s>" .. key] = function(preview)
    local before, modify = M.switch, preview.list:switch(key)
    function M.switch(wish)
      before(wish)
      modify(wish)
    end
    M.update()
  end
end

-- Sets the keys that nobody else has, for as long as the command line is open.
local function set_keys()
  local buffer, set = api.nvim_get_current_buf(), {}
  for key, act in pairs(KEYS) do
    if fn.maparg(key, "c") == "" then
      table.insert(set, key)
      vim.keymap.set("c", key, function()
        M.update()
        if M.now then
          act(M.now)
        end
      end, { buffer = buffer })
    end
  end
  function M.drop_keys()
    M.drop_keys = nil
    for _, key in ipairs(set) do
      pcall(vim.keymap.del, "c", key, { buffer = buffer })
    end
  end
end

-- The command line

-- Ends the preview, if there is one.
function M.close()
  local preview = M.now
  M.now = nil
  timer:stop()
  if preview then
    finish(preview)
  end
end

function M.update()
  local wanted = target()
  if not wanted or wanted.pattern == "" then
    return M.close()
  elseif M.now and M.now.key ~= key_of(wanted) then
    M.close()
  end
  M.now = M.now or start(wanted)
  if M.now then
    M.now:want(wanted)
  end
end

-- The command line is another one: the preview follows at the next pause.
function M.changed()
  if not settings.preview then
    return
  elseif not M.drop_keys then
    set_keys()
  end
  timer:start(DELAY, 0, vim.schedule_wrap(M.update))
end

-- The window of the command line is opened, in which no other can be closed: the preview's gets as
-- small as it can be.
function M.shrink()
  if M.now and api.nvim_win_is_valid(M.now.window) then
    timer:stop()
    api.nvim_buf_set_lines(M.now.buffer, 0, -1, false, {})
    local place = { relative = "editor", width = 1, height = 1, col = vim.o.columns - 1, row = vim.o.lines - 1 }
    api.nvim_win_set_config(M.now.window, place)
    M.now:clear()
  end
end

-- The command line is left: the list can be taken over by what is done then.
function M.leave()
  local preview = M.now
  if M.drop_keys then
    M.drop_keys()
  end
  if fn.getcmdtype() == "@" then
    M.prompt = nil
  end
  if not preview or vim.v.event.abort then
    M.left, M.switch = nil, none
    return M.close()
  end
  M.left, M.now = preview, nil
  timer:stop()
  vim.schedule(function()
    M.switch = none
    if M.left == preview then
      M.left = nil
      finish(preview)
    end
  end)
end

-- The preview of what was typed last, if it has this target. Its list is that of the caller.
function M.take(wanted)
  local preview = M.left
  if preview and not preview.list.ended and preview.key == key_of(wanted) then
    preview.taken, M.left = true, nil
    finish(preview)
    return preview
  end
end

-- Asks for a text by `vim.ui.input`, and takes one that isn't empty; `listed` says what a text would list.
function M.ask(options, listed, take)
  M.prompt = listed
  shared.interruptible(vim.ui.input, options, function(text)
    M.prompt = nil
    if text and text ~= "" then
      take(text)
    end
  end)
end

return M
