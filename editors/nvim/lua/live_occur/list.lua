-- A list: a buffer with the lines that match, kept right while the searched buffers are edited.
--
-- The first line of its buffer is a header. Then there is a row for each hit, which is its line. Where
-- several buffers are searched, a row with its name is before the rows of each buffer that has some. While
-- a pattern is typed for it, a list has no buffer yet; what is found is shown in a preview (`prompt.lua`).

local Session = require("live_occur.session")
local hunks = require("live_occur.hunks")
local settings = require("live_occur.settings")
local shared = require("live_occur.shared")

local api, fn, uv = vim.api, vim.fn, vim.uv or vim.loop

local List = { all = {} } -- `all` has each list by the number of its buffer
List.__index = List
for _, part in ipairs({ "sources", "wishes", "rows", "windows" }) do
  for name, value in pairs(require("live_occur." .. part)) do
    List[name] = value
  end
end

-- Whether a command is typed: a buffer's text may be that of a preview then.
function List.is_typing()
  return fn.mode():sub(1, 1) == "c"
end

-- Making a list

-- A new list, which isn't shown yet. The options are `syntax`, `flags`, or the `wish` of another list, `range`,
-- which is the first and the last line that are searched, and `root`, a folder of which all files are
-- searched. Returns nil and a text where there is no program.
function List.new(buffers, options)
  local self = setmetatable({
    wish = options.wish or { patterns = {}, syntax = options.syntax or settings.syntax, flags = {},
      smart = settings.smart_case },
    context = settings.context,
    follow = settings.follow,
    files = {},
    hint = { 1, 1 }, -- the number of a file, and its first row
    wishes = {}, -- changes of what matches that weren't answered yet
    question = 1, -- the number of the next question what changed
    timer = uv.new_timer(),
  }, List)
  self.at_pause = vim.schedule_wrap(function() self:step() end)
  for flag in (options.wish and "" or options.flags or settings.flags):gmatch("[ivx]") do
    self.wish.flags[flag] = true
  end
  local fault = self:start()
  if fault then
    self.timer:close()
    return nil, fault
  end
  for _, buffer in ipairs(buffers) do
    self:add_buffer(buffer, options.range)
  end
  if options.root then
    self:add_folder(options.root)
  end
  return self
end

-- Makes the list's buffer.
function List:make_buffer()
  local buffer = api.nvim_create_buf(false, true)
  self.buffer, List.all[buffer] = buffer, self
  local number = buffer
  while fn.bufexists("live-occur://" .. number) == 1 do -- as after |:mksession|
    number = number + 1
  end
  api.nvim_buf_set_name(buffer, "live-occur://" .. number)
  shared.set(buffer, { bufhidden = "hide", undolevels = -1, modifiable = false, textwidth = 0, wrapmargin = 0,
    formatoptions = "", autoindent = false, smartindent = false, cindent = false, indentexpr = "" })
  local searched = self.files[1] and self.files[1].buffer
  for _, name in ipairs({ "expandtab", "tabstop", "softtabstop", "shiftwidth" }) do
    vim.bo[buffer][name] = searched and vim.bo[searched][name] or vim.go[name]
  end
  self:show_header()
end

-- Notes why the program is of no use any more.
function List:fail(fault)
  self.ended, self.wishes = fault, {}
  self:show_header()
  shared.blame(fault .. "; r in the list starts it again")
end

-- Starts the program. Returns a fault, if there is one.
function List:start()
  local session, fault = Session.start(settings.program, settings.states, function(text)
    self:fail(text)
    if self.trial then
      vim.schedule(require("live_occur.prompt").close)
    end
  end)
  self.ended = fault
  if not session then
    return fault
  end
  self.session, self.asked, self.applying, self.paused, self.changed = session, nil, nil, false, false
  self.wishes, self.known = {}, { syntax = "basic", texts = {}, flags = {}, wanted = self.wish.syntax }
  self:order("text " .. (self.from_disk and "on" or "off"))
  self:order("flag o on")
end

-- Sends a command that has to be accepted.
function List:order(command, lines)
  self.session:send(command, lines, self:accepted())
end

-- A function for replies that have to be ok. Where one isn't, the session is of no use any more.
function List:accepted()
  local session = self.session
  return function(reply)
    if reply.kind ~= "ok" then
      session:close()
      self:fail("occur refused a command: " .. reply.text)
    end
  end
end

-- Starts the program again, with the patterns, the flags and the buffers of the list.
function List:restart()
  self.session:close()
  local fault = self:start()
  if fault then
    self:show_header()
    return shared.blame(fault)
  end
  self.had_hits = false
  self:put(1, -1, {})
  self.files = vim.tbl_filter(function(file) return not file.closed end, self.files)
  self:number_files()
  for _, file in ipairs(self.files) do
    self:forget(file)
  end
  self:change(function() end)
end

-- Ends the list: its process, and all that it has in other buffers.
function List:close()
  if self.closed then
    return
  end
  self.closed = true
  self:stop_reading()
  if self.edit then
    require("live_occur.edit").clear(self, self.edit)
  end
  for _, file in ipairs(self.files) do
    file.attached = nil
  end
  self.timer:close()
  self.session:close()
  if self.buffer then
    List.all[self.buffer] = nil
  end
end

-- Edits out, changes in

-- Brings the list up to date at the next pause.
function List:later()
  if not self.closed then
    self.timer:start(settings.delay, 0, self.at_pause) -- anew, where it runs
  end
end

-- Sends some hunks of a file, with at most `room` lines, and returns the room that is left.
function List:send_hunks(file, room)
  for _, hunk in ipairs(hunks.take(file.pending, room)) do
    local first = file.from + hunk.at
    local lines = api.nvim_buf_get_lines(file.buffer, first, first + hunk.added, false)
    local command = ("splice %d %d %d %d"):format(file.index - 1, hunk.at, hunk.removed, hunk.added)
    self:order(command, lines)
    hunk.question, self.changed = self.question, true
    table.insert(file.sent, hunk)
    room = room - hunk.added
  end
  return room
end

-- Sends what was edited, at most a slice of it.
function List:send()
  local room, till = settings.slice, uv.hrtime() + 3e7
  self.due = false
  for _, file in ipairs(self.files) do
    self:check(file)
    if room <= 0 or uv.hrtime() > till then
      self.due = true
      break
    elseif file.path then
      room = file.unread and room - self:send_file(file) or room
    else
      if not file.joined then
        self:join(file, 0)
      end
      room = self:send_hunks(file, room)
      self.due = self.due or #file.pending > 0
    end
  end
end

-- Sends what was edited, and asks what changed.
function List:step()
  if self.closed or self.ended or self.edit then
    return
  elseif self.trial then
    return self.trial:step()
  elseif self.asked or self.wishes[1] then
    self.due = true
    return
  elseif List.is_typing() then
    return self:later()
  end
  self:send()
  if self.changed and self.buffer then
    local files, question = vim.list_extend({}, self.files), self.question
    self.asked, self.question, self.changed = true, question + 1, false
    self.session:send("changes", nil, function(reply) self:report(reply, files, question) end)
  elseif self.due then
    self:later()
  end
  require("live_occur.edit").start(self)
end

-- Brings the list up to date, and waits for it. Returns false if that takes too long.
function List:wait(milliseconds)
  self:step()
  return vim.wait(milliseconds or 10000, function() return self:settled() end, 1)
end

-- Whether there are edits that were not sent, or files that were not read, or that leave.
function List:has_edits()
  for _, file in ipairs(self.files) do
    if #file.pending > 0 or file.unread or file.closed then
      return true
    end
  end
  return self.listing ~= nil
end

-- Whether the list is right, and no reply is on its way.
function List:settled()
  if self.closed or self.ended or self.edit then
    return true
  end
  return not (self.wishes[1] or self.asked or self.changed or self.session:busy() or self:has_edits())
end

-- The header

-- How many files are left out, and why.
local function left_out(files)
  local total, counts = 0, {}
  for _, file in ipairs(files) do
    if file.path and file.reason then
      total, counts[file.reason] = total + 1, (counts[file.reason] or 0) + 1
    end
  end
  local reasons = {}
  for reason, count in pairs(counts) do
    reasons[#reasons + 1] = count .. " " .. reason
  end
  table.sort(reasons)
  return total > 0 and ("%d left out (%s)"):format(total, table.concat(reasons, ", ")) or nil
end

function List:header()
  local counted = shared.counted
  local hits = counted(self:total(), "hit") .. ", " .. counted(#self.files, self.root and "file" or "buffer")
  local words = { self:options(), table.concat(self.wish.patterns, "  "), hits, left_out(self.files) }
  if self:around() then
    table.insert(words, 2, ("-B %d -A %d"):format(unpack(self.context)))
  end
  local more = self.due or self.paused or self.listing
  words[#words + 1] = self.ended or more and "more to come" or nil
  return table.concat(words, "  ")
end

function List:show_header()
  if self.edit or self.trial or not shared.is_valid(self.buffer) then
    return
  end
  local text = self:header():gsub("[\n%z]", " ")
  if text ~= shared.line(self.buffer, 0) then
    self:put(0, 1, { text })
  end
end

return List
