-- The rows of a list: replies are applied to hits and rows, a long one in pieces while it comes.

local hunks = require("live_occur.hunks")
local row_texts = require("live_occur.row")
local settings = require("live_occur.settings")
local shared = require("live_occur.shared")

local api, uv = vim.api, vim.uv or vim.loop
local PIECE = 5000 -- how many rows are put at once
local NO_HITS = { count = 0 }
local PACE = 2e7 -- nanoseconds for which pieces of a reply are applied at once
local M = {}

-- Takes out the hunks of a file that were sent before a question, up to a line: a reply has told of them.
local function forget_sent(file, question, line)
  local first = file.sent[1]
  while first and first.question == question and first.at + first.added <= line do
    table.remove(file.sent, 1)
    first = file.sent[1]
  end
end

-- Replies

-- Takes a reply to changes: `files` are those of the session at that time. A long one is applied in pieces,
-- between which Neovim does what waits.
function M:report(reply, files, question)
  self.applying = coroutine.wrap(function() self:apply_reply(reply, files, question) end)
  self:go_on(self.applying)
end

-- Goes on with a reply, unless another one came. Rows are made of the lines of buffers, so that waits while
-- a command is typed.
function M:go_on(applying)
  if self.applying ~= applying or self.closed then
    return
  elseif self.is_typing() then
    return vim.defer_fn(function() self:go_on(applying) end, settings.delay)
  end
  self.till = uv.hrtime() + PACE
  applying()
end

-- Ends a piece: what waits comes first, and then the next one; or, with a reply, more of that.
function M:pause(reply)
  local applying = self.applying
  local function go_on()
    self:go_on(applying)
  end
  if reply then
    reply.waits = go_on
  else
    vim.defer_fn(go_on, 1)
  end
  self.paused = true
  self:show_header()
  coroutine.yield()
end

-- Applies the reply to a question.
function M:apply_reply(reply, files, question)
  if reply.kind and reply.kind ~= "status" then
    self.asked = nil
    return self:accepted()(reply)
  end
  local number = 0
  repeat
    number = number + 1
    while not reply.kind and not reply.pieces[number + 1] do
      self:pause(reply)
    end
    local piece, next_piece = reply.pieces[number], reply.pieces[number + 1]
    if piece then
      reply.pieces[number] = false -- It isn't needed any more.
      self:apply_piece(files[piece.file + 1], piece, question)
      self.session:taken(reply)
      self:end_piece(files[piece.file + 1], next_piece)
    end
  until not piece
  for _, file in ipairs(files) do
    forget_sent(file, question, math.huge)
  end
  if number > 1 then
    self:to_first_hit()
  end
  self.asked, self.paused = nil, false
  if self.due then
    self:step()
  end
  self:show_header()
  self:redraw()
  if number > 1 then
    require("live_occur").tell("LiveOccurUpdate", self.buffer)
  end
  require("live_occur.edit").start(self)
end

-- Takes the stale rows out that are left, unless the next piece has more hits of the same h line.
function M:end_piece(file, next_piece)
  local is_more = next_piece and not next_piece.front
  while not is_more and file.stale > 0 and not file.closed do
    self:pause()
    self:apply_piece(file, NO_HITS)
  end
  if is_more or uv.hrtime() > self.till then
    self:pause()
  end
end

-- Puts the hits of a piece into a list. The rows of hits that went stay for now, as stale ones, and some of
-- them are taken out.
function M:apply_piece(file, piece, question)
  if piece.front then
    forget_sent(file, question, piece.front + piece.added)
    file.stale = file.closed and 0 or select(2, file.hits:cut(piece.front, piece.removed, piece.added))
  end
  local texts, index = {}, file.hits:before()
  if file.closed then
    return
  end
  for number = 1, piece.count do
    local place, parts, start = piece.places[number], piece.parts[number], nil
    texts[number], start = row_texts.text(piece.lines[number] or self:text_of(file, place), parts)
    file.hits:push(place, row_texts.kept_parts(parts, start))
  end
  local gone = math.min(file.stale, PIECE, settings.slice)
  self:put_rows(file, self:hits_row(file) + index, gone, texts)
  file.stale = file.stale - gone
  self:put_heading(file, self:row_of(file))
end

-- Rows

-- The first row of a file, from 0.
function M:row_of(file)
  local hint = self.hint
  if file.index < hint[1] then
    hint[1], hint[2] = 1, 1
  end
  while hint[1] < file.index do
    hint[1], hint[2] = hint[1] + 1, hint[2] + self.files[hint[1]].shown
  end
  return hint[2]
end

-- The row of a file's first hit.
function M:hits_row(file)
  return self:row_of(file) + (file.heading and 1 or 0)
end

-- What a row of the list's buffer is: nil for the header, else a table with `file`, and `place` (of the last
-- report) and `parts` for a hit, or `heading`. One that is about to be taken out is `stale`.
function M:at(row)
  local hint = self.hint
  if row < hint[2] then
    hint[1], hint[2] = 1, 1
  end
  local file = row > 0 and self.files[hint[1]]
  while file and row >= hint[2] + file.shown do
    hint[1], hint[2] = hint[1] + 1, hint[2] + file.shown
    file = self.files[hint[1]]
  end
  if not file then
    return nil
  end
  local after = file.hits:before() + file.stale
  local index = row - hint[2] + (file.heading and 0 or 1)
  if index == 0 then
    return { file = file, heading = true }
  elseif file.closed or index > file.hits:before() and index <= after then
    return { file = file, stale = true }
  end
  local place, parts = file.hits:get(index > after and index - file.stale or index)
  return { file = file, place = place, parts = parts }
end

-- The line of a buffer, from 0, that a place of the last report is now.
function M:line_of(file, place)
  return file.from + hunks.place(file.pending, hunks.place(file.sent, place))
end

-- The text of that line. Where it was edited since, the program is told so soon, and the row goes.
function M:text_of(file, place)
  return shared.line(file.buffer, self:line_of(file, place)) or ""
end

-- Replaces rows of the list's buffer. The cursors of its windows stay on theirs.
function M:put(first, last, texts)
  local buffer = self.buffer
  if not buffer or (first == last and #texts == 0) then
    return
  end
  last = last < 0 and api.nvim_buf_line_count(buffer) or last
  local windows = self:keep_windows()
  vim.bo[buffer].modifiable = true
  api.nvim_buf_set_lines(buffer, first, last, false, texts)
  vim.bo[buffer].modifiable, vim.bo[buffer].modified = false, false
  self:restore_windows(windows, first, last, #texts)
end

-- Puts rows of a file in the place of so many others from a row on.
function M:put_rows(file, row, gone, texts)
  self:put(row, row + gone, texts)
  file.shown = file.shown + #texts - gone
  if file.index < self.hint[1] then
    self.hint = { 1, 1 }
  end
end

-- Puts the row with the name of a file, which is this one, writes it anew, or takes it out.
function M:put_heading(file, row)
  local has_rows = #self.files > 1 and file.hits:count() + file.stale > 0
  local heading = has_rows and self:name_of(file) or nil
  if heading ~= file.heading then
    self:put_rows(file, row, file.heading and 1 or 0, { heading })
    file.heading = heading
  end
end

function M:put_headings()
  local row = 1
  for _, file in ipairs(self.buffer and not self.edit and self.files or {}) do
    self:put_heading(file, row)
    row = row + file.shown
  end
end

-- The number of hits of all files.
function M:total()
  local total = 0
  for _, file in ipairs(self.files) do
    total = total + file.hits:count()
  end
  return total
end

-- Calls a function with hits that the list shows, from number `first` on, up to `last`: with each one's
-- file, its line from 1, its parts and its row from 0.
function M:each_hit(first, last, take)
  local number, row = 0, 1
  for _, file in ipairs(self.files) do
    local count = file.hits:count()
    local head = row + (file.heading and 1 or 0) - 1
    for index = math.max(1, first - number), math.min(count, last - number) do
      local place, parts = file.hits:get(index)
      local shown = index > file.hits:before() and index + file.stale or index
      take(file, self:line_of(file, place) + 1, parts, head + shown)
    end
    number, row = number + count, row + file.shown
  end
end

-- Lines around

-- Whether lines around hits are shown.
function M:around()
  return self.context[1] > 0 or self.context[2] > 0
end

function M:set_context(before, after)
  self.context = { before, after }
  self:show_header()
  self:redraw()
end

-- The lines around hits that are between a row and the next one: for each its number and its text, or
-- false where some are left out.
function M:between(row)
  local at, below = self:at(row), self:at(row + 1)
  local found, before, after = {}, self.context[1], self.context[2]
  local function add(file, first, last)
    local lines = first < last and not file.path and shared.lines(file.buffer, first, last) or {}
    if first < last and file.path then
      if self.read ~= file.path then -- The last file that was read is kept.
        self.read, self.read_lines = file.path, vim.split(self.read_file(file.path) or "\n", "\n", { plain = true })
      end
      lines = vim.list_slice(self.read_lines, first + 1, math.min(last, file.to))
    end
    for index, text in ipairs(lines) do
      found[#found + 1] = { first + index - 1, (row_texts.text(text)) }
    end
  end
  local line = at and at.place and self:line_of(at.file, at.place)
  local next_line = below and below.place and self:line_of(below.file, below.place)
  local same = line and next_line and at.file == below.file
  local to = 0
  if line then
    to = math.min(line + 1 + after, same and next_line or at.file.to)
    add(at.file, line + 1, to)
  end
  local first = next_line and math.max(next_line - before, below.file.from, same and to or 0)
  if same and first > to or line and not same and below and (next_line or below.heading) then
    found[#found + 1] = false
  end
  if next_line then
    add(below.file, first, next_line)
  end
  return found
end

return M
