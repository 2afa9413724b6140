-- A process of the program `occur`: commands out, replies in.

local settings = require("live_occur.settings")

local uv = vim.uv or vim.loop
local PIECE = 5000 -- how many hits are in one table: a larger one keeps Lua's collector busy for long
local AHEAD = 4 -- how many such tables are read before they are taken
local Session = {}
Session.__index = Session

-- Replies

-- A reply is a table: `kind` is ok, refused, status or occur, `text` what follows it. The reply to
-- changes has `pieces`, with the number of a file and arrays of the places, parts and lines of some hits:
-- one for each h line, with its `front`, `removed` and `added`, and after it others for more of its hits.
-- The reply to page has `total` and one piece as `page`, with the numbers of files too. After `text off`
-- the lines are left out.
--
-- A long reply to changes is given out before it is whole: it has no `kind` then. A piece is whole when
-- there is another one after it. `waits` is called when more of the reply has come. Nothing is read while
-- several pieces were not taken.
local function new_piece(file)
  return { file = file, count = 0, files = {}, places = {}, parts = {}, lines = {} }
end

local function new_reply()
  return { pieces = {}, ahead = 0 }
end

local function add_piece(reply, file)
  local piece = new_piece(file)
  table.insert(reply.pieces, piece)
  reply.ahead = reply.ahead + 1
  return piece
end

-- Reads a number in a text, from `start` on, and returns the place after it. No string is made for
-- it: in a long reply they keep Lua's collector busy.
local function read_number(text, start)
  local number, digit = 0, text:byte(start)
  while digit >= 48 and digit <= 57 do
    number, start = number * 10 + digit - 48, start + 1
    digit = text:byte(start)
  end
  return number, start
end

-- Reads `place parts line` or `place parts`, from `start` on in a text, up to `finish`.
local function read_hit(piece, text, start, finish)
  local place, place_end = read_number(text, start)
  local parts_end = text:find(" ", place_end + 1, true)
  local count = piece.count + 1
  if parts_end and parts_end <= finish then
    piece.lines[count] = text:sub(parts_end + 1, finish)
  else
    parts_end = finish + 1
  end
  piece.count, piece.places[count] = count, place
  piece.parts[count] = text:sub(place_end + 1, parts_end - 1)
end

-- Reads one line of a reply, and returns whether the reply ends with it.
local function read_line(reply, text, start, finish)
  local first, second = text:byte(start, start + 1)
  if second == 32 and first == 114 then -- r
    local last = reply.pieces[#reply.pieces]
    last = last.count < math.min(PIECE, settings.slice) and last or add_piece(reply, last.file)
    return read_hit(last, text, start + 2, finish)
  elseif second == 32 and first == 112 then -- p
    local page = reply.page
    local file, file_end = read_number(text, start + 2)
    page.files[page.count + 1] = file
    return read_hit(page, text, file_end + 1, finish)
  end
  local kind, rest = text:sub(start, finish):match("^(%l+) ?(.*)$")
  if kind == "hits" then
    reply.total, reply.page = tonumber(rest), new_piece()
    return false
  end
  if kind == "h" then
    local file, front, removed, added = rest:match("^(%d+) (%d+) (%d+) (%d+)")
    local piece = add_piece(reply, tonumber(file))
    piece.front, piece.removed, piece.added = tonumber(front), tonumber(removed), tonumber(added)
    return false
  end
  reply.kind, reply.text = kind, rest
  return true
end

-- Reads what came: whole lines, and keeps the beginning of the last one.
function Session:read(text)
  table.insert(self.rest, text)
  if not text:find("\n", 1, true) then
    return
  end
  text = table.concat(self.rest)
  local start, newline = 1, text:find("\n", 1, true)
  while newline do
    if read_line(self.reply, text, start, newline - 1) then
      self:give(self.reply)
      self.waiting[self.answered + 1] = nil
      self.answered, self.reply = self.answered + 1, new_reply()
    end
    start = newline + 1
    newline = text:find("\n", start, true)
  end
  self.rest = { text:sub(start) }
  if #self.reply.pieces > 0 then
    self:give(self.reply)
  end
end

-- Gives a reply to the function that waits for it; or tells it that more has come.
function Session:give(reply)
  local wanted = reply.waits or not reply.given and self.waiting[self.answered + 1]
  reply.given, reply.waits = true, nil
  if wanted then
    vim.schedule(function()
      if not self.closed then
        wanted(reply)
      end
    end)
  end
  if not reply.kind and not self.unbounded and reply.ahead > AHEAD then
    self.stopped = true
    self.output:read_stop()
  end
end

-- A piece of a reply was taken.
function Session:taken(reply)
  reply.ahead = reply.ahead - 1
  if reply.ahead < AHEAD then
    self:go_on()
  end
end

-- Whether all is read from now on, even if no piece is taken.
function Session:read_all(on)
  self.unbounded = on
  self:go_on()
end

function Session:go_on()
  if self.stopped and not self.closed then
    self.stopped = false
    self.output:read_start(function(_, text)
      if text then
        self:read(text)
      end
    end)
  end
end

-- The process

-- Starts the program. `ended` is called with a text when it ends by itself. Returns nothing and a
-- text where it can't be started.
function Session.start(program, states, ended)
  local self = { rest = {}, reply = new_reply(), waiting = {}, sent = 0, answered = 0, stopped = true }
  setmetatable(self, Session)
  self.input, self.output, self.errors = uv.new_pipe(false), uv.new_pipe(false), uv.new_pipe(false)
  local said = {}
  self.process, self.pid = uv.spawn(vim.fn.expand(program), {
    args = states and { "--states", tostring(states) } or {},
    stdio = { self.input, self.output, self.errors },
  }, vim.schedule_wrap(function(status, signal)
    local by_itself = not self.closed
    self:close()
    self.process:close()
    if by_itself then
      local how = signal ~= 0 and "was killed by signal " .. signal or "ended with status " .. status
      local message = table.concat(said):gsub("%s+$", "")
      ended("occur " .. how .. (message ~= "" and " (" .. message .. ")" or ""))
    end
  end))
  if not self.process then
    self:close()
    return nil, program .. " can't be started: " .. tostring(self.pid)
  end
  self:go_on()
  self.errors:read_start(function(_, text) said[#said + 1] = text end)
  return self
end

-- Sends a command with its counted lines, which are a list or one text with the newline of each. `wanted`
-- is called with the reply.
function Session:send(command, lines, wanted)
  if self.closed then
    return
  end
  self.sent = self.sent + 1
  self.waiting[self.sent] = wanted
  if type(lines) == "table" then
    lines = table.concat(lines, "\n") .. (#lines > 0 and "\n" or "")
  end
  self.input:write(command .. "\n" .. (lines or ""))
end

-- Whether a reply is still to come.
function Session:busy()
  return not self.closed and self.sent > self.answered
end

-- Ends the process, if it runs.
function Session:close()
  if self.closed then
    return
  end
  self.closed = true
  for _, pipe in ipairs({ self.input, self.output, self.errors }) do
    pipe:close()
  end
  if self.process then
    self.process:kill("sigterm")
  end
end

return Session
