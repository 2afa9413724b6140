-- What a list asks the program for: patterns, a syntax, flags.
--
-- What a list wants is its `wish`. A change of it is sent as what differs from what the program has (`known`),
-- and taken over once it is accepted. Changes are answered one after the other.

local characters = require("live_occur.characters")
local settings = require("live_occur.settings")
local shared = require("live_occur.shared")

local SYNTAXES = { B = "basic", E = "extended", F = "fixed" }
local FLAGS = { "i", "v", "x" }
local M = {}

-- Whether patterns of this list speak of characters, and not of bytes.
function M:in_characters()
  for _, file in ipairs(settings.characters and self.files or {}) do
    if shared.is_valid(file.buffer) and vim.bo[file.buffer].binary then
      return false
    end
  end
  return settings.characters
end

-- Sends the patterns again, where they were sent otherwise: a buffer of raw bytes lets them speak of bytes.
function M:turn()
  if self.known.characters ~= nil and self.known.characters ~= self:in_characters() then
    self:change(function() end)
  end
end

-- The options in force, as the header has them.
function M:options()
  local known, flags = self.known, ""
  for _, flag in ipairs(FLAGS) do
    flags = flags .. (known.flags[flag] and flag or "")
  end
  return known.wanted .. (known.smart and ", smart case" or "") .. (flags ~= "" and " -" .. flags or "")
end

-- What the program would have for a wish: a syntax, texts, which are patterns in pieces, and flags.
function M:for_program(wish)
  local flags, in_characters = vim.deepcopy(wish.flags), self:in_characters()
  flags.i = flags.i or wish.smart or nil
  for _, text in ipairs(wish.smart and wish.patterns or {}) do -- A letter after a backslash isn't counted.
    text = wish.syntax ~= "fixed" and text:gsub("\\.", "") or text
    flags.i = vim.fn.tolower(text) == text and flags.i or nil
  end
  local is_ascii = not table.concat(wish.patterns):find("[\128-\255]")
  local quoted = in_characters and flags.i and wish.syntax == "fixed" and not is_ascii
  local sent = { syntax = quoted and "basic" or wish.syntax, wanted = wish.syntax, smart = wish.smart,
    flags = flags, characters = in_characters, texts = {}, pieces = {} }
  for number, pattern in ipairs(wish.patterns) do
    local pieces = in_characters and sent.syntax ~= "fixed"
      and characters.translate(pattern, sent.syntax, flags.i, quoted)
    sent.pieces[number] = pieces or { { 0, pattern } }
    sent.texts[number] = table.concat(vim.tbl_map(function(piece) return piece[2] end, sent.pieces[number]))
  end
  return sent
end

-- What a refusal says: a text, and the place in the pattern, in bytes, of a fault in one of these. `first` is
-- how many of them are before those of the command.
local function fault_of(reply, patterns, sent, first)
  local number, kind, at = reply.text:match("^Pattern (%d+) (%S+) (%d+)$")
  local pattern = number and patterns[first + number + 1]
  if not pattern then
    return reply.text
  end
  local place = tonumber(at)
  if sent.characters then
    place = characters.place(sent.pieces[first + number + 1], pattern, place)
    at = vim.str_utfindex(pattern, place)
  end
  return ("%s at %d in: %s"):format(kind, at, pattern), place
end

-- Sends what differs, and calls `finish` with nothing, or with a refusal and how many patterns are before
-- those of its command.
local function send_patterns(self, sent, finish)
  local known, texts = self.known, sent.texts
  local first, old, new = shared.difference(known.texts, texts, rawget)
  local turned = sent.syntax ~= known.syntax -- by which the program might refuse the patterns that it has
  local function order(command, lines)
    self:order(command, lines)
    self.changed = true
  end
  local function drop(count)
    for _ = 1, count do
      order("drop " .. first)
    end
  end
  if turned then
    first, old, new = 0, #known.texts, #texts
    drop(old)
    order("syntax " .. sent.syntax)
  end
  if new == 0 then
    drop(turned and 0 or old)
    return finish()
  end
  local is_one = old == 1 and new == 1 and not turned
  local last = is_one and first + 1 or #texts
  local command = is_one and "pattern " .. first or "patterns " .. last - first
  self.changed = true
  self.session:send(command, vim.list_slice(texts, first + 1, last), function(reply)
    local refused = reply.kind ~= "ok" and reply
    if turned and refused then
      order("syntax " .. known.syntax)
      if old > 0 then
        order("patterns " .. old, known.texts)
      end
    elseif not turned and not refused and not is_one then
      drop(#known.texts - first)
    end
    finish(refused, first)
  end)
end

-- Sends the flags that differ. One that is refused is off.
local function send_flags(self, before, flags)
  for _, flag in ipairs(FLAGS) do
    if flags[flag] ~= before[flag] then
      self.changed = true
      self.session:send(("flag %s %s"):format(flag, flags[flag] and "on" or "off"), nil, function(reply)
        if reply.kind ~= "ok" then
          self.wish.flags[flag], self.known.flags[flag] = nil, nil
          shared.blame(reply.text)
        end
      end)
    end
  end
end

-- What the list wants, changed by a function.
local function changed(wish, modify)
  wish = vim.deepcopy(wish)
  modify(wish)
  return wish
end

local function next_wish(self)
  local wish = self.wishes[1]
  if not wish then
    return self:step()
  elseif wish.sent then -- as by the `done` of another one
    return
  end
  wish.sent = true
  local wanted, session, before = changed(self.wish, wish.modify), self.session, self.known
  local sent = self:for_program(wanted)
  send_patterns(self, sent, function(reply, first)
    if self.session ~= session then
      return
    elseif not reply then
      self.known = sent
      send_flags(self, before.flags, sent.flags)
      self.wish = wish.trial and self.wish or wanted
    end
    table.remove(self.wishes, 1)
    if reply then
      wish.done(fault_of(reply, wanted.patterns, sent, first))
    else
      wish.done()
    end
    self:show_header()
    next_wish(self)
  end)
end

-- Changes what matches: `modify` is called with what the list wants, in order to change it. `done` is called
-- with nothing, or with a fault and the place in the pattern, if it has one. A `trial` is for the program
-- alone; of several that wait the last one is kept.
function M:change(modify, done, trial)
  done = done or function() end
  if self.ended then
    self.wish = changed(self.wish, modify)
    return done()
  end
  local count = #self.wishes
  if trial and count > 1 and self.wishes[count].trial then
    self.wishes[count] = nil
  end
  table.insert(self.wishes, { modify = modify, done = done, trial = trial })
  next_wish(self)
  self:show_header()
end

-- Does so, and waits for the answer. Returns a fault, and its place in the pattern, if there is one.
function M:change_now(modify)
  local answered, fault, place
  self:change(modify, function(...) answered, fault, place = true, ... end)
  vim.wait(10000, function() return answered or self.ended end, 1)
  return fault or not answered and (self.ended or "no reply comes") or nil, place
end

-- What a key changes in a wish: a flag, smart case or the syntax. Flag i follows the patterns no longer
-- once it is switched itself.
function M:switch(key)
  local on = not self.known.flags[key] or nil
  return function(wish)
    if key == "I" then
      wish.smart = not wish.smart
    elseif SYNTAXES[key] then
      wish.syntax = SYNTAXES[key]
    else
      wish.flags[key], wish.smart = on, wish.smart and key ~= "i"
    end
  end
end

-- Changes what a key does.
function M:toggle(key)
  self:change(self:switch(key), shared.blame)
end

return M
