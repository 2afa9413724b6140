-- Patterns that speak of characters.
--
-- The program takes each byte as a character. So what a pattern says of characters beyond ASCII is said of
-- their bytes in UTF-8. What is sent is in pieces, pairs of a place in the pattern and a text, by which the
-- place of a fault is found in the pattern.

local shared = require("live_occur.shared")

local fn = vim.fn
local M = {}
local Scan = {}
Scan.__index = Scan

local CLASSES = " alnum alpha blank cntrl digit graph lower print punct space upper xdigit "
local MOST = 2000 -- of a longer range in a set no other cases are looked for
local WITH_CASES = { { 0x80, 0x2fff }, { 0xa640, 0xabff }, { 0xff00, 0xff5f }, { 0x10400, 0x10fff },
  { 0x118a0, 0x118df }, { 0x16e40, 0x16e7f }, { 0x1e900, 0x1e943 } }
local BY_LENGTH = { { 0x80, 0x7ff }, { 0x800, 0xffff }, { 0x10000, 0x10ffff } }

-- By each character beyond ASCII those that differ from it by case alone.
local function make_cases()
  local codes, cases, groups, number = {}, {}, {}, 0
  for _, range in ipairs(WITH_CASES) do
    for code = range[1], range[2] do
      codes[#codes + 1] = fn.nr2char(code)
    end
  end
  for folded in fn.tolower(fn.toupper(table.concat(codes))):gmatch("[\1-\127\194-\244][\128-\191]*") do
    number = number + 1
    if #folded > 1 then
      local group = groups[folded] or {}
      groups[folded], cases[codes[number]] = group, group
      group[#group + 1] = codes[number]
    end
  end
  return cases
end

-- A character, and with `fold` those beyond ASCII that differ from it by case.
local function cases_of(text, fold)
  local found = { text }
  if fold and #text > 1 then
    M.cases = M.cases or make_cases()
    for _, other in ipairs(M.cases[text] or {}) do
      found[#found + 1] = other ~= text and other or nil
    end
  end
  return found
end

-- Sets

-- The element of a set for a character of ASCII.
local function element(code)
  local character = string.char(code)
  return character:find("[%[%]^-]") and "[." .. character .. ".]" or character
end

-- Ranges, and all that differs by case from those that aren't long.
local function with_cases(ranges)
  local all = vim.list_extend({}, ranges)
  for _, range in ipairs(ranges) do
    for code = range[1], range[2] - range[1] < MOST and range[2] or 0 do
      for _, other in ipairs(vim.list_slice(cases_of(fn.nr2char(code), true), 2)) do
        table.insert(all, { fn.char2nr(other), fn.char2nr(other) })
      end
    end
  end
  return all
end

-- The ranges of characters beyond ASCII that are in none of some others.
local function other_ranges(ranges)
  table.sort(ranges, function(a, b) return a[1] < b[1] end)
  local next_code, others = 0x80, {}
  for _, range in ipairs(vim.list_extend(ranges, { { 0x110000, 0x110000 } })) do
    if next_code < range[1] then
      table.insert(others, { next_code, range[1] - 1 })
    end
    next_code = math.max(next_code, range[2] + 1)
  end
  return others
end

-- Expressions for the bytes of all characters between two that have equally many: `from` and `to` are theirs.
local function byte_texts(from, to)
  if from == "" then
    return { "" }
  end
  local first, last, from_rest, to_rest = from:byte(), to:byte(), from:sub(2), to:sub(2)
  local lowest, highest = ("\128"):rep(#from_rest), ("\191"):rep(#from_rest)
  local middle = first < last and (from_rest ~= lowest and first or to_rest ~= highest and last - 1)
  if middle then
    local low, high = string.char(middle) .. highest, string.char(middle + 1) .. lowest
    return vim.list_extend(byte_texts(from, low), byte_texts(high, to))
  end
  local head = first == last and from:sub(1, 1) or "[" .. from:sub(1, 1) .. "-" .. to:sub(1, 1) .. "]"
  return vim.tbl_map(function(rest) return head .. rest end, byte_texts(from_rest, to_rest))
end

-- What matches a character of a set: the elements `texts` in ASCII, or with `complement` others of ASCII,
-- and ranges beyond it.
local function alternatives(complement, texts, ranges)
  local set = table.concat(texts)
  local found = { complement and "[^" .. set .. "\128-\255]" or set ~= "" and "[" .. set .. "]" or nil }
  for _, range in ipairs(ranges) do
    for _, same in ipairs(BY_LENGTH) do
      local first, last = math.max(range[1], same[1]), math.min(range[2], same[2])
      if first <= last then
        vim.list_extend(found, byte_texts(fn.nr2char(first), fn.nr2char(last)))
      end
    end
  end
  return found
end

-- Reading a pattern

-- What a Lua pattern matches from here on.
function Scan:looking(form)
  return self.pattern:match("^" .. form, self.at)
end

-- Reads a character, and returns it with its code. A byte that belongs to none has no code.
function Scan:read()
  local start, text = self.at, nil
  for _, form in ipairs(shared.FORMS) do
    text = text or self:looking(form)
  end
  self.at = start + (text and #text or 1)
  return text or self.pattern:sub(start, start), text and fn.char2nr(text)
end

function Scan:add(place, text)
  table.insert(self.pieces, { place, text })
end

-- Adds the characters from here on and before another place as they are.
function Scan:copy(finish)
  while self.at < finish do
    self:add(self.at - 1, (self:read()))
  end
end

-- Adds one of some texts, for a place before this one.
function Scan:choice(place, texts)
  if #texts > 1 or self:looking("%*") or self:looking(self.extended and "[+?{]" or "\\[+?{]") then
    local open, bar, close = unpack(self.extended and { "(", "|", ")" } or { "\\(", "\\|", "\\)" })
    texts = { open .. table.concat(texts, bar) .. close }
  end
  self:add(place, texts[1])
end

-- Reads one character of a set, and returns its code, or nil where there is a fault.
function Scan:read_point()
  local kind = self:looking("%[([.=:])")
  self.at = self.at + (kind and 2 or 0)
  local _, code = self:read()
  if kind and not (kind ~= ":" and self:looking("%" .. kind .. "%]")) then
    return nil
  end
  self.at = self.at + (kind and 2 or 0)
  return code
end

-- Reads a set, and returns whether it is a complement, its elements in ASCII as texts, and the ranges of
-- others. Where there is a fault it returns nil, and the place where a range beyond ASCII descends.
function Scan:read_set()
  local texts, ranges, complement = {}, {}, self:looking("%[%^") ~= nil
  self.at = self.at + (complement and 2 or 1)
  repeat
    local class = self:looking("%[:(%l+):%]")
    if class and CLASSES:find(" " .. class .. " ", 1, true) then
      texts[#texts + 1] = "[:" .. class .. ":]"
      self.at = self.at + #class + 4
    else
      local single, from = self:looking("%[="), self:read_point()
      local to, dash = from, nil
      if from and not single and self:looking("%-[^%]]") then
        dash, self.at = self.at - 1, self.at + 1
        to = self:read_point()
      end
      if not to or to < from then
        return nil, to and from >= 0x80 and dash
      end
      local last = math.min(to, 0x7f)
      texts[#texts + 1] = from <= last and element(from) .. (from < last and "-" .. element(last) or "") or nil
      ranges[#ranges + 1] = to >= 0x80 and { math.max(from, 0x80), to } or nil
    end
  until self:looking("%]")
  self.at = self.at + 1
  return complement, texts, ranges
end

-- Adds the set that begins here. One with a fault goes as it is, with all that follows, but a descending
-- range of characters as one of letters.
function Scan:next_set()
  local start = self.at
  local complement, texts, ranges = self:read_set()
  if complement or ranges and #ranges > 0 then
    ranges = self.fold and with_cases(ranges) or ranges
    ranges = complement and other_ranges(ranges) or ranges
    return self:choice(start - 1, alternatives(complement, texts, ranges))
  end
  local finish = ranges and self.at or #self.pattern + 1
  self.at = start
  if not ranges and texts then
    self:add(start - 1, "[b")
    self:add(texts, "-a]")
    self.at = finish
  end
  self:copy(finish)
end

-- Adds what is next in the pattern.
function Scan:next()
  local place = self.at - 1
  if self.fixed and self:looking("[][\\.*^$]") then
    self:add(place, "\\" .. self:read())
  elseif self:looking("\\[%z\1-\127]") or self:looking("%.%*") then
    self:copy(self.at + 2)
  elseif self:looking("%.") then
    self.at = self.at + 1
    self:choice(place, alternatives(true, {}, { { 0x80, 0x10ffff } }))
  elseif self:looking("%[") then
    self:next_set()
  elseif self:looking("[%z\1-\127]") and not self:looking("\\.") then
    self:copy(self.at + 1)
  else
    self.at = self.at + #self:looking("\\?")
    self:choice(place, cases_of((self:read()), self.fold))
  end
end

-- A pattern by a syntax, or a fixed string as a pattern of it, in pieces that speak of its bytes. With
-- `fold` both cases match.
function M.translate(pattern, syntax, fold, fixed)
  local scan = setmetatable({ pattern = pattern, fold = fold, fixed = fixed, at = 1, pieces = {} }, Scan)
  scan.extended = syntax == "extended"
  while scan.at <= #pattern do
    scan:next()
  end
  return scan.pieces
end

-- The place in a pattern, in bytes, of a byte of what was sent for it.
function M.place(pieces, pattern, at)
  for _, piece in ipairs(pieces) do
    if at < #piece[2] then
      return piece[1]
    end
    at = at - #piece[2]
  end
  return #pattern
end

return M
