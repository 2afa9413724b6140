-- Which row is which while rows are edited.
--
-- Each row has a number from the beginning on. The numbers are in an array, which each change of whole
-- rows splices (`on_bytes`); their texts are in another one (`on_lines`). What is undone is reported as
-- the exact inverse; so what a change replaced is kept, and comes back.
--
-- A row that was added has the number 0. Rows that were joined, split or replaced have a list of the
-- numbers of all of them. A row that comes with the text of one that left is that one again.

local Array = require("live_occur.array")

local api, fn = vim.api, vim.fn

local Identity = {}
Identity.__index = Identity

-- Follows the rows of a buffer, which have these texts now, as long as `goes_on` says so.
function Identity.new(buffer, texts, goes_on)
  local self = setmetatable({ buffer = buffer, alive = {}, left = {}, history = {} }, Identity)
  local numbers = {}
  for number = 1, #texts do
    numbers[number], self.alive[number] = number, 1
  end
  self.texts, self.numbers = Array.new(vim.list_slice(texts)), Array.new(numbers)
  self.newest = api.nvim_buf_call(buffer, fn.changenr)
  api.nvim_buf_attach(buffer, false, {
    on_lines = function(_, _, _, first, last, new_last)
      if not goes_on() then
        return true
      end
      local texts = self.texts:splice(first, last - first, api.nvim_buf_get_lines(buffer, first, new_last, false))
      self.gone, self.moved = { row = first, texts = texts }, nil
      if self.texts:size() ~= api.nvim_buf_line_count(buffer) then -- after all rows were taken out
        self.texts = Array.new(api.nvim_buf_get_lines(buffer, 0, -1, false))
      end
      self:settle()
    end,
    on_bytes = function(_, _, _, row, column, _, old, old_column, _, new, new_column)
      local part = (column > 0 or old_column > 0 or new_column > 0) and 1 or 0
      if goes_on() then
        api.nvim_buf_call(buffer, function() self:note_rows(row, old, new, part) end)
      end
    end,
  })
  return self
end

-- The number of a row; else nil and, where it isn't one that was added, the numbers of which it may be.
function Identity:number(row)
  local number = self.numbers:get(row)
  local is_mixed = type(number) == "table"
  return number ~= 0 and not is_mixed and number or nil, is_mixed and number or nil
end

-- Puts numbers in the place of those of `count` rows, which are returned.
function Identity:put(row, count, numbers)
  local old, alive = self.numbers:splice(row, count, numbers), self.alive
  for _, number in ipairs(old) do
    alive[number] = (alive[number] or 0) - 1
  end
  for _, number in ipairs(numbers) do
    alive[number] = (alive[number] or 0) + 1
  end
  return old
end

-- Undo and redo

-- The entry of an undo tree that is undone or redone now.
local function entry_of(entries)
  for _, entry in ipairs(entries) do
    local found = entry.curhead and entry or entry.alt and entry_of(entry.alt)
    if found then
      return found
    end
  end
end

-- The record of a change of rows that is undone or redone now, or nil, where it is a new one. All
-- records of a step of undo come one after the other.
function Identity:record_of(change, row, old, new)
  local function fits(record)
    return record and record.row == row and record.new == old and record.old == new
  end
  if not self.step then
    local last = self.history[change]
    if change > self.newest or change == self.newest and not fits(last and last[#last]) then
      return nil -- as nearly always, and the undo tree needn't be asked for
    end
    local tree = fn.undotree()
    local entry = tree.synced == 1 and entry_of(tree.entries)
    local step = entry and self.history[entry.seq]
    if not step then
      return nil
    end
    step.next, step.undone, self.step = step.undone and 1 or #step, not step.undone, step
  end
  local step = self.step
  local record = step[step.next]
  step.next = step.next + (step.undone and -1 or 1)
  self.step = step[step.next] and step
  return fits(record) and record or nil
end

-- Changes

-- The number of the row that left last with this text, or nil. A blank text says too little, unless
-- the row is one of those that were replaced.
function Identity:returned(text, replaced)
  local numbers = self.left[text] or {}
  for index = #numbers, 1, -1 do
    local number = numbers[index]
    if self.alive[number] == 0 and (replaced[number] or text:find("%S")) then
      return number
    end
  end
end

-- Gives rows that came the numbers of rows that left, as soon as their texts are known. Those without
-- one get a list of the numbers that are left of what they replaced.
function Identity:settle()
  local came = self.came
  if not came or self.texts:size() ~= self.numbers:size() then
    return
  end
  self.came = nil
  local emptied = self.texts:size() == 1 and self.texts:get(0) == ""
  local replaced, others = {}, {}
  for _, number in ipairs(came.replaced) do
    replaced[number] = true
  end
  for row = came.row, came.row + came.count - 1 do
    local number = not emptied and self:returned(self.texts:get(row), replaced)
    number = number or came.alone and came.replaced[1]
    if number then
      self:put(row, 1, { number })
      replaced[number] = nil
    else
      others[#others + 1] = row
    end
  end
  local rest = vim.tbl_filter(function(number) return replaced[number] end, came.replaced)
  for _, row in ipairs(others) do
    self:put(row, 1, { #rest > 0 and not emptied and rest or 0 })
  end
end

-- Rows have come in the place of `count` rows, and of those with the numbers `left`.
function Identity:arrive(row, count, new, left)
  local function is_known(number)
    return number ~= 0
  end
  local numbers, replaced = {}, vim.tbl_filter(is_known, vim.tbl_flatten(left))
  for index = 1, new do
    numbers[index] = #replaced > 0 and replaced or 0
  end
  self:put(row, count, numbers)
  self.came = { row = row, count = new, replaced = replaced, alone = new == 1 and #left == 1 }
end

-- Notes a new change, by which `old` rows are `new` ones.
function Identity:change(change, row, old, new)
  local late = self.texts:size() ~= self.numbers:size()
  local texts, moved, added, gone = {}, self.moved, self.added, self.gone -- `texts` are those before it
  if late then -- `on_lines` has been called for it.
    texts = gone and gone.row == row and #gone.texts == old and gone.texts or texts
  end
  for index = 1, late and 0 or old do
    texts[index] = self.texts:get(row + index - 1)
  end
  local left = self:put(row, old, {})
  for index = #left, 1, -1 do -- with which texts rows leave, the first of them at last
    local number, text = left[index], texts[index]
    if text and type(number) == "number" and number > 0 then
      self.left[text] = self.left[text] or {}
      table.insert(self.left[text], number)
    end
  end
  table.insert(self.history[change], { row = row, old = old, new = new, count = new, numbers = left })
  self.moved, self.added, self.came = nil, nil, nil
  if old == 0 and moved and #moved == new then -- `:move` takes rows out, and puts them in at once.
    self:put(row, 0, moved)
  elseif new > 0 then
    self:arrive(row, 0, new, left)
    self.added = old == 0 and { row = row, count = new, change = change } or nil
  else
    self.moved = left
    if added and added.change == change and added.row == row + old then -- as by a filter
      self:arrive(row, added.count, added.count, left)
    end
  end
  if late then
    self:settle()
  end
end

-- Takes a report of `on_bytes`: `old` ends of rows are `new` ones, and also `part` of the row after them
-- was replaced.
function Identity:note_rows(row, old, new, part)
  local change = fn.changenr()
  if old == 0 and new == 0 then
    self.newest, self.added = math.max(self.newest, change), nil
    return
  end
  old, new = old + part, new + part
  local record = self:record_of(change, row, old, new)
  if record then
    record.old, record.new = record.new, record.old
    record.count, record.numbers = #record.numbers, self:put(row, record.count, record.numbers)
    self.moved, self.added, self.came = nil, nil, nil
  else
    self.newest = math.max(self.newest, change)
    self.history[change] = self.history[change] or {}
    self:change(change, row, old, new)
  end
end

return Identity
