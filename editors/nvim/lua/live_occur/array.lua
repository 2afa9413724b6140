-- An array with a gap at its last change, so that the next one near it moves few items. Those after the gap
-- are in reverse order. `turn` changes items that pass the gap.

local Array = {}
Array.__index = Array

function Array.new(items)
  return setmetatable({ before = items, count = #items, after = {}, rest = 0 }, Array)
end

function Array:size()
  return self.count + self.rest
end

-- The item with this index, from 0.
function Array:get(index)
  if index < self.count then
    return self.before[index + 1]
  end
  return self.after[self.count + self.rest - index]
end

function Array:move_gap(index, turn)
  local before, after, count, rest = self.before, self.after, self.count, self.rest
  while count > index do
    rest = rest + 1
    after[rest], before[count] = turn and turn(before[count]) or before[count], nil
    count = count - 1
  end
  while count < index and rest > 0 do
    count = count + 1
    before[count], after[rest] = turn and turn(after[rest]) or after[rest], nil
    rest = rest - 1
  end
  self.count, self.rest = count, rest
end

-- Puts items in the place of `count` others from `first` on, which are returned.
function Array:splice(first, count, items, turn)
  self:move_gap(first + count, turn)
  local before, old = self.before, {}
  for index = self.count, first + 1, -1 do
    old[index - first], before[index] = before[index], nil
  end
  for index, item in ipairs(items) do
    before[first + index] = item
  end
  self.count = first + #items
  return old
end

-- Puts an item into the gap.
function Array:push(item)
  self.count = self.count + 1
  self.before[self.count] = item
end

return Array
