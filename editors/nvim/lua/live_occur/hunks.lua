-- Hunks: where a text differs from what it was.
--
-- A list of hunks is in the order of lines. A hunk says that `added` lines from `at` on, counted
-- from 0 in the new text, are in the place of `removed` lines of the old one.

local M = {}

local NEAR = 50 -- hunks with at most this many lines between them are joined
local MOST = 32 -- where there are more hunks, all are joined

-- One hunk in place of those from `first` to `last`, and of the lines from `from` on and before `to`.
local function join(hunks, first, last, from, to)
  local grown = 0
  for _ = first, last do
    local hunk = table.remove(hunks, first)
    from, to = math.min(from, hunk.at), math.max(to, hunk.at + hunk.added)
    grown = grown + hunk.added - hunk.removed
  end
  table.insert(hunks, first, { at = from, removed = to - from - grown, added = to - from })
end

-- Notes that `removed` lines from `at` on, of the new text as it was until now, became `added`.
function M.note(hunks, at, removed, added)
  local index = 1
  while hunks[index] and hunks[index].at + hunks[index].added + NEAR < at do
    index = index + 1
  end
  local last = index
  while hunks[last] and hunks[last].at <= at + removed + NEAR do
    last = last + 1
  end
  join(hunks, index, last - 1, at, at + removed)
  hunks[index].added = hunks[index].added + added - removed
  for later = index + 1, #hunks do
    hunks[later].at = hunks[later].at + added - removed
  end
  if #hunks > MOST then
    join(hunks, 1, #hunks, math.huge, 0)
  end
end

-- Takes the first hunks out, with at most `most` added lines, and returns them. Of a hunk with more
-- lines the first ones are taken.
function M.take(hunks, most)
  local taken = {}
  while hunks[1] and (most > 0 or hunks[1].added == 0) do
    local hunk = hunks[1]
    if hunk.added <= most then
      table.insert(taken, table.remove(hunks, 1))
      most = most - hunk.added
    else
      table.insert(taken, { at = hunk.at, removed = hunk.removed, added = most })
      hunk.at, hunk.removed, hunk.added = hunk.at + most, 0, hunk.added - most
      most = 0
    end
  end
  return taken
end

-- The place in the new text of a line of the old one; of a line that was removed, one near it.
function M.place(hunks, place)
  local grown = 0
  for _, hunk in ipairs(hunks) do
    local before = place - (hunk.at - grown)
    if before < 0 then
      break
    elseif before < hunk.removed then
      return hunk.at + math.max(0, math.min(before, hunk.added - 1))
    end
    grown = grown + hunk.added - hunk.removed
  end
  return place + grown
end

-- What an edit of a buffer does to its lines from `from` on and before `to`, if only these are
-- searched: the new `from` and `to`, and then, counted from `from`, where how many lines were removed
-- and added. There are only two results if it met none of them. Lines that are put directly before
-- or after them are among them; of replaced lines around them as many stay around them as there are.
function M.clip(from, to, first, last, new_last)
  local grown = new_last - last
  if last <= from and first < from then
    return from + grown, to + grown
  elseif first > to or (first == to and first < last) then
    return from, to
  end
  local new_from, new_to = from, to + grown
  if first < from then
    new_from = math.min(from, new_last)
  end
  if last > to then
    new_to = math.max(new_from, first, new_last - (last - to))
  end
  local start = math.max(first, from)
  local removed = math.min(last, to) - start
  return new_from, new_to, start - from, removed, removed + (new_to - new_from) - (to - from)
end

return M
