-- Hunks and hits, compared with what they stand for.

local bench = require("bench")
local Hits = require("live_occur.hits")
local hunks = require("live_occur.hunks")

-- A text as a list of names: the lines of the old one have their numbers as names.
local function numbered(count)
  local text = {}
  for line = 1, count do
    text[line] = line
  end
  return text
end

local function replaced(text, at, removed, added)
  local new = {}
  for line = 1, at do
    new[line] = text[line]
  end
  for _ = 1, added do
    new[#new + 1] = "new"
  end
  for line = at + removed + 1, #text do
    new[#new + 1] = text[line]
  end
  return new
end

local function random_edit(count, most)
  local at = math.random(0, count)
  return at, math.random(0, math.min(most, count - at)), math.random(0, most)
end

bench.test("hunks turn the old text into the new one, and old places into new ones", function()
  for _ = 1, 300 do
    local old = numbered(math.random(0, 400))
    local new, pending = old, {}
    for _ = 1, math.random(1, 12) do
      local at, removed, added = random_edit(#new, math.random(1, 30))
      new = replaced(new, at, removed, added)
      hunks.note(pending, at, removed, added)
    end
    local whole, rest = {}, vim.deepcopy(pending)
    while #rest > 0 do
      vim.list_extend(whole, hunks.take(rest, math.random(1, 40)))
    end
    local text = old
    for _, hunk in ipairs(whole) do
      text = replaced(text, hunk.at, hunk.removed, 0)
      local lines = vim.list_slice(new, hunk.at + 1, hunk.at + hunk.added)
      local rest_of_text = vim.list_slice(text, hunk.at + 1)
      text = vim.list_extend(vim.list_extend(vim.list_slice(text, 1, hunk.at), lines), rest_of_text)
    end
    bench.equal(text, new, "sent")
    local touched = {}
    for _, hunk in ipairs(pending) do
      for line = hunk.at + 1, hunk.at + hunk.added do
        touched[line] = true
      end
    end
    for place, line in ipairs(new) do
      if line ~= "new" and not touched[place] then
        bench.equal(hunks.place(pending, line - 1), place - 1, "place")
      end
    end
  end
end)

bench.test("lines of a range are followed", function()
  for _ = 1, 2000 do
    local count = math.random(1, 20)
    local from = math.random(0, count)
    local to = math.random(from, count)
    local first, removed, added = random_edit(count, 6)
    local new_from, new_to, at, less, more = hunks.clip(from, to, first, first + removed, first + added)
    local what = vim.inspect({ count, from, to, first, removed, added, new_from, new_to, at, less, more })
    assert(0 <= new_from and new_from <= new_to and new_to <= count + added - removed, what)
    if at then
      assert(at >= 0 and less >= 0 and more >= 0 and at + less <= to - from, what)
      bench.equal(new_to - new_from, to - from + more - less, what)
    else
      bench.equal(new_to - new_from, to - from, what)
    end
    -- The lines of the range are the old ones in their order, but for those that were replaced.
    local old = vim.list_slice(numbered(count), from + 1, to)
    local new = vim.list_slice(replaced(numbered(count), first, removed, added), new_from + 1, new_to)
    local kept = replaced(old, at or 0, less or 0, more or 0)
    bench.equal(vim.tbl_map(tostring, new), vim.tbl_map(tostring, kept), what)
  end
end)

bench.test("hits follow h lines", function()
  for _ = 1, 200 do
    local hits, plain, lines = Hits.new(), {}, 0
    for _ = 1, 30 do
      local front, removed, added = random_edit(lines, math.random(1, 40))
      local new = {}
      for _, place in ipairs(plain) do
        if place < front then
          new[#new + 1] = place
        end
      end
      local index, gone = hits:cut(front, removed, added)
      bench.equal(index, #new, "index")
      for place = front, front + added - 1 do
        if math.random(3) == 1 then
          hits:push(place, tostring(place))
          new[#new + 1] = place
        end
      end
      for _, place in ipairs(plain) do
        if place >= front + removed then
          new[#new + 1] = place + added - removed
        end
      end
      plain, lines = new, lines + added - removed
      local given = {}
      for number = 1, hits:count() do
        given[number] = hits:get(number)
      end
      bench.equal(given, plain, "hits")
    end
  end
end)
