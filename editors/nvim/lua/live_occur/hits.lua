-- The hits of one buffer, in order: for each its place, the number of lines before it, and its parts
-- as the program writes them.
--
-- They are in arrays with a gap at the last edit. A place before it counts lines from the beginning, one
-- after it those up to the end: so an edit changes no hit but those of its lines.

local Array = require("live_occur.array")

local Hits = {}
Hits.__index = Hits

function Hits.new()
  return setmetatable({ lines = 0, places = Array.new({}), parts = Array.new({}) }, Hits)
end

function Hits:count()
  return self.places.count + self.places.rest
end

-- The number of hits before the gap.
function Hits:before()
  return self.places.count
end

-- The place and the parts of a hit, by its number from 1.
function Hits:get(number)
  local place = self.places:get(number - 1)
  return number > self.places.count and self.lines - place or place, self.parts:get(number - 1)
end

-- The number of hits with a place below this one.
function Hits:below(place)
  local low, high = 0, self:count()
  while low < high do
    local middle = math.floor((low + high + 1) / 2)
    if self:get(middle) < place then
      low = middle
    else
      high = middle - 1
    end
  end
  return low
end

-- Takes out the hits of `removed` lines from line `front` on, in place of which there are `added`
-- lines now. Returns how many hits are before them, and how many were taken out.
function Hits:cut(front, removed, added)
  local lines, first = self.lines, self:below(front)
  local gone = self:below(front + removed) - first
  if gone < self:count() then
    self.places:splice(first, gone, {}, function(place) return lines - place end)
    self.parts:splice(first, gone, {})
  elseif gone > 0 then -- All go, and their tables, too.
    self.places, self.parts = Array.new({}), Array.new({})
  end
  self.lines = lines + added - removed
  return first, gone
end

-- Puts a hit into the gap.
function Hits:push(place, parts)
  self.places:push(place)
  self.parts:push(parts)
end

return Hits
