-- The text of a row: its line, or a part of that.

local settings = require("live_occur.settings")

local CUT = "…" -- what a row has in place of the bytes that are cut off
local LEAD = 40 -- how many bytes before its first match a row has, if its line's beginning is cut off

local M = { margin = 8 } -- the columns of the margin, in which numbers of lines are

-- A place in a line, or one before it, where a character begins.
function M.whole(line, place)
  for back = 0, math.min(3, place) do
    local byte = line:byte(place - back + 1)
    if not byte or byte < 128 or byte >= 192 then
      return place - back
    end
  end
  return place
end

-- The text of a row for a line with these parts, and how many bytes are cut off before it.
function M.text(line, parts)
  local most = settings.max_columns
  if #line <= most then
    return line, 0
  end
  local first, last = (parts or ""):match("(%d+)%-(%d+)")
  local start = tonumber(last or 0) > most and math.max(0, first - math.min(LEAD, math.floor(most / 4))) or 0
  start = M.whole(line, start)
  local finish = start + most < #line and M.whole(line, start + most) or #line
  local text = line:sub(start + 1, finish)
  return (start > 0 and CUT or "") .. text .. (finish < #line and CUT or ""), start
end

-- The parts of a row, as they are kept: before them is what is cut off, if that is more than none.
function M.kept_parts(parts, start)
  return start > 0 and "@" .. start .. " " .. parts or parts
end

-- How many bytes a part of a row is further right than in its line.
function M.shift(parts)
  local start = parts:match("^@(%d+) ")
  return start and #CUT - tonumber(start) or 0
end

-- The column in its line, from 0, of a row's first part.
function M.column(parts)
  return tonumber(parts:match("(%d+)%-")) or 0
end

-- The number of a line, as the margin has it.
function M.number(line)
  return ("%7d "):format(line)
end

return M
