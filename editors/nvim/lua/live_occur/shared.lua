-- What several modules use.

local api = vim.api
local M = {}

-- The characters of UTF-8, by how many bytes they have.
M.FORMS = { "[%z\1-\127]", "[\194-\223][\128-\191]", "[\224-\239][\128-\191][\128-\191]",
  "[\240-\244][\128-\191][\128-\191][\128-\191]" }

function M.say(text, group)
  api.nvim_echo({ { "LiveOccur: " .. text, group } }, true, {})
end

-- Says what is wrong, if anything is.
function M.blame(fault)
  if fault then
    M.say(tostring(fault), "ErrorMsg")
  end
end

-- The text of a fault of Vim, without the place in the code.
function M.short(fault)
  return (tostring(fault):gsub("^.-(E%d+:)", "%1"))
end

-- Calls a function, which CTRL-C may end.
function M.interruptible(call, ...)
  local ran, problem = pcall(call, ...)
  if not ran and not tostring(problem):find("Keyboard interrupt", 1, true) then
    error(problem, 0)
  end
end

-- Whether there is such a buffer.
function M.is_valid(buffer)
  return buffer ~= nil and api.nvim_buf_is_valid(buffer)
end

-- Sets options of a buffer.
function M.set(buffer, options)
  for name, value in pairs(options) do
    vim.bo[buffer][name] = value
  end
end

-- The lines of a buffer from `first` on and before `last`, from 0.
function M.lines(buffer, first, last)
  return M.is_valid(buffer) and api.nvim_buf_get_lines(buffer, first, last, false) or {}
end

-- The text of a line, from 0, or nil where there is none.
function M.line(buffer, line)
  return M.lines(buffer, line, line + 1)[1]
end

-- How many there are of something.
function M.counted(number, what)
  return number .. " " .. what .. (number == 1 and "" or "s")
end

-- Where two lists or texts differ: how many items are the same at first, and how many of each are then
-- others. `item` gives one of them by its number.
function M.difference(old, new, item)
  local first, last, shorter = 0, 0, math.min(#old, #new)
  while first < shorter and item(old, first + 1) == item(new, first + 1) do
    first = first + 1
  end
  while last < shorter - first and item(old, #old - last) == item(new, #new - last) do
    last = last + 1
  end
  return first, #old - first - last, #new - first - last
end

-- Goes through the parts of a hit: the bytes before each, and up to its end.
function M.each_part(parts)
  local next_part = parts:gmatch("(%d+)%-(%d+)")
  return function()
    local from, to = next_part()
    return tonumber(from), tonumber(to)
  end
end

return M
