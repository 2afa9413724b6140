-- How long Neovim doesn't answer: the time between two ticks of a timer.

local uv = vim.uv or vim.loop
local M = {}
local TICK = 10 -- milliseconds
local LOADED = 1000 -- milliseconds that other processes may take away from one tick

-- The milliseconds of all processors that this process has used.
local function used()
  local usage = uv.getrusage()
  local function milliseconds(time)
    return time.sec * 1e3 + time.usec / 1e3
  end
  return milliseconds(usage.utime) + milliseconds(usage.stime)
end

-- A pair of times: by the clock, and of this process alone.
local function now()
  return { uv.hrtime() / 1e6, used() }
end

-- The milliseconds since a pair of times in which Neovim was at work or waited: on a loaded machine
-- what it was given none of the processors for doesn't count, up to a second.
local function since(start)
  local time = now()
  local passed, worked = time[1] - start[1], time[2] - start[2]
  return passed > LOADED and passed or math.min(passed, worked)
end

-- Begins to watch. Returns a function that ends it, and returns the longest time without an answer.
function M.start()
  local timer, last, longest = uv.new_timer(), now(), 0
  local function tick()
    longest, last = math.max(longest, since(last)), now()
  end
  timer:start(TICK, TICK, vim.schedule_wrap(tick))
  return function()
    tick()
    timer:close()
    return longest
  end
end

-- The milliseconds that a body takes without an answer.
function M.time(body)
  local start = now()
  body()
  return since(start)
end

return M
