-- Times for large buffers. They are printed; that of an edit is bounded.

local bench = require("bench")
local api = vim.api
local settings = require("live_occur.settings")

local function large(count)
  local lines = {}
  for index = 1, count do
    lines[index] = ("%07d: line of a log with %s"):format(index, index % 3 == 0 and "error" or "nothing")
  end
  return lines
end

local function settle(list)
  assert(list:wait(120000), "the list doesn't come to rest")
end

-- A list, and the milliseconds until it is opened, has rows, and has all.
local function open(pattern)
  local list
  local opened = bench.milliseconds(function()
    list = bench.list(pattern)
  end)
  local first = bench.milliseconds(function()
    vim.wait(60000, function()
      return list:total() > 0
    end, 1)
  end)
  local all = bench.milliseconds(function()
    settle(list)
  end)
  return list, { opened, opened + first, opened + first + all }
end

-- The milliseconds of each of 40 edits with its update, in order of size. Three of four are one
-- after the other in the middle, the others anywhere.
local function edits(list, buffer, count)
  local times = {}
  for number = 1, 40 do
    local line = number % 4 == 0 and math.random(count) or math.floor(count / 2) + number
    api.nvim_buf_set_lines(buffer, line, line, false, { "error, one more line" })
    times[number] = bench.milliseconds(function()
      settle(list)
    end)
  end
  table.sort(times)
  return times
end

local function drawn(list)
  local hits = list:total()
  return bench.milliseconds(function()
    for row = hits - 50, hits do
      require("live_occur.draw").marks(list, row, (" "):rep(40))
    end
  end)
end

-- The milliseconds of a change of flag i, until the first hits are shown and until all are.
local function flag(list, first_place)
  local hits = list:total()
  local first = bench.milliseconds(function()
    list:set_flag("i", true)
    vim.wait(60000, function()
      return list.files[1].stale > 0 and list.files[1].hits:before() > 0 or not list.asked
    end, 1)
  end)
  bench.equal(list:at(1).place, first_place)
  local rest = bench.milliseconds(function()
    settle(list)
  end)
  bench.equal(list:total(), hits)
  return first, first + rest
end

local function measure(count, pattern, first_place)
  local buffer = bench.buffer(large(count))
  local list, opened = open(pattern)
  local hits = list:total()
  local times = edits(list, buffer, count)
  bench.equal(list:total(), hits + 40)
  local marks = drawn(list)
  local ended = require("watch").start()
  local first, all = flag(list, first_place)
  local longest = ended()
  bench.tell(("%d lines, %d hits: opened in %.0f ms, first rows in %.0f ms, all in %.0f ms"):format(count, hits,
    unpack(opened)))
  bench.tell(("    an edit with its update %.1f ms (median), %.1f ms (greatest); 50 rows drawn in %.2f ms"):format(
    times[20], times[40], marks))
  local told = "    flag i: first rows in %.0f ms, all in %.0f ms; Neovim waits %.0f ms at most"
  bench.tell(told:format(first, all, longest))
  assert(times[20] < 100, "an edit takes long")
end

for count in (vim.env.LINES or "200000 1000000"):gmatch("%d+") do
  bench.test("a buffer of " .. count .. " lines, of which a third match", function()
    measure(tonumber(count), "error", 2)
  end)
  bench.test("a buffer of " .. count .. " lines, which all match", function()
    measure(tonumber(count), "line", 0)
  end)
end
