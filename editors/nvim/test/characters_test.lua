-- Patterns that speak of characters.

local bench = require("bench")
local settings = require("live_occur.settings")
local test, equal, rows = bench.test, bench.equal, bench.rows
local api, fn = vim.api, vim.fn
local here = fn.fnamemodify(debug.getinfo(1, "S").source:sub(2), ":p:h")
local SEED = tonumber(vim.env.SEED or os.time() % 100000)

-- What a list finds in its lines: for each the parts with commas between, or nil.
local function found(list)
  list:wait()
  local parts = {}
  list:each_hit(1, math.huge, function(_, line, places)
    local text, texts = api.nvim_buf_get_lines(list.files[1].buffer, line - 1, line, false)[1], {}
    for first, last in places:gmatch("(%d+)%-(%d+)") do
      texts[#texts + 1] = text:sub(first + 1, last)
    end
    parts[line] = table.concat(texts, ",")
  end)
  return parts
end

test("all examples for editors are right", function()
  local count = 0
  for row in io.lines(fn.fnamemodify(here, ":h:h") .. "/characters.tsv") do
    if row:sub(1, 1) ~= "#" then
      local syntax, flags, pattern, line, wanted = unpack(vim.split(row, "\t"))
      local buffer = bench.buffer({ line })
      local list, fault = require("live_occur").open(pattern, { buffer }, { syntax = syntax, flags = flags })
      local given
      if list then
        given = found(list)[1] or "none"
        vim.cmd("bwipeout! " .. list.buffer)
      else
        given = fault:gsub("^(%S+) at (%d+) in: .*", "!%1 %2")
      end
      equal(given, wanted, row)
      count = count + 1
    end
  end
  assert(count >= 52, count)
end)

test("patterns speak of bytes where that is wanted, and in buffers of raw bytes", function()
  local buffer = bench.buffer({ "é", "zz" })
  local list = bench.list("^..$")
  equal(rows(list), { "2:zz" })
  settings.characters = false
  list:restart()
  equal(rows(list), { "1:é", "2:zz" })
  settings.characters = true
  local other = bench.file("\195\169\nab\n")
  vim.cmd("silent edit ++bin")
  equal(vim.bo.binary, true)
  list:restart()
  equal(rows(list), { "2:zz" })
  list:add_buffer(other)
  equal(rows(list), { "1:1:é", "1:2:zz", "2:1:é", "2:2:ab" })
  list:remove_file(list.files[2])
  equal(rows(list), { "2:zz" })
  equal(buffer > 0, true)
end)

test("a fault's place is that of its character, where it is highlighted", function()
  local buffer = bench.buffer({ "é" })
  local _, fault, place = require("live_occur").open("éé[z-a]", { buffer })
  equal({ fault, place }, { "BadRange at 4 in: éé[z-a]", 6 })
end)

local function pick(items)
  return items[math.random(#items)]
end

local ONES = { "a", "é", "É", "日", "ж", "Ж", "b", "ü", "😀" }

-- A random extended expression and the same as a pattern of Vim, which is very magic.
local function random_pattern(depth)
  local kind = math.random(depth > 0 and 8 or 5)
  if kind == 1 then
    return ".", "."
  elseif kind == 2 then
    local set = pick({ "[", "[^" }) .. pick(ONES) .. pick({ "", "à-ü", "a-é", "б-я" }) .. pick(ONES) .. "]"
    return set, set
  elseif kind <= 5 then
    local one = pick(ONES)
    return one, one
  end
  local a, b = random_pattern(depth - 1)
  if kind == 6 then
    local c, d = random_pattern(depth - 1)
    return a .. c, b .. d
  elseif kind == 7 then
    local c, d = random_pattern(depth - 1)
    return ("(%s|%s)"):format(a, c), ("%%(%s|%s)"):format(b, d)
  end
  local many = pick({ "*", "+", "?" })
  return ("(%s)%s"):format(a, many), ("%%(%s)%s"):format(b, many)
end

test("random patterns find the lines that Vim finds, seed " .. SEED, function()
  math.randomseed(SEED)
  local lines = {}
  for number = 1, 60 do
    local letters = {}
    for index = 1, math.random(0, 6) do
      letters[index] = pick(ONES)
    end
    lines[number] = table.concat(letters)
  end
  bench.buffer(lines)
  local list = bench.list("x", nil, { syntax = "extended" })
  for _ = 1, tonumber(vim.env.EDITS or 4000) / 20 do
    local ours, theirs = random_pattern(3)
    local fold = math.random(3) == 1
    local anchored = math.random(2) == 1
    if anchored then
      ours, theirs = "^(" .. ours .. ")$", "^%(" .. theirs .. ")$"
    end
    list:change(function(wish)
      wish.patterns, wish.flags.i = { ours }, fold or nil
    end)
    local given = vim.tbl_map(function(row)
      return tonumber(row:match("^%d+"))
    end, rows(list))
    local regex, wanted = vim.regex((fold and "\\c" or "\\C") .. "\\v" .. theirs), {}
    for number, line in ipairs(lines) do
      wanted[#wanted + 1] = regex:match_str(line) and number or nil
    end
    equal(given, wanted, ours .. (fold and " -i" or ""))
  end
end)

test("smart case follows the patterns, and flag i ends it", function()
  bench.buffer({ "éa", "ÉA", "Éa" })
  settings.smart_case = true
  local list = bench.list("éa")
  settings.smart_case = false
  equal({ rows(list), list:options() }, { { "1:éa", "2:ÉA", "3:Éa" }, "basic, smart case -i" })
  list:change_pattern(1, "Éa")
  equal({ rows(list), list:options() }, { { "3:Éa" }, "basic, smart case" })
  list:change_pattern(1, "\\(é\\)[[:alpha:]]") -- A letter after a backslash is no upper-case one.
  equal(rows(list), { "1:éa", "2:ÉA", "3:Éa" })
  bench.type(list, "i")
  equal({ rows(list), list:options() }, { { "1:éa" }, "basic" })
  bench.type(list, "I")
  equal({ rows(list), list:options() }, { { "1:éa", "2:ÉA", "3:Éa" }, "basic, smart case -i" })
end)
