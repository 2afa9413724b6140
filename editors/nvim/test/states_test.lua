-- Buffers of many sizes, and a program that is killed in each state.

local bench = require("bench")
local test, equal, rows = bench.test, bench.equal, bench.rows
local api, fn = vim.api, vim.fn

local function kill(list)
  vim.loop.kill(list.session.pid, "sigkill")
  assert(vim.wait(5000, function()
    return list.ended
  end, 5), "it isn't noticed")
  equal(list.ended, "occur was killed by signal 9")
end

local function numbered(count)
  local lines = {}
  for number = 1, count do
    lines[number] = ("%d line %s"):format(number, number % 7 == 0 and "seven" or "other")
  end
  return lines
end

local function until_true(condition, what)
  assert(vim.wait(60000, condition, 1), what)
end

for _, count in ipairs({ 1, 50000, 1000000 }) do
  test("a list of a buffer of " .. count .. " lines is opened, changed, edited and ended without a stall", function()
    local buffer = bench.buffer(numbered(count))
    local list
    bench.call(function()
      list = bench.list("line")
    end)
    until_true(function()
      return list:total() > 0
    end, "no hit comes")
    list:wait(120000)
    equal(list:total(), count)
    bench.call(function()
      list:set_flag("v", true)
    end)
    list:wait(120000)
    equal({ list:total(), api.nvim_buf_line_count(list.buffer) }, { 0, 1 })
    bench.call(function()
      list:set_flag("v", false)
    end)
    list:wait(120000)
    equal({ list:total(), api.nvim_buf_line_count(list.buffer) }, { count, count + 1 })
    bench.call(function()
      list:add_pattern("seven")
      list:drop_pattern(1)
    end)
    list:wait(120000)
    equal(list:total(), math.floor(count / 7))
    vim.cmd("enew!")
    bench.call(function()
      vim.cmd("bwipeout! " .. buffer)
    end)
    until_true(function()
      return #list.files == 0
    end, "the buffer stays")
    equal(api.nvim_buf_line_count(list.buffer), 1)
    bench.call(function()
      vim.cmd("bwipeout! " .. list.buffer)
    end)
  end)
end

test("lines of 1 MB are listed, shown and edited around without a stall", function()
  local long = ("0123456789"):rep(100000)
  local buffer = bench.buffer({ "x", long .. "one", "one", long, ("é"):rep(500000) .. "one" .. long })
  local list
  bench.call(function()
    list = bench.list("one")
  end)
  list:wait()
  equal(list:total(), 3)
  local texts = api.nvim_buf_get_lines(list.buffer, 1, -1, false)
  for number, text in ipairs(texts) do
    bench.call(function()
      require("live_occur.draw").marks(list, number, text)
    end)
  end
  bench.call(function()
    list:add_pattern("789")
  end)
  list:wait()
  equal(list:total(), 4)
  bench.call(function()
    bench.begin_edit(list)
    vim.cmd("silent 3s/one/1/ | silent write")
  end)
  equal(api.nvim_buf_get_lines(buffer, 2, 3, false), { "1" })
  list:wait()
  equal(list:total(), 3)
end)

test("17,000 edited rows are written without a long stall", function()
  local buffer = bench.file(table.concat(numbered(17000), "\r\n") .. "\r\n")
  equal(vim.bo.fileformat, "dos")
  local list = bench.list("line")
  list:wait()
  bench.call(function()
    bench.begin_edit(list)
  end)
  vim.cmd("silent 2,$s/line/été/")
  bench.call(function()
    vim.cmd("silent write")
  end)
  equal(api.nvim_buf_get_lines(buffer, 16999, -1, false), { "17000 été other" })
  equal(vim.bo[buffer].modified, false)
  equal(rows(list), {})
end)

test("16,667 edited rows are narrowed, added to and moved at once, without a lost edit", function()
  local text = {}
  for number = 1, 50001 do
    text[number] = number % 3 == 0 and ("id=%d hit"):format(number) or "x"
  end
  local buffer = bench.buffer(text)
  local list = bench.list("hit")
  bench.begin_edit(list)
  vim.cmd("silent 2,$s/hit/edited/")
  local first = fn.changenr()
  local function at_once(command)
    local passed = require("watch").time(function()
      vim.cmd("silent " .. command)
    end)
    assert(passed < 1000, ("%s takes %.0f ms"):format(command, passed))
  end
  local commands = { "v/id=120/delete", "g/id=12/delete", "normal! 9000Gonew", "normal! 9000GOnew", "normal! 9000Gyyp",
    "9000move 4", "normal! 9000GddP", "9000,$move 4", "g/id=12/move 0", "g/id=12/normal! yyp", "%!cat", "2,$sort!" }
  for _, command in ipairs(commands) do
    at_once("let &l:undolevels = &l:undolevels | silent " .. command)
    local last = fn.changenr()
    at_once("undo " .. first)
    at_once("undo " .. last)
    at_once("undo " .. first)
    local texts = api.nvim_buf_get_lines(list.buffer, 1, -1, false)
    for row, each in ipairs(texts) do
      local mark = require("live_occur.draw").marks(list, row, each)[1]
      local id = ("id=%d edited"):format(row * 3)
      equal({ tonumber(mark[4]), each }, { row * 3, id }, command)
    end
  end
  vim.cmd("let &l:undolevels = &l:undolevels | silent v/id=120/delete")
  vim.cmd("silent write")
  text = api.nvim_buf_get_lines(buffer, 0, -1, false)
  for number = 1, 50001 do
    local kind = tostring(number):find("^120") and "edited" or "hit"
    equal(text[number], number % 3 == 0 and ("id=%d %s"):format(number, kind) or "x")
  end
end)

test("rows of 1,000,000 lines can be edited where they are few", function()
  local buffer = bench.buffer(numbered(1000000))
  api.nvim_buf_set_lines(buffer, 999999, -1, false, { "the last one" })
  local list = bench.list("last")
  list:wait(120000)
  bench.call(function()
    bench.begin_edit(list)
  end)
  vim.cmd("silent 2s/last/first/ | silent write")
  equal(api.nvim_buf_get_lines(buffer, 999999, -1, false), { "the first one" })
  list:wait(120000)
  equal(list:total(), 0)
end)

test("70,000 words are replaced with a list open", function()
  local buffer = bench.buffer(numbered(70000))
  local list = bench.list("line")
  list:wait()
  vim.cmd("silent %s/line/word/")
  list:wait()
  equal(list:total(), 0)
  vim.cmd("silent undo")
  list:wait()
  equal(list:total(), 70000)
  equal(buffer > 0, true)
end)

test("a program that is killed while lines are sent is reported, and r goes on", function()
  local buffer = bench.buffer(numbered(100000))
  local list = bench.list("seven")
  vim.wait(1)
  kill(list)
  api.nvim_buf_set_lines(buffer, 0, 0, false, { "seven" })
  bench.type(list, "r")
  list:wait()
  equal(list:total(), 14286)
end)

test("a program that is killed while a long reply comes is reported, and r goes on", function()
  bench.buffer(numbered(100000))
  local list = bench.list("line")
  list:wait()
  list:set_flag("i", true)
  until_true(function()
    return list.paused
  end, "no reply comes")
  kill(list)
  vim.wait(50)
  for row = 0, 200 do -- What is left of the rows can be drawn.
    require("live_occur.draw").marks(list, row, (" "):rep(20))
  end
  bench.type(list, "r")
  list:wait()
  equal({ list:total(), api.nvim_buf_line_count(list.buffer) }, { 100000, 100001 })
end)

test("a program that is killed while rows leave is reported, and r goes on", function()
  local a, b = bench.buffer(numbered(30000)), bench.buffer({ "line" })
  local list = bench.list("line", { a, b })
  list:wait()
  local put = list.put
  list.put = function(self, first, last, texts, ...)
    assert(last - first <= 5000, "many rows are taken out at once")
    return put(self, first, last, texts, ...)
  end
  vim.cmd("bwipeout! " .. a)
  vim.wait(1)
  kill(list)
  vim.wait(100)
  bench.type(list, "r")
  equal(rows(list), { "1:line" })
  equal(api.nvim_buf_line_count(list.buffer), 2)
end)

test("a read-only buffer is listed and followed", function()
  local buffer = bench.buffer({ "one", "two" })
  vim.bo[buffer].modifiable = false
  local list = bench.list("one")
  equal(rows(list), { "1:one" })
  vim.bo[buffer].modifiable = true
  api.nvim_buf_set_lines(buffer, 1, 2, false, { "one" })
  equal(rows(list), { "1:one", "2:one" })
end)

test("a program can be killed as often as one likes", function()
  bench.buffer(numbered(2000))
  local list = bench.list("line")
  for _ = 1, 10 do
    vim.wait(math.random(0, 5))
    if not list.ended then
      vim.loop.kill(list.session.pid, "sigkill")
    end
    vim.wait(20)
    bench.type(list, "r")
  end
  list:wait()
  equal({ list:total(), fn.line("$") }, { 2000, 2000 })
end)
