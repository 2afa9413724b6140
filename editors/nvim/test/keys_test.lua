-- The keys of a list, commands, quickfix, what is drawn.

local bench = require("bench")
local test, equal, rows = bench.test, bench.equal, bench.rows
local api, fn = vim.api, vim.fn

-- Answers the questions of a body.
local function answering(answers, body)
  local input, select = vim.ui.input, vim.ui.select
  vim.ui.input = function(_, take)
    take(table.remove(answers, 1))
  end
  vim.ui.select = function(items, _, take)
    local number = table.remove(answers, 1)
    take(items[number], number)
  end
  body()
  vim.ui.input, vim.ui.select = input, select
end

test("flags and syntaxes have keys", function()
  bench.buffer({ "a", "A", "ba", "a+", "aa" })
  local list = bench.list("a+")
  for _, each in ipairs({
    { "F", { "4:a+" } },
    { "E", { "1:a", "3:ba", "4:a+", "5:aa" } },
    { "i", { "1:a", "2:A", "3:ba", "4:a+", "5:aa" } },
    { "x", { "1:a", "2:A", "5:aa" } },
    { "v", { "3:ba", "4:a+" } },
    { "i", { "2:A", "3:ba", "4:a+" } },
    { "v", { "1:a", "5:aa" } },
    { "x", { "1:a", "3:ba", "4:a+", "5:aa" } },
    { "B", { "4:a+" } },
  }) do
    bench.type(list, each[1])
    equal(rows(list), each[2], each[1])
  end
end)

test("patterns are added, dropped and changed by keys", function()
  bench.buffer({ "one", "two", "three" })
  local list = bench.list("one")
  answering({ "[", "thr" }, function()
    bench.type(list, "a")
    rows(list)
    vim.wait(50)
  end)
  equal(rows(list), { "1:one", "3:three" })
  answering({ 1 }, function()
    bench.type(list, "d")
  end)
  equal(rows(list), { "3:three" })
  answering({ "w" }, function()
    bench.type(list, "c")
    rows(list)
  end)
  equal(rows(list), { "2:two" })
  equal(list.wish.patterns, { "w" })
  bench.type(list, "d")
  equal(rows(list), {})
end)

test("context, buffers and following have keys", function()
  local a, b = bench.buffer({ "one", "two" }), bench.buffer({ "x", "one" })
  api.nvim_buf_set_name(a, "first")
  local list = bench.list("one")
  rows(list)
  answering({ "1 0" }, function()
    bench.type(list, "C")
  end)
  equal(list.context, { 1, 0 })
  equal(bench.around(list), { "1-x", "2:one" })
  answering({ "first" }, function()
    bench.type(list, "+")
  end)
  equal(rows(list), { "1:2:one", "2:1:one" })
  answering({ "live-occur://" }, function() -- Its rows would be hits, and rows.
    bench.type(list, "+")
  end)
  assert(bench.said:find("a list isn't searched", 1, true), bench.said)
  equal(rows(list), { "1:2:one", "2:1:one" })
  answering({ 1 }, function()
    bench.type(list, "-")
  end)
  equal(rows(list), { "1:one" })
  equal(list.files[1].buffer, a)
  bench.type(list, "f")
  equal(list.follow, true)
  equal(b > 0, true)
end)

test("RET goes to the line as it is now, also in a new window", function()
  local buffer = bench.buffer({ "x", "a one", "y", "b one" })
  local list = bench.list("one")
  rows(list)
  local window = fn.win_findbuf(list.buffer)[1]
  api.nvim_buf_set_lines(buffer, 0, 0, false, { "new", "new" })
  api.nvim_set_current_win(window)
  equal(api.nvim_win_get_cursor(window)[1], 2)
  api.nvim_win_set_cursor(window, { 3, 0 })
  require("live_occur.keys").visit(list)
  equal(api.nvim_get_current_buf(), buffer)
  equal(api.nvim_win_get_cursor(0), { 6, 2 })
  api.nvim_set_current_win(window)
  local count = #api.nvim_list_wins()
  bench.type(list, "<C-w><CR>")
  equal(#api.nvim_list_wins(), count + 1)
end)

test("the cursor stays on its row", function()
  local buffer = bench.buffer({ "one", "x", "one 2", "one 3" })
  local list = bench.list("one")
  rows(list)
  local window = fn.win_findbuf(list.buffer)[1]
  api.nvim_win_set_cursor(window, { 3, 0 })
  api.nvim_buf_set_lines(buffer, 0, 0, false, { "one a", "one b" })
  rows(list)
  equal(api.nvim_win_get_cursor(window)[1], 5)
  api.nvim_buf_set_lines(buffer, 0, 3, false, {})
  rows(list)
  equal(api.nvim_win_get_cursor(window)[1], 2)
end)

test("a window that shows the header goes on to", function()
  local a, b = bench.buffer({ "one", "x", "one" }), bench.buffer({ "one" })
  local list = bench.list("one", { a })
  rows(list)
  local window = fn.win_findbuf(list.buffer)[1]
  list:add_buffer(b)
  rows(list)
  equal({ fn.line("w0", window), api.nvim_win_get_cursor(window)[1] }, { 1, 3 })
end)

test("the cursor stays where it is while a long reply comes, unless it is moved", function()
  local settings = require("live_occur.settings")
  local slice, lines = settings.slice, {}
  for index = 1, 100 do
    lines[index] = "one " .. index
  end
  bench.buffer(lines)
  local list = bench.list("one")
  rows(list)
  local window = fn.win_findbuf(list.buffer)[1]
  settings.slice = 10
  api.nvim_win_set_cursor(window, { 51, 0 })
  list:set_flag("i", true)
  equal(#rows(list), 100)
  equal(api.nvim_win_get_cursor(window)[1], 51)
  list:set_flag("x", true)
  rows(list)
  list:set_flag("x", false)
  vim.wait(5000, function()
    return list.paused and api.nvim_buf_line_count(list.buffer) > 3
  end, 1)
  api.nvim_win_set_cursor(window, { 3, 0 })
  equal(#rows(list), 100)
  equal(api.nvim_win_get_cursor(window)[1], 3)
  settings.slice = slice
end)

test("the command takes buffers, a range and extended expressions", function()
  local a, b = bench.buffer({ "one", "two" }), bench.buffer({ "one+", "x" })
  vim.cmd("LiveOccur! ++buffers=" .. a .. "," .. b .. " (one|x)\\+|two")
  local list = require("live_occur").list_of()
  equal(list.wish.patterns, { "(one|x)\\+|two" })
  equal(rows(list), { "1:2:two", "2:1:one+" })
  vim.cmd("LiveOccur ++buffers=all one")
  list = require("live_occur").list_of()
  equal(rows(list), { "1:1:one", "2:1:one+" })
end)

test("the quickfix list has the hits, and :cnext goes through them", function()
  local buffer = bench.buffer({ "x", "a one", "one" })
  local list = bench.list("one")
  vim.cmd("LiveOccurQuickfix")
  local items = vim.tbl_map(function(item)
    return { item.bufnr, item.lnum, item.col, item.text }
  end, fn.getqflist())
  equal(items, { { buffer, 2, 3, "a one" }, { buffer, 3, 1, "one" } })
  vim.cmd("cclose")
  vim.cmd("silent cfirst")
  vim.cmd("silent cnext")
  equal(api.nvim_win_get_cursor(0), { 3, 0 })
  equal(list.ended, nil)
end)

test("numbers and parts are drawn over the rows", function()
  local buffer = bench.buffer({ "x", "one, one", "two" })
  local list = bench.list("one")
  rows(list)
  local draw = require("live_occur.draw")
  local wanted = { { 0, nil, "LiveOccurNumber", "      2 " }, { 0, 3, "LiveOccurMatch" }, { 5, 8, "LiveOccurMatch" } }
  equal(draw.marks(list, 1, (" "):rep(16)), wanted)
  api.nvim_buf_set_lines(buffer, 0, 0, false, { "new" })
  wanted[1][4] = "      3 " -- before the program is asked
  equal(draw.marks(list, 1, (" "):rep(16)), wanted)
  equal(draw.marks(list, 0, "basic"), { { 0, nil, "LiveOccurHeader", "basic        " } })
  equal(draw.marks(list, 2, "basic"), {})
end)

test("the screen shows rows with their numbers, which are right at once", function()
  local program = require("live_occur.settings").program
  bench.with_screen(function(run, screen)
    run([[
      local path, program = ...
      vim.opt.runtimepath:prepend(path)
      require("live_occur").setup({ program = program, delay = 100000 })
      vim.api.nvim_buf_set_lines(0, 0, -1, false, { "x", "one", "y", "one more" })
      buffer = vim.api.nvim_get_current_buf()
      list = require("live_occur").open("one", { buffer })
      list:wait()
    ]], vim.opt.runtimepath:get()[1], program)
    local first = vim.fn.index(screen(), "basic  one  2 hits, 1 buffer") + 1
    equal(vim.list_slice(screen(), first + 1, first + 2), { "      2 one", "      4 one more" })
    run([[vim.api.nvim_buf_set_lines(buffer, 2, 2, false, { "new", "new" })]])
    equal(vim.list_slice(screen(), first + 1, first + 2), { "      2 one", "      6 one more" })
  end)
end)

test("the health check finds no fault", function()
  vim.cmd("silent checkhealth live_occur")
  local text = table.concat(api.nvim_buf_get_lines(0, 0, -1, false), "\n")
  assert(not text:find("ERROR"), text)
  assert(text:find("OK: "), text)
end)

test("the help has tags", function()
  local here = fn.fnamemodify(debug.getinfo(1, "S").source:sub(2), ":p:h:h")
  local folder = fn.tempname()
  fn.mkdir(folder)
  fn.writefile(fn.readfile(here .. "/doc/live-occur.txt"), folder .. "/live-occur.txt")
  equal(fn.execute("helptags " .. folder), "")
  local tags = table.concat(fn.readfile(folder .. "/tags"), "\n")
  local wanted = { ":LiveOccur", ":LiveOccurQuickfix", "live-occur", "live-occur-keys", "live-occur-edit" }
  for _, tag in ipairs(wanted) do
    assert(("\n" .. tags):find("\n" .. tag .. "\t", 1, true), tag .. " is no tag")
  end
end)
