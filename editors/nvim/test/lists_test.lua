-- Lists on fixed texts.

local bench = require("bench")
local test, equal, rows = bench.test, bench.equal, bench.rows
local api, fn = vim.api, vim.fn

test("a list has the lines that match", function()
  bench.buffer({ "one", "two", "three" })
  local list = bench.list("e")
  equal(rows(list), { "1:one", "3:three" })
  local shown = api.nvim_buf_get_lines(list.buffer, 0, -1, false)
  equal(shown, { "basic  e  2 hits, 1 buffer", "one", "three" })
end)

test("a list of several buffers has a row with the name before those of each", function()
  local a, b = bench.buffer({ "one", "two" }), bench.buffer({ "" })
  api.nvim_buf_set_name(a, fn.getcwd() .. "/a.txt")
  local c = bench.buffer({ "x", "one:1" })
  local list = bench.list("one", { a, b, c })
  equal(rows(list), { "1:1:one", "3:2:one:1" })
  equal(api.nvim_buf_get_lines(list.buffer, 1, -1, false), { "a.txt", "one", "[No Name]", "one:1" })
  api.nvim_buf_set_lines(a, 0, -1, false, { "two" })
  equal(rows(list), { "3:2:one:1" })
  equal(api.nvim_buf_get_lines(list.buffer, 1, -1, false), { "[No Name]", "one:1" })
  api.nvim_buf_set_lines(b, 0, -1, false, { "one" })
  equal(api.nvim_buf_get_lines(list.buffer, 1, -1, false)[1], "[No Name]")
  equal(rows(list), { "2:1:one", "3:2:one:1" })
end)

test("a buffer's name is the one that it has", function()
  local a, b = bench.buffer({ "one" }), bench.buffer({ "one" })
  local list = bench.list("one", { a, b })
  rows(list)
  vim.cmd("silent file first")
  equal(api.nvim_buf_get_lines(list.buffer, 1, -1, false), { "[No Name]", "one", "first", "one" })
  bench.type(list, "v")
  equal(rows(list), {})
  equal(api.nvim_buf_get_lines(list.buffer, 1, -1, false), {})
end)

test("a long reply is shown while it comes, and read no faster", function()
  local settings = require("live_occur.settings")
  local slice, lines = settings.slice, {}
  for number = 1, 4000 do
    lines[number] = "one " .. number .. (" and one"):rep(50) -- Each part is in the reply.
  end
  local a, b = bench.buffer(lines), bench.buffer(lines)
  local list = bench.list("one", { a, b })
  rows(list)
  settings.slice = 100
  local stopped, most, put = false, 0, list.apply_piece
  list.apply_piece = function(...)
    put(...)
    stopped = stopped or list.session.stopped
    most = math.max(most, list.session.reply.ahead)
    local file = list.files[1]
    if file.stale > 0 then -- A row that isn't replaced yet has no number.
      equal(list:at(file.hits:before() + 1).stale, nil)
      equal(list:at(file.hits:before() + 2).stale, true)
      equal(list:at(file.shown + 1).heading, true)
    end
  end
  list:set_flag("i", true)
  equal(#rows(list), 8000)
  settings.slice = slice
  equal(stopped, true)
  assert(most < 40, most .. " pieces are held")
end)

test("a list follows edits of each kind", function()
  local buffer = bench.buffer({ "one", "two", "three", "four", "one two" })
  local list = bench.list("o")
  for _, command in ipairs({
    "normal! ggOso", "normal! Gofoo", "2,3delete", "undo", "redo", "%s/o/oo/g", "g/f/move 0", "global/t/normal! yyp",
    "2move $", "1copy 3", "normal! ggVGJ", "undo", "sort", "%delete", "normal! iooo", "undo", "undo",
    "normal! qqYp$xjq3@q", "%!cat", "normal! gggqG", "normal! gg\22Gx", "set fileformat=dos", "retab!", "1,3left 4",
  }) do
    vim.cmd("let &undolevels = &undolevels | silent! " .. command)
    bench.compare(list, command)
  end
  equal(buffer, list.files[1].buffer)
end)

test("a list of a range has only its lines, and follows them", function()
  bench.buffer({ "a1", "a2", "a3", "a4", "a5" })
  vim.cmd("2,3LiveOccur a")
  local list = require("live_occur").list_of()
  vim.cmd("wincmd p")
  equal(rows(list), { "2:a2", "3:a3" })
  vim.cmd("normal! ggOa0")
  equal(rows(list), { "3:a2", "4:a3" })
  vim.cmd("let &undolevels = &undolevels") -- ends what one undo takes back
  vim.cmd("3delete")
  equal(rows(list), { "3:a3" })
  vim.cmd("silent undo")
  equal(rows(list), { "3:a2", "4:a3" })
  vim.cmd("4move 0")
  equal(rows(list), { "4:a2" })
end)

test("a buffer that is loaded anew is followed", function()
  local buffer, name = bench.file("one\ntwo\n")
  local list = bench.list("o")
  equal(rows(list), { "1:one", "2:two" })
  local out = assert(io.open(name, "wb"))
  out:write("x\no\n")
  out:close()
  vim.cmd("edit!")
  equal(rows(list), { "2:o" })
  api.nvim_buf_set_lines(buffer, 0, 0, false, { "oo" })
  equal(rows(list), { "1:oo", "3:o" })
  vim.cmd("checktime")
  equal(rows(list), { "1:oo", "3:o" })
end)

test("a buffer that is unloaded has no rows until it is loaded again", function()
  local buffer = bench.file("one\ntwo\n")
  local other = bench.buffer({ "o" })
  local list = bench.list("o", { buffer, other })
  equal(rows(list), { "1:1:one", "1:2:two", "2:1:o" })
  vim.cmd("bunload! " .. buffer)
  vim.wait(50)
  equal(rows(list), { "2:1:o" })
  vim.cmd("buffer " .. buffer)
  vim.wait(50)
  equal(rows(list), { "1:1:one", "1:2:two", "2:1:o" })
  api.nvim_buf_set_lines(buffer, 0, 1, false, { "o", "o" })
  equal(rows(list), { "1:1:o", "1:2:o", "1:3:two", "2:1:o" })
  vim.cmd("buffer " .. other)
  vim.cmd("bwipeout! " .. buffer)
  vim.wait(50)
  equal(rows(list), { "1:o" })
  equal(api.nvim_buf_get_lines(list.buffer, 1, -1, false), { "o" })
end)

test("a buffer that is edited and wiped at once leaves the list", function()
  local a, b = bench.buffer({ "one" }), bench.buffer({ "one" })
  local list = bench.list("one", { a, b })
  rows(list)
  api.nvim_buf_set_lines(a, 0, 0, false, { "one", "one" })
  vim.cmd("bwipeout! " .. a)
  list:step()
  vim.wait(50)
  equal(rows(list), { "1:one" })
  equal(api.nvim_buf_get_lines(list.buffer, 1, -1, false), { "one" })
end)

test("a range is there again when its buffer is loaded again", function()
  local buffer = bench.file("a1\na2\na3\na4\n")
  local list = bench.list("a", { buffer }, { range = { 2, 3 } })
  equal(rows(list), { "2:a2", "3:a3" })
  bench.buffer({ "" })
  vim.cmd("bunload! " .. buffer)
  equal(rows(list), {})
  vim.cmd("buffer " .. buffer)
  equal(rows(list), { "2:a2", "3:a3" })
  vim.cmd("silent edit!")
  equal(rows(list), { "2:a2", "3:a3" })
end)

test("a hidden buffer and a hidden list are followed", function()
  local buffer = bench.file("one\n")
  local list = bench.list("o")
  bench.buffer({ "other" })
  api.nvim_buf_set_lines(buffer, -1, -1, false, { "o" })
  equal(rows(list), { "1:one", "2:o" })
  api.nvim_win_close(fn.win_findbuf(list.buffer)[1], false)
  equal(#fn.win_findbuf(list.buffer), 0)
  api.nvim_buf_set_lines(buffer, 0, 1, false, {})
  equal(rows(list), { "1:o" })
  vim.cmd("LiveOccurResume")
  equal(api.nvim_get_current_buf(), list.buffer)
end)

test("a list that is wiped ends its program and leaves nothing", function()
  bench.buffer({ "one" })
  local list = bench.list("o")
  local session = list.session
  rows(list)
  vim.cmd("bwipeout! " .. list.buffer)
  assert(vim.wait(5000, function()
    return session.process:is_closing() or false
  end, 5), "the process stays")
  equal(require("live_occur.list").all, {})
  api.nvim_buf_set_lines(0, 0, -1, false, { "more" })
end)

test("bytes are sent and shown as they are", function()
  bench.file("a\255b\na\0c\n\195\164\n\na\rb\n")
  local list = bench.list("^[^x]*$")
  bench.compare(list)
  equal(#rows(list), 5)
  local long = string.rep("\195\164", 3000) .. "end"
  api.nvim_buf_set_lines(0, 0, -1, false, { long })
  list:wait()
  equal(bench.hits(list)[1][3], string.rep("\195\164", 500) .. "…")
end)

-- The text of the first row of a list, and the texts that are highlighted in it.
local function first_row(list)
  list:wait()
  local text = api.nvim_buf_get_lines(list.buffer, 1, 2, false)[1]
  local parts = {}
  for _, mark in ipairs(require("live_occur.draw").marks(list, 1, text)) do
    if mark[3] == "LiveOccurMatch" then
      parts[#parts + 1] = text:sub(mark[1] + 1, mark[2])
    end
  end
  return text, parts
end

test("a shortened row shows the text around its first match", function()
  local settings = require("live_occur.settings")
  local most = settings.max_columns
  local buffer = bench.buffer({ ("ä"):rep(2000) .. "one" .. ("ö"):rep(100) .. "one" .. ("ü"):rep(2000) })
  local list = bench.list("one")
  local text, parts = first_row(list)
  equal(text, "…" .. ("ä"):rep(20) .. "one" .. ("ö"):rep(100) .. "one" .. ("ü"):rep(377) .. "…")
  equal(parts, { "one", "one" })
  equal(bench.hits(list)[1][4]:match("%d+%-"), "4000-")
  api.nvim_set_current_win(fn.win_findbuf(list.buffer)[1])
  api.nvim_win_set_cursor(0, { 2, 0 })
  require("live_occur.keys").visit(list)
  equal(api.nvim_win_get_cursor(0), { 1, 4000 })
  for _, each in ipairs({
    { ("x"):rep(999) .. "one", "…" .. ("x"):rep(40) .. "one" }, -- nothing is cut off at the end
    { ("x"):rep(997) .. "one", ("x"):rep(997) .. "one" },
    { ("x"):rep(900) .. "one" .. ("y"):rep(900), ("x"):rep(900) .. "one" .. ("y"):rep(97) .. "…" },
    { ("x"):rep(30) .. ("one"):rep(1000), ("x"):rep(30) .. ("one"):rep(323) .. "o…" },
  }) do
    api.nvim_buf_set_lines(buffer, 0, -1, false, { each[1] })
    text, parts = first_row(list)
    equal(text, each[2])
    equal({ parts[1], parts[2] }, { "one", parts[2] and "one" })
  end
  settings.max_columns = 10
  api.nvim_buf_set_lines(buffer, 0, -1, false, { "0123456789abc one def" })
  equal({ first_row(list) }, { "…c one def", { "one" } })
  settings.max_columns = most
end)

-- The rows of a list with what is around them: lines that match have a colon after their number.
local function around(list)
  rows(list)
  return bench.around(list)
end

test("context shows the lines around, which are no rows", function()
  bench.buffer({ "a", "b-1:c", "c", "d", "a" })
  local list = bench.list("a")
  rows(list)
  list:set_context(0, 1)
  equal(around(list), { "1:a", "2-b-1:c", "--", "5:a" })
  equal(rows(list), { "1:a", "5:a" })
  api.nvim_buf_set_lines(0, 1, 2, false, { "B", "a" })
  equal(rows(list), { "1:a", "3:a", "6:a" })
  equal(around(list), { "1:a", "2-B", "3:a", "4-c", "--", "6:a" })
  equal(api.nvim_buf_get_lines(list.buffer, 1, -1, false), { "a", "a", "a" })
  list:set_context(2, 2)
  equal(around(list), { "1:a", "2-B", "3:a", "4-c", "5-d", "6:a" })
  list:set_context(0, 0)
  equal(around(list), { "1:a", "3:a", "6:a" })
end)

test("a reply waits while a command is typed, since a buffer may show a preview then", function()
  bench.with_screen(function(run, _, type)
    run([[
      vim.api.nvim_buf_set_lines(0, 0, -1, false, { "one", "O" })
      list = require("live_occur").open("o", { vim.api.nvim_get_current_buf() })
      list:wait()
      list:toggle("i")
      vim.api.nvim_feedkeys(":", "n", false)
    ]])
    vim.wait(200)
    equal(run("return { vim.fn.mode(), list.asked, list:total() }"), { "c", true, 1 })
    type("<Esc>")
    assert(vim.wait(10000, function()
      return run("return list:settled()")
    end, 10))
    equal(run("return list:total()"), 2)
  end)
end)

test("refused patterns are reported with their place", function()
  bench.buffer({ "one" })
  local list, fault, place = require("live_occur").open("\\(o", { api.nvim_get_current_buf() })
  equal({ list, fault, place }, { nil, "UnclosedGroup at 0 in: \\(o", 0 })
  list = bench.list("o(")
  local faults = {}
  local function note(...)
    faults[#faults + 1] = { ... }
  end
  list:add_pattern("[b-a]", note)
  list:set_syntax("extended", note)
  list:set_flag("x", true, note)
  rows(list)
  equal(faults, { { "BadRange at 2 in: [b-a]", 2 }, { "UnclosedGroup at 1 in: o(", 1 }, {} })
  equal(list.wish.syntax, "basic")
  equal(list.wish.patterns, { "o(" })
  equal(rows(list), {})
end)

test("a program that ends is reported, and r starts it again", function()
  bench.buffer({ "one", "two" })
  local list = bench.list("o")
  list:set_flag("i", true)
  rows(list)
  vim.loop.kill(list.session.pid, "sigkill")
  assert(vim.wait(5000, function()
    return list.ended
  end, 5), "it isn't noticed")
  equal(list.ended, "occur was killed by signal 9")
  api.nvim_buf_set_lines(0, 0, 0, false, { "O" })
  vim.wait(60)
  equal(#api.nvim_buf_get_lines(list.buffer, 1, -1, false), 2)
  bench.type(list, "r")
  equal(rows(list), { "1:O", "2:one", "3:two" })
  equal(list.wish.patterns, { "o" })
end)

test("a program that isn't there is reported", function()
  local settings = require("live_occur.settings")
  local program = settings.program
  settings.program = "/no/such/occur"
  local list, fault = require("live_occur").open("o", { api.nvim_get_current_buf() })
  settings.program = program
  equal(list, nil)
  assert(fault:find("^/no/such/occur can't be started"), fault)
end)

-- All values that buffers and windows begin with.
local function global_options()
  local values = {}
  for name in pairs(api.nvim_get_all_options_info()) do
    local known, value = pcall(api.nvim_get_option_value, name, { scope = "global" })
    values[name] = known and value or nil
  end
  return values
end

test("a list has options of its own, and global ones stay as they are", function()
  local changed = {
    textwidth = 20, wrapmargin = 5, formatoptions = "tcroqaj", autoindent = true, smartindent = true, cindent = true,
    list = true, spell = true, wrap = true, number = true, relativenumber = true, cursorline = false,
    foldmethod = "indent", foldenable = true, foldlevel = 0, signcolumn = "yes", foldcolumn = "2", conceallevel = 2,
    scrollbind = true, cursorbind = true,
  }
  for name, value in pairs(changed) do
    vim.o[name] = value
  end
  local buffer = bench.buffer({ "  one two three four five", "  // one", "x" })
  local before = global_options()
  local list = bench.list("one")
  list:wait()
  equal(fn.foldclosed(2), -1)
  local window = fn.win_findbuf(list.buffer)[1]
  list:redraw()
  vim.wait(20)
  bench.begin_edit(list)
  local shown = {}
  for name, value in pairs(changed) do
    if name ~= "formatoptions" and name ~= "foldmethod" then
      shown[name] = api.nvim_win_call(window, function()
        return api.nvim_get_option_value(name, { scope = "local" }) == value
      end)
    end
  end
  equal(fn.foldclosed(2), -1)
  local function keys(text)
    api.nvim_feedkeys(api.nvim_replace_termcodes(text, true, true, true), "xt", false)
  end
  keys("2GA six seven eight nine ten eleven<Esc>onew<Esc>")
  equal(api.nvim_buf_get_lines(list.buffer, 1, -1, false),
    { "  one two three four five six seven eight nine ten eleven", "new", "  // one" })
  vim.cmd("write")
  equal(api.nvim_buf_get_lines(buffer, 0, 1, false), { "  one two three four five six seven eight nine ten eleven" })
  equal(global_options(), before)
  vim.cmd("wincmd p")
  for name, value in pairs(changed) do
    equal(vim.o[name], value, name)
    vim.cmd("set " .. name .. "&")
  end
  shown.foldlevel, shown.cindent = nil, nil
  for name, same in pairs(shown) do
    equal(same, false, name)
  end
end)
