-- Rows that are edited.

local bench = require("bench")
local test, equal, rows, begin = bench.test, bench.equal, bench.rows, bench.begin_edit
local api, fn = vim.api, vim.fn

local function shown(list)
  return api.nvim_buf_get_lines(list.buffer, 1, -1, false)
end

local function lines(buffer)
  return api.nvim_buf_get_lines(buffer, 0, -1, false)
end

local function bytes(name)
  local file = assert(io.open(name, "rb"))
  local text = file:read("*a")
  file:close()
  return text
end

local function keys(text)
  api.nvim_feedkeys(api.nvim_replace_termcodes(text, true, true, true), "xt", false)
end

test("edited rows are written into their lines, and the file is saved", function()
  local buffer, name = bench.file("one\ntwo\nthree\none more\n")
  local list = bench.list("one")
  begin(list)
  equal(shown(list), { "one", "one more" })
  vim.cmd("silent %s/one/1/")
  equal(lines(buffer), { "one", "two", "three", "one more" })
  vim.cmd("write")
  equal(lines(buffer), { "1", "two", "three", "1 more" })
  equal(bytes(name), "1\ntwo\nthree\n1 more\n")
  assert(bench.said:find("2 rows are written; saved: ", 1, true), bench.said)
  equal(rows(list), {})
  api.nvim_buf_call(buffer, function()
    vim.cmd("silent undo")
  end)
  equal(lines(buffer), { "one", "two", "three", "one more" })
  equal(rows(list), { "1:one", "4:one more" })
end)

test("a write is one step of undo, apart from edits before and after it", function()
  local buffer = bench.file("one\nx\none\n")
  local list = bench.list("one")
  begin(list)
  vim.cmd("silent %s/one/1/")
  api.nvim_buf_set_lines(buffer, 1, 2, false, { "y" })
  vim.cmd("write")
  api.nvim_buf_set_lines(buffer, 1, 2, false, { "z" })
  local function undo()
    api.nvim_buf_call(buffer, function()
      vim.cmd("silent undo")
    end)
    return lines(buffer)
  end
  equal(undo(), { "1", "y", "1" })
  equal(undo(), { "one", "y", "one" })
  equal(undo(), { "one", "x", "one" })
end)

test("a buffer with unsaved changes is left modified, and one without a file, too", function()
  local a, name = bench.file("one\ntwo\n")
  api.nvim_buf_set_lines(a, 1, 2, false, { "2" })
  local b = bench.buffer({ "one" })
  local list = bench.list("one", { a, b })
  begin(list)
  vim.cmd("silent %s/^one/1/")
  vim.cmd("write")
  equal({ lines(a), lines(b) }, { { "1", "2" }, { "1" } })
  equal(bytes(name), "one\ntwo\n")
  equal({ vim.bo[a].modified, vim.bo[b].modified }, { true, true })
  assert(bench.said:find("2 rows are written; left modified: ", 1, true), bench.said)
end)

test(":e! gives an edit up, and the list goes on", function()
  local buffer = bench.buffer({ "one", "two", "one more" })
  local list = bench.list("one")
  begin(list)
  vim.cmd("silent %s/one/1/")
  keys("dd")
  vim.cmd("silent edit!")
  equal(shown(list), { "one", "one more" })
  equal(lines(buffer), { "one", "two", "one more" })
  equal({ vim.bo.modifiable, vim.bo.buftype, vim.bo.modified }, { false, "nofile", false })
  vim.wait(20)
  equal(list.closed, nil)
  api.nvim_buf_set_lines(buffer, 0, 0, false, { "one again" })
  equal(rows(list), { "1:one again", "2:one", "4:one more" })
end)

test(":e in a list makes its rows anew", function()
  bench.buffer({ "one", "two", "one more" })
  local list = bench.list("one")
  rows(list)
  api.nvim_set_current_win(fn.win_findbuf(list.buffer)[1])
  vim.cmd("silent edit")
  vim.wait(20)
  equal(api.nvim_buf_get_lines(list.buffer, 0, -1, false),
    { "basic  one  2 hits, 1 buffer", "one", "one more" })
  equal(rows(list), { "1:one", "3:one more" })
end)

test("Vim's keys work while rows are edited, and the list's keys do after it", function()
  local buffer = bench.buffer({ "one two", "", "  one" })
  local list = bench.list("o")
  begin(list)
  keys("ggjxiab<Esc>A!<Esc>jIx<Esc>a <Esc>wcwy<Esc>")
  equal(shown(list), { "abne two!", "  x y" })
  equal(list.wish.flags, {})
  vim.cmd("write")
  equal(lines(buffer), { "abne two!", "", "  x y" })
  keys("i")
  equal(list.wish.flags, { i = true })
end)

test("undo in the list goes back to the beginning of the edit, and not further", function()
  bench.buffer({ "one", "two", "one more" })
  local list = bench.list("one")
  for _ = 1, 2 do
    begin(list)
    local text = api.nvim_buf_get_lines(list.buffer, 0, -1, false)
    keys("ggjxxjdd")
    equal(shown(list), { "e" })
    for _ = 1, 10 do
      vim.cmd("silent! undo")
    end
    equal(api.nvim_buf_get_lines(list.buffer, 0, -1, false), text)
    vim.cmd("silent redo | silent redo")
    equal(shown(list), { "e", "one more" })
    vim.cmd("silent edit!")
    equal(rows(list), { "1:one", "3:one more" })
  end
end)

test("a deleted row leaves its line alone", function()
  local buffer = bench.buffer({ "one 1", "one 2", "", "one 3" })
  local list = bench.list("o*")
  begin(list)
  keys("ggjjdd")
  vim.cmd("silent %s/one/1/e")
  vim.cmd("write")
  equal(lines(buffer), { "1 1", "one 2", "", "1 3" })
  assert(bench.said:find("1 row is deleted, and left in the buffer", 1, true), bench.said)
  equal(rows(list), { "1:1 1", "2:one 2", "3:", "4:1 3" })
end)

-- The rows below the header, each with the number that it shows, or with none.
local function numbered(list)
  local shown_rows = {}
  for row, text in ipairs(shown(list)) do
    shown_rows[row] = vim.trim(require("live_occur.draw").marks(list, row, text)[1][4]) .. ":" .. text
  end
  return table.concat(shown_rows, "|")
end

-- Goes back to the beginning of a change of the rows, and to its end again.
local function undo_and_redo(list, change, before, after)
  local first = fn.changenr()
  change()
  local last = fn.changenr()
  equal(numbered(list), after)
  for _ = 1, 2 do
    vim.cmd("silent undo " .. first)
    equal(numbered(list), before)
    vim.cmd("silent undo " .. last)
    equal(numbered(list), after)
  end
end

test("added rows are ignored", function()
  local buffer = bench.buffer({ "one 1", "one 2", "one 3" })
  local list = bench.list("one")
  begin(list)
  keys("ggjyypGonew<Esc>ggOabove<Esc>Gkk0rx")
  vim.cmd("write")
  equal(lines(buffer), { "one 1", "xne 2", "one 3" })
  assert(bench.said:find("1 row is written; left modified: ", 1, true), bench.said)
  assert(bench.said:find("; 3 rows are added, and ignored", 1, true), bench.said)
  equal(rows(list), { "1:one 1", "3:one 3" })
end)

test("rows that are added, copied, moved or put back leave each row its number and its edit", function()
  local buffer = bench.buffer({ "one a", "x", "one b", "one c", "one d" })
  local list = bench.list("one")
  local before = "1:1 a|3:1 b|4:1 c|5:1 d"
  local changes = {
    ["3Gonew<Esc>"] = "1:1 a|3:1 b|:new|4:1 c|5:1 d",
    ["3GOnew<Esc>"] = "1:1 a|:new|3:1 b|4:1 c|5:1 d",
    ["3GAx<CR>new<Esc>"] = "1:1 a|3:1 bx|:new|4:1 c|5:1 d",
    ["3GS1 b<Esc>Onew<Esc>"] = "1:1 a|:new|3:1 b|4:1 c|5:1 d",
    ["Gonew<CR>more<Esc>"] = "1:1 a|3:1 b|4:1 c|5:1 d|:new|:more",
    ["3Gyyp"] = "1:1 a|3:1 b|:1 b|4:1 c|5:1 d",
    ["3GyyP"] = "1:1 a|:1 b|3:1 b|4:1 c|5:1 d",
    [":3move $"] = "1:1 a|4:1 c|5:1 d|3:1 b",
    [":4,5move 1"] = "4:1 c|5:1 d|1:1 a|3:1 b",
    [":3copy $"] = "1:1 a|3:1 b|4:1 c|5:1 d|:1 b",
    ["3GddP"] = before,
    ["3Gddp"] = "1:1 a|4:1 c|3:1 b|5:1 d",
    ["3GddpA!<Esc>"] = "1:1 a|4:1 c|3:1 b!|5:1 d",
    ["3Gdj1Gp"] = "3:1 b|4:1 c|1:1 a|5:1 d",
    ["3GddOnew<Esc>"] = "1:1 a|:new|4:1 c|5:1 d",
    ["3GddkyyP"] = ":1 a|1:1 a|4:1 c|5:1 d",
    [":2,$sort!"] = "5:1 d|4:1 c|3:1 b|1:1 a",
    [":2,$!sort -r"] = "5:1 d|4:1 c|3:1 b|1:1 a",
    [":2,$!cat"] = before,
    ["3GddjddPu"] = "1:1 a|4:1 c",
  }
  for typed, after in pairs(changes) do
    begin(list)
    vim.cmd("silent 2,$s/one/1/")
    undo_and_redo(list, function()
      if typed:find("^:") then
        vim.cmd("let &l:undolevels = &l:undolevels | silent " .. typed:sub(2))
      else
        keys(typed)
      end
    end, before, after)
    vim.cmd("silent write")
    local wanted = { "one a", "x", "one b", "one c", "one d" }
    for number, text in after:gmatch("(%d+):([^|]*)") do
      wanted[tonumber(number)] = text
    end
    equal(lines(buffer), wanted, typed)
    equal(list.edit, nil, typed)
    api.nvim_buf_set_lines(buffer, 0, -1, false, { "one a", "x", "one b", "one c", "one d" })
  end
end)

test("a blank row that is added isn't one that was deleted", function()
  local buffer = bench.buffer({ "one", "", "one more", "" })
  local list = bench.list("one\\|^$")
  begin(list)
  keys("3Gddonew<Esc>")
  equal(numbered(list), "1:one|3:one more|:new|4:")
  vim.cmd("silent write")
  equal(lines(buffer), { "one", "", "one more", "" })
  begin(list)
  keys("ggdGinew<Esc>")
  vim.cmd("silent write")
  assert(bench.said:find("0 rows are written; 4 rows are deleted, and left in the buffer; 1 row is added", 1, true))
  equal(lines(buffer), { "one", "", "one more", "" })
end)

test("rows that are sorted or moved keep their numbers", function()
  local text = { "one d", "one c", "x", "one b", "one a" }
  local buffer = bench.buffer(text)
  local list = bench.list("one")
  for _, each in ipairs({ "2,$sort", "2move $", "2,$!sort", "$move 1" }) do
    begin(list)
    vim.cmd("silent " .. each)
    vim.cmd("write")
    equal(lines(buffer), text, each)
    assert(bench.said:find("0 rows are written", 1, true), each .. ": " .. bench.said)
    equal(#rows(list), 4)
    begin(list)
    vim.cmd("silent " .. each)
    vim.cmd("silent 2,$s/one \\(.\\)/one \\1\\1/ | silent write")
    equal(lines(buffer), { "one dd", "one cc", "x", "one bb", "one aa" }, each)
    api.nvim_buf_set_lines(buffer, 0, -1, false, text)
  end
end)

test("rows that are joined, split or filtered aren't written, and the edit goes on", function()
  local text = { "one d", "one c", "x", "one b", "one a" }
  local buffer = bench.buffer(text)
  api.nvim_buf_set_name(buffer, "notes")
  local list = bench.list("one")
  local changes = {
    ["normal! ggjJ"] = "notes:1 is joined, split or filtered, notes:2 is",
    ["normal! ggjgJ"] = "notes:1 is joined, split or filtered, notes:2 is",
    ["normal! ggjwi\r"] = "notes:1 is joined, split or filtered",
    ["2,3join!"] = "notes:1 is joined, split or filtered, notes:2 is",
    ["2,3!sed s/one/1/"] = "notes:1 is joined, split or filtered, notes:2 is",
    ["2,3s/ /\\r/"] = "notes:1 is joined, split or filtered, notes:2 is",
    ["2,3s/\\n/ /"] = "notes:1 is joined, split or filtered, notes:2 is",
    ["normal! ggjlvjd"] = "notes:1 is joined, split or filtered, notes:2 is",
  }
  for each, reason in pairs(changes) do
    begin(list)
    vim.cmd("silent $s/one/1/")
    local before = numbered(list)
    local first = fn.changenr()
    vim.cmd("let &l:undolevels = &l:undolevels | silent " .. each)
    local after = shown(list)
    vim.cmd("write")
    equal(lines(buffer), { "one d", "one c", "x", "one b", "1 a" }, each)
    assert(bench.said:find("1 row is written", 1, true), each .. ": " .. bench.said)
    assert(bench.said:find(reason, 1, true) and bench.said:find("; the edit goes on$"), each .. ": " .. bench.said)
    equal({ shown(list), vim.bo.modified, vim.bo.modifiable }, { after, true, true }, each)
    vim.cmd("silent undo " .. first)
    equal(numbered(list), before, each)
    vim.cmd("silent 2,$s/^one/2/ | silent write")
    equal(lines(buffer), { "2 d", "2 c", "x", "2 b", "1 a" }, each)
    equal(list.edit, nil)
    api.nvim_buf_set_lines(buffer, 0, -1, false, text)
  end
end)

test("rows that can't be written stay until they can, or are given up", function()
  local a, b = bench.buffer({ "one", "one" }), bench.buffer({ "one" })
  api.nvim_buf_set_name(b, "locked")
  vim.bo[b].readonly = true
  local list = bench.list("one", { a, b })
  begin(list)
  vim.cmd("silent %s/^one/1/ | write")
  equal({ lines(a), lines(b), vim.bo.modified }, { { "1", "1" }, { "one" }, true })
  assert(bench.said:find("1 left alone: locked:1 is read-only: 1; the edit goes on", 1, true), bench.said)
  vim.bo[b].readonly = false
  vim.cmd("silent 3s/1/2/ | write")
  equal({ lines(a), lines(b), list.edit }, { { "2", "1" }, { "1" }, nil })
  assert(bench.said:find("2 rows are written", 1, true), bench.said)
  api.nvim_buf_set_lines(a, 0, -1, false, { "one", "one" })
  begin(list)
  vim.cmd("silent %s/^one/1/")
  api.nvim_buf_set_lines(a, 0, 1, false, { "one x" })
  vim.cmd("silent write | silent edit!")
  equal({ lines(a), list.edit }, { { "one x", "1" }, nil })
  equal(rows(list), { "1:1:one x" })
end)

test(":q with rows that aren't written asks for !, and :q! gives them up", function()
  local buffer = bench.buffer({ "one", "two", "one more" })
  local list = bench.list("one")
  local hidden = vim.o.hidden
  for _, each in ipairs({ true, false }) do
    vim.o.hidden = each
    begin(list)
    vim.cmd("silent 2s/one/1/")
    local ran, fault = pcall(vim.cmd, "quit")
    assert(not ran and fault:find("E37", 1, true), tostring(fault))
    equal({ shown(list), #list:windows() }, { { "1", "one more" }, 1 })
    vim.cmd("quit!")
    vim.wait(20)
    equal({ closed = list.closed, edit = list.edit, windows = #list:windows() }, { windows = 0 })
    equal(lines(buffer), { "one", "two", "one more" })
    vim.cmd("sbuffer " .. list.buffer)
    equal(rows(list), { "1:one", "3:one more" })
    vim.cmd("wincmd p")
  end
  vim.o.hidden = hidden
end)

test("a list that is hidden while its rows are edited keeps what was typed", function()
  local buffer = bench.buffer({ "one", "two" })
  local list = bench.list("one")
  begin(list)
  vim.cmd("silent 2s/one/1/")
  vim.cmd("buffer " .. buffer)
  vim.cmd("buffer " .. list.buffer)
  equal(vim.wo.foldcolumn, "8")
  pcall(vim.cmd, "quit")
  vim.wait(20)
  vim.cmd("hide")
  vim.wait(20)
  equal({ #list:windows(), shown(list) }, { 0, { "1" } })
  vim.cmd("sbuffer " .. list.buffer)
  vim.cmd("silent wq")
  equal({ lines(buffer), #list:windows() }, { { "1", "two" }, 0 })
  equal({ list.edit, list.closed }, {})
end)

test("a row of which the line changed meanwhile is left alone", function()
  local buffer = bench.buffer({ "one", "one", "one", "one", "one" })
  local list = bench.list("one")
  begin(list)
  vim.cmd("silent 2,$s/$/!/")
  api.nvim_buf_set_lines(buffer, 0, 0, false, { "new", "one" }) -- in front
  api.nvim_buf_set_lines(buffer, 3, 4, false, {}) -- the second of them
  api.nvim_buf_set_text(buffer, 3, 0, 3, 1, { "t" }) -- the third
  api.nvim_buf_set_text(buffer, 4, 1, 4, 2, { "N" }) -- the fourth
  vim.cmd("write")
  equal(lines(buffer), { "new", "one", "one!", "tne", "oNe", "one!" })
  assert(bench.said:find("2 rows are written", 1, true), bench.said)
  assert(bench.said:find("3 left alone: ", 1, true), bench.said)
  assert(bench.said:find("5 changed meanwhile: one!", 1, true), bench.said)
  equal({ shown(list), vim.bo.modified }, { { "one!", "one!", "one!", "one!", "one!" }, true })
  vim.cmd("silent edit!")
  equal(rows(list), { "2:one", "3:one!", "6:one!" })
end)

test("rows of a buffer that was loaded anew, unloaded or wiped are left alone", function()
  local a, name = bench.file("one\none\n")
  local b = bench.file("one\n")
  local c = bench.file("one\n")
  local list = bench.list("one", { a, b, c })
  begin(list)
  vim.cmd("silent %s/^one/1/")
  local out = assert(io.open(name, "wb"))
  out:write("x\none\n")
  out:close()
  api.nvim_buf_call(a, function()
    vim.cmd("silent edit!")
  end)
  vim.cmd("wincmd p")
  vim.cmd("silent enew!")
  vim.cmd("wincmd p")
  vim.cmd("bunload! " .. b .. " | bwipeout! " .. c)
  vim.wait(20)
  vim.cmd("write")
  equal(lines(a), { "x", "one" })
  assert(bench.said:find("4 left alone: ", 1, true) and bench.said:find(" was loaded anew: 1", 1, true), bench.said)
  equal({ shown(list)[2], vim.bo.modified }, { "1", true })
  vim.cmd("silent edit!")
  equal(rows(list), { "1:2:one" })
end)

test("a file that another program changed is not overwritten", function()
  local function outside(name, text)
    local out = assert(io.open(name, "wb"))
    out:write(text)
    out:close()
    vim.loop.fs_utime(name, os.time() + 100, os.time() + 100)
  end
  local a, name = bench.file("one\n")
  local b, other = bench.file("one\n")
  vim.bo[a].autoread, vim.bo[b].autoread = false, true
  local list = bench.list("one", { a, b })
  begin(list)
  outside(name, "one x\n")
  outside(other, "one y\n")
  vim.cmd("silent %s/^one/1/")
  vim.cmd("write")
  equal({ lines(a), lines(b) }, { { "1" }, { "one y" } })
  equal({ bytes(name), bytes(other) }, { "one x\n", "one y\n" })
  assert(bench.said:find("left modified: ", 1, true) and bench.said:find("was loaded anew: 1", 1, true), bench.said)
  vim.bo[a].modified = false
end)

test("rows of read-only buffers are refused, by name", function()
  local a, b, c = bench.buffer({ "one" }), bench.buffer({ "one" }), bench.buffer({ "one" })
  api.nvim_buf_set_name(a, "locked")
  api.nvim_buf_set_name(b, "readonly")
  vim.bo[a].modifiable = false
  vim.bo[b].readonly = true
  local list = bench.list("one", { a, b, c })
  begin(list)
  assert(bench.said:find("locked, readonly", 1, true), bench.said)
  vim.cmd("silent %s/^one/1/")
  vim.cmd("write")
  equal({ lines(a), lines(b), lines(c) }, { { "one" }, { "one" }, { "1" } })
  assert(bench.said:find("locked:1 is read-only: 1; readonly:1", 1, true) or
    bench.said:find("locked:1 is read-only: 1, readonly:1 is read-only: 1", 1, true), bench.said)
end)

test("a shortened row can't be edited", function()
  local long = ("x"):rep(3000) .. "one" .. ("y"):rep(3000)
  local buffer = bench.buffer({ "one", long })
  local list = bench.list("one")
  begin(list)
  vim.cmd("silent 2,$s/one/1/")
  vim.cmd("write")
  equal(lines(buffer), { "1", long })
  assert(bench.said:find(":2 is shortened", 1, true), bench.said)
end)

test("line ends, empty lines, bytes and a last line without newline stay as they are", function()
  local name = fn.tempname()
  local out = assert(io.open(name, "wb"))
  out:write("on\195\164\r\n\r\na\255b on\r\non\0n\r\nlast on")
  out:close()
  vim.cmd("edit ++enc=utf-8 ++bad=keep " .. name)
  vim.bo.fixendofline = false
  equal(vim.bo.fileformat, "dos")
  local list = bench.list("on\\{0,1\\}")
  begin(list)
  vim.cmd("silent 2,$s/on/\195\182/e")
  vim.cmd("write")
  equal(bytes(name), "\195\182\195\164\r\n\r\na\255b \195\182\r\n\195\182\0n\r\nlast \195\182")
end)

test("the header and names are shown over empty rows, which a command for all rows doesn't meet", function()
  local a, b = bench.buffer({ "one", "two", "three" }), bench.buffer({ "x", "one" })
  api.nvim_buf_set_name(a, "first")
  local list = bench.list("one", { a, b })
  list:set_context(0, 1)
  begin(list)
  equal(api.nvim_buf_get_lines(list.buffer, 0, -1, false), { "", "", "one", "", "one" })
  local draw = require("live_occur.draw")
  equal(draw.marks(list, 0, "")[1][4]:match("^rows are edited: :w writes them"), "rows are edited: :w writes them")
  equal(draw.marks(list, 1, "")[1][4], "first        ")
  vim.cmd("silent %s/[ot]/0/")
  vim.cmd("write")
  equal({ lines(a), lines(b) }, { { "0ne", "two", "three" }, { "x", "0ne" } })
  assert(bench.said:find("2 rows are written", 1, true), bench.said)
  assert(not bench.said:find("head", 1, true), bench.said)
  api.nvim_buf_set_lines(a, 0, 1, false, { "one" })
  begin(list)
  vim.cmd("silent 1,2s/^/X/ | silent write")
  assert(bench.said:find("0 rows are written; 2 heads are edited, and left alone", 1, true), bench.said)
end)

test("a list that is edited gets no other rows, and catches up after it", function()
  local a, b = bench.buffer({ "one", "two" }), bench.buffer({ "one" })
  local list = bench.list("one", { a, b })
  begin(list)
  local before = shown(list)
  api.nvim_buf_set_lines(a, 0, 0, false, { "one new" })
  vim.cmd("bwipeout! " .. b)
  vim.wait(100)
  equal(shown(list), before)
  vim.cmd("silent edit!")
  equal(rows(list), { "1:one new", "2:one" })
end)

test("rows can be written where the program ended meanwhile", function()
  local buffer = bench.buffer({ "one", "two" })
  local list = bench.list("o")
  begin(list)
  vim.loop.kill(list.session.pid, "sigkill")
  assert(vim.wait(5000, function()
    return list.ended
  end, 5), "it isn't noticed")
  equal(shown(list), { "one", "two" })
  vim.cmd("silent 2s/one/1/")
  vim.cmd("write")
  equal(lines(buffer), { "1", "two" })
  keys("e")
  equal(list.edit, nil)
  keys("r")
  equal(rows(list), { "2:two" })
end)

test("an edit waits for a list that isn't right yet", function()
  local settings = require("live_occur.settings")
  local slice, text = settings.slice, {}
  for index = 1, 200 do
    text[index] = "one " .. index
  end
  local buffer = bench.buffer(text)
  settings.slice = 10
  local list = bench.list("one")
  api.nvim_set_current_win(fn.win_findbuf(list.buffer)[1])
  keys("e")
  equal(list.edit, nil)
  assert(bench.said:find("once all lines are searched", 1, true), bench.said)
  assert(vim.wait(5000, function()
    return list.edit and list.edit.ready
  end, 1), "no edit begins")
  equal(#shown(list), 200)
  vim.cmd("silent $s/one/1/ | silent write")
  settings.slice = slice
  equal(lines(buffer)[200], "1 200")
  equal(#rows(list), 199)
  bench.buffer({ "one", "one" })
  list = bench.list("one")
  bench.type(list, "e")
  assert(vim.wait(5000, function()
    return list.edit and list.edit.ready
  end, 1), "no edit begins")
  assert(list.edit.texts[1]:find("  2 hits, 1 buffer$"), list.edit.texts[1])
end)

test(":w with a name writes nothing, and the edit goes on", function()
  local buffer = bench.buffer({ "one" })
  local list = bench.list("one")
  begin(list)
  vim.cmd("silent 2s/one/1/")
  local name = fn.tempname()
  vim.cmd("write " .. name)
  equal({ fn.filereadable(name), lines(buffer), shown(list) }, { 0, { "one" }, { "1" } })
  assert(bench.said:find(":w takes no name here", 1, true), bench.said)
  vim.cmd("write")
  equal(lines(buffer), { "1" })
end)

test("too many rows can't be edited", function()
  local settings = require("live_occur.settings")
  local most = settings.edit_rows
  settings.edit_rows = 2
  bench.buffer({ "one", "one", "one" })
  local list = bench.list("one")
  bench.type(list, "e") -- The rows aren't there yet.
  rows(list)
  equal(list.edit, nil)
  assert(bench.said:find("there are 3 rows, and at most 2 can be edited", 1, true), bench.said)
  bench.said = ""
  bench.type(list, "e")
  settings.edit_rows = most
  equal(list.edit, nil)
  assert(bench.said:find("there are 3 rows, and at most 2 can be edited", 1, true), bench.said)
end)

-- What the lines have to be after a write: a row that shows a number is written into that line, if
-- the line is as it was.
local function numbered_rows(list, buffer)
  local wanted = lines(buffer)
  for row, text in ipairs(lines(list.buffer)) do -- The header may have been deleted.
    local mark = require("live_occur.draw").marks(list, row - 1, text)[1]
    local number = tonumber(mark[4])
    local known = number and list.edit.identity:number(row - 1)
    if known and wanted[number] == list.edit.shown[known] then
      wanted[number] = text
    end
  end
  return wanted
end

-- Edits a searched buffer while its rows are edited.
local function edit_lines(buffer)
  local line = math.random(api.nvim_buf_line_count(buffer)) - 1
  local kind = math.random(4)
  if kind == 1 then
    api.nvim_buf_set_lines(buffer, line, line, false, { "new", math.random(2) == 1 and "" or nil })
  elseif kind == 2 then
    api.nvim_buf_set_lines(buffer, line, line + 1, false, {})
  elseif kind == 3 then
    api.nvim_buf_set_text(buffer, line, 0, line, 0, { "z" })
  else
    api.nvim_buf_call(buffer, function()
      vim.cmd("silent! " .. ({ "undo", "redo", "1join", "$move 0", "2,5sort!" })[math.random(5)])
    end)
  end
end

test("a row is known after edits of all kinds: none is written into another line", function()
  local seed = tonumber(vim.env.SEED or os.time() % 100000)
  math.randomseed(seed)
  local function pick(list)
    return list[math.random(#list)]
  end
  local function range()
    local count = fn.line("$")
    local first = math.random(math.min(2, count), count)
    return first .. "," .. math.min(count, first + math.random(0, 3))
  end
  local kinds = {
    function() return range() .. "delete" end,
    function() return range() .. "move " .. math.random(0, fn.line("$")) end,
    function() return range() .. "copy " .. math.random(0, fn.line("$")) end,
    function() return range() .. "join" end,
    function() return range() .. "sort" .. (math.random(2) == 1 and "!" or "") end,
    function() return range() .. "s/ .*/ new" .. math.random(9) .. "/e" end,
    function() return range() .. "s/^/ /" end,
    function() return range() .. "s/$/ z/" end,
    function() return "undo" end,
    function() return "undo" end,
    function() return "redo" end,
    function() return "normal! " .. math.random(fn.line("$")) .. "G" .. math.random(3) .. "dd" end,
    function()
      local keys = pick({ "p", "P", "J", '"_x', "o", "O", "A\r", '"_D' })
      return "normal! " .. math.random(fn.line("$")) .. "G" .. keys
    end,
    function() return "normal! " .. math.random(fn.line("$")) .. "G\22jI# \27" end,
    function() return "normal! qqA !\27jq2@q" end,
    function() return range() .. "!cat" end,
    function() return "g/3/s/ / +/e" end,
  }
  local written, left = 0, 0
  for round = 1, 150 do
    local text = {}
    for index = 1, 12 do
      text[index] = index % 4 == 0 and "" or ("id%02d text"):format(index)
    end
    local buffer = bench.buffer(text)
    local list = bench.list("")
    begin(list)
    local log, before, first = {}, numbered(list), fn.changenr()
    for _ = 1, math.random(1, 6) do
      local command = kinds[math.random(#kinds)]()
      log[#log + 1] = command
      vim.cmd("let &l:undolevels = &l:undolevels | silent! " .. command)
      if round % 2 == 0 and math.random(3) == 1 then
        edit_lines(buffer)
      end
    end
    vim.cmd("let &l:undolevels = &l:undolevels | normal! GA.")
    if round % 2 == 1 then
      local after, last = numbered(list), fn.changenr()
      vim.cmd("silent undo " .. first)
      equal(numbered(list), before, table.concat(log, " | "))
      vim.cmd("silent undo " .. last)
      equal(numbered(list), after, table.concat(log, " | "))
    end
    text = lines(buffer)
    local wanted = numbered_rows(list, buffer)
    vim.cmd("silent write")
    local new = lines(buffer)
    local what = ("seed %d, %d: %s\n%s"):format(seed, round, table.concat(log, " | "), table.concat(new, "\n"))
    equal(new, wanted, what)
    local joined = what:find("join") or what:find("GJ") -- A row has text of others then.
    for index, line in ipairs(new) do
      local own = text[index]:match("id%d%d")
      assert(joined or not line:find("id%d%d") or own and line:find(own), what)
      written = written + (line ~= text[index] and 1 or 0)
    end
    left = left + (bench.said:find("left alone") and 1 or 0)
    vim.cmd("bwipeout! " .. list.buffer)
    vim.cmd("bwipeout! " .. buffer)
  end
  bench.tell(("150 edits of rows with seed %d: %d lines written, rows left alone in %d"):format(seed, written, left))
end)
