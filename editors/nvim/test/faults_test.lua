-- What users met: lists that stay or are lost, stalls, keys, encodings, windows.

local bench = require("bench")
local test, equal, rows = bench.test, bench.equal, bench.rows
local api, fn = vim.api, vim.fn

local function numbered(count)
  local lines = {}
  for number = 1, count do
    lines[number] = ("%d line %s"):format(number, number % 5 < 2 and "hit" or "other")
  end
  return lines
end

-- Lets each session that is started be noted.
local Session = require("live_occur.session")
local sessions, start = {}, Session.start
function Session.start(...)
  local session, fault = start(...)
  sessions[#sessions + 1] = session
  return session, fault
end

-- How many processes of this Neovim run.
local function processes()
  return #vim.tbl_filter(function(session)
    return vim.loop.kill(session.pid, 0) == 0
  end, sessions)
end

local function until_true(condition, what)
  assert(vim.wait(20000, condition, 5), what)
end

-- The marks of a buffer in a namespace of this name.
local function marks_of(buffer, name)
  return api.nvim_buf_get_extmarks(buffer, api.nvim_create_namespace(name), 0, -1, { details = true })
end

local function close_all()
  for _, list in pairs(require("live_occur.list").all) do
    vim.cmd("bwipeout! " .. list.buffer)
  end
end

test("q ends a list and its process, and :LiveOccurResume brings it back", function()
  local before = processes()
  local buffer = bench.buffer({ "one", "two", "x", "ONE" })
  local list = bench.list("o", { buffer }, { flags = "i", range = { 1, 2 } })
  list:add_pattern("x")
  list:set_context(1, 0)
  equal(rows(list), { "1:one", "2:two" })
  equal(processes(), before + 1)
  bench.type(list, "q")
  until_true(function()
    return processes() == before and not api.nvim_buf_is_valid(list.buffer)
  end, "the process or the buffer stays")
  vim.cmd("LiveOccurResume")
  list = require("live_occur").list_of()
  equal(rows(list), { "1:one", "2:two" })
  equal({ list.wish.patterns, list.wish.flags, list.context }, { { "o", "x" }, { i = true }, { 1, 0 } })
  -- One that is hidden is shown.
  vim.cmd("hide")
  vim.cmd("LiveOccurResume")
  equal(api.nvim_get_current_buf(), list.buffer)
  bench.type(list, "q")
  vim.cmd("bwipeout! " .. buffer)
  vim.cmd("LiveOccurResume")
  assert(bench.said:find("its buffers are gone"), bench.said)
end)

test("q in the only window shows another buffer", function()
  local buffer = bench.buffer({ "one" })
  local list = bench.list("one")
  rows(list)
  api.nvim_set_current_win(fn.win_findbuf(list.buffer)[1])
  vim.cmd("only")
  bench.type(list, "q")
  equal({ api.nvim_get_current_buf(), api.nvim_buf_is_valid(list.buffer) }, { buffer, false })
end)

test("lines around 400,000 hits are shown without a stall, and so is the next edit", function()
  local buffer = bench.buffer(numbered(1000000))
  local list = bench.list("hit")
  list:wait(120000)
  equal(list:total(), 400000)
  local window = fn.win_findbuf(list.buffer)[1]
  local function shown()
    local lines = {}
    for _, mark in ipairs(marks_of(list.buffer, "live_occur_near")) do
      for _, line in ipairs(mark[4].virt_lines or {}) do
        lines[#lines + 1] = vim.trim(line[1][1]) .. line[2][1]
      end
    end
    return lines
  end
  bench.call(function()
    list:set_context(1, 0)
    vim.cmd("redraw")
  end)
  until_true(function()
    return #shown() > 0
  end, "no lines around are shown")
  equal(vim.list_slice(shown(), 1, 3), { "--", "44 line other", "--" })
  assert(#shown() < 200, "marks are on rows that aren't in view")
  bench.call(function()
    api.nvim_buf_set_lines(buffer, 0, 0, false, { "one more", "hit" })
    list:step()
  end)
  list:wait()
  vim.cmd("redraw")
  until_true(function()
    return shown()[1] == "1one more"
  end, "it doesn't follow")
  api.nvim_win_set_cursor(window, { 200000, 0 })
  vim.cmd("redraw")
  until_true(function()
    return tonumber(table.concat(shown(), " "):match("%d%d%d%d%d+") or 0) > 400000
  end, "it doesn't follow the window")
  list:set_context(0, 0)
  until_true(function()
    vim.cmd("redraw")
    return #shown() == 0
  end, "lines around stay")
end)

test("lines around are shown in each window of a list", function()
  bench.buffer(numbered(2000))
  local list = bench.list("hit")
  list:wait()
  api.nvim_set_current_win(fn.win_findbuf(list.buffer)[1])
  list:set_context(1, 0)
  vim.cmd("vsplit | normal! G")
  vim.cmd("redraw")
  vim.wait(50)
  local rows_shown = {}
  for _, mark in ipairs(marks_of(list.buffer, "live_occur_near")) do
    rows_shown[mark[2]] = true
  end
  equal({ rows_shown[1], rows_shown[400], rows_shown[799] }, { true, nil, true })
end)

test("a quickfix list of 400,000 hits is made in pieces", function()
  bench.buffer(numbered(1000000))
  local list = bench.list("hit")
  list:wait(120000)
  bench.call(function()
    vim.cmd("LiveOccurQuickfix")
  end)
  local function count()
    return fn.getqflist({ size = 0 }).size
  end
  assert(count() > 0 and count() < 400000, count())
  assert(fn.getqflist({ title = 0 }).title:find("so far"), fn.getqflist({ title = 0 }).title)
  until_true(function()
    return count() == 400000 and not fn.getqflist({ title = 0 }).title:find("so far")
  end, "it doesn't get whole")
  fn.setqflist({}, "f")
end)

test("800 files that aren't loaded are listed in pieces, without being loaded", function()
  local folder = fn.tempname()
  fn.mkdir(folder)
  local buffers = {}
  for number = 1, 800 do
    local name = folder .. "/" .. number
    fn.writefile(vim.fn["repeat"]({ "a line", "a hit" }, 100), name)
    buffers[number] = fn.bufadd(name)
  end
  local list
  bench.call(function()
    list = bench.list("hit", buffers)
  end)
  assert(list:header():find("more to come", 1, true), list:header())
  assert(list:wait(20000))
  equal(list:total(), 80000)
  equal(list:header(), "basic  hit  80000 hits, 800 buffers")
  equal({ api.nvim_buf_is_loaded(buffers[1]), api.nvim_buf_is_loaded(buffers[800]) }, { false, false })
  -- One that is visited is loaded, and followed from then on.
  api.nvim_set_current_win(fn.win_findbuf(list.buffer)[1])
  api.nvim_win_set_cursor(0, { 3, 0 })
  require("live_occur.keys").visit(list)
  equal({ api.nvim_get_current_buf(), api.nvim_win_get_cursor(0) }, { buffers[1], { 2, 2 } })
  api.nvim_buf_set_lines(0, 0, 0, false, { "hit" })
  assert(list:wait(20000))
  equal(list:total(), 80001)
  fn.delete(folder, "rf")
end)

test("a session of Vim keeps no list, and a list after it has another name", function()
  local name = fn.tempname()
  bench.with_screen(function(run, screen, type)
    run([[vim.api.nvim_buf_set_lines(0, 0, -1, false, { "one" })
      vim.cmd("silent write " .. ...)]], name)
    type(":LiveOccur one<CR>")
    vim.wait(300)
    run([[vim.cmd("mksession! " .. ...)]], name .. ".vim")
  end)
  bench.with_screen(function(run, screen, type)
    run([[vim.cmd("silent source " .. ...)]], name .. ".vim")
    local text = table.concat(screen(), "\n")
    assert(text:find("A session keeps no list", 1, true), text)
    equal(run([[return #vim.api.nvim_get_proc_children(vim.fn.getpid())]]), 0)
    run([[
      for number = 1, 40 do
        vim.cmd("silent! badd live-occur://" .. number)
      end
      buffer = vim.fn.bufadd(...)
      vim.fn.bufload(buffer)
      list = require("live_occur").open("one", { buffer })]], name)
    equal(run([[list:wait() return list:total()]]), 1)
  end)
end)

test("where there is no room or no leave for a window, no process is left", function()
  local before = processes()
  bench.buffer({ "one" })
  vim.o.winheight = 20
  vim.o.winminheight = 20
  local list, fault = require("live_occur").open("one", { api.nvim_get_current_buf() })
  vim.o.winminheight = 1
  vim.o.winheight = 1
  equal({ list, (fault or ""):match("^E36") }, { nil, "E36" })
  until_true(function()
    return processes() == before
  end, "a process is left")
  equal(require("live_occur.list").all, {})
  bench.with_screen(function(run, screen, type)
    type("q:")
    vim.wait(100)
    run([[fault = select(2, require("live_occur").open("one", { 1 }))]])
    equal(run("return fault"), "there can be no list while the window of the command line is open")
    equal(run([[return #vim.api.nvim_get_proc_children(vim.fn.getpid())]]), 0)
  end)
end)

test("a user's keys for the filetype win, also after rows were edited", function()
  local pressed = 0
  local user = api.nvim_create_autocmd("FileType", {
    pattern = "live_occur",
    callback = function(event)
      vim.keymap.set("n", "i", function()
        pressed = pressed + 1
      end, { buffer = event.buf })
    end,
  })
  local buffer = bench.buffer({ "one" })
  local list = bench.list("one")
  rows(list)
  bench.type(list, "i")
  bench.begin_edit(list)
  bench.type(list, "i")
  vim.cmd("silent edit!")
  bench.type(list, "i")
  equal({ pressed, list.wish.flags, buffer > 0 }, { 3, {}, true })
  bench.type(list, "v")
  rows(list)
  equal(list.wish.flags, { v = true })
  api.nvim_del_autocmd(user)
end)

test("other code hears of updates and visits, and reads the hits", function()
  local heard = {}
  local user = api.nvim_create_autocmd("User", {
    pattern = { "LiveOccurUpdate", "LiveOccurVisit" },
    callback = function(event)
      table.insert(heard, { event.match, api.nvim_get_current_buf() })
    end,
  })
  local buffer, name = bench.file("one\ntwo one one\n")
  local list = assert(require("live_occur").open("one", { buffer }, { syntax = "extended" }))
  rows(list)
  equal(heard[#heard], { "LiveOccurUpdate", list.buffer })
  local live_occur = require("live_occur")
  local wanted = { buffer = buffer, file = name, line = 2, text = "two one one", parts = { { 4, 7 }, { 8, 11 } } }
  equal({ live_occur.hits(list.buffer, 2, 5) }, { { wanted }, true })
  equal(#live_occur.hits(), 2)
  equal(live_occur.hits(buffer), nil)
  api.nvim_win_set_cursor(0, { 3, 0 })
  require("live_occur.keys").visit(list)
  equal(heard[#heard], { "LiveOccurVisit", buffer })
  api.nvim_del_autocmd(user)
end)

test("a row that its file's encoding can't hold is reported, and stays", function()
  local buffer, name = bench.file("caf\233 one\none\n")
  equal(vim.bo.fileencoding, "latin1")
  local list = bench.list("one")
  bench.begin_edit(list)
  vim.cmd("2s/ / → / | 3s/e/é/")
  vim.cmd("silent write")
  assert(bench.said:find("café → one", 1, true) and bench.said:find("latin1", 1, true), bench.said)
  equal(list.edit ~= nil, true)
  equal(api.nvim_buf_get_lines(buffer, 0, -1, false), { "café one", "oné" })
  vim.cmd("silent 2s/→ //e | silent 2s/one/1/ | silent write")
  equal(list.edit, nil)
  local text = assert(io.open(name, "rb")):read("*a")
  equal(text, "caf\233 1\non\233\n")
end)

test("following marks the line, is one jump, and leaves the global option alone", function()
  vim.o.list = true
  local buffer = bench.buffer(numbered(200))
  local list = bench.list("hit")
  rows(list)
  local window = fn.win_findbuf(buffer)[1]
  local function jumps()
    return #fn.getjumplist(window)[1]
  end
  local before = jumps()
  bench.type(list, "f")
  api.nvim_set_current_win(fn.win_findbuf(list.buffer)[1])
  for row = 3, 20 do
    api.nvim_win_set_cursor(0, { row, 0 })
    require("live_occur.keys").moved(list)
  end
  list:redraw()
  vim.wait(20)
  equal(jumps() - before, 1)
  equal({ vim.go.list, vim.wo[window].list, api.nvim_get_current_buf() }, { true, true, list.buffer })
  local marks = {}
  for _, mark in ipairs(marks_of(buffer, "live_occur_shown")) do
    marks[#marks + 1] = mark[4].hl_group == "LiveOccurChosen" and mark[2] + 1 or nil
  end
  equal(marks, { api.nvim_win_get_cursor(window)[1] })
  vim.cmd("wincmd p")
  equal(#marks_of(buffer, "live_occur_shown"), 0)
  vim.o.list = false
end)

test("numbers stay beside the text as it is moved sideways", function()
  bench.with_screen(function(run, screen, type)
    run([[vim.api.nvim_buf_set_lines(0, 0, -1, false, { "x", ("0123456789"):rep(9) .. " one" })]])
    type(":LiveOccur one<CR>")
    vim.wait(300)
    type("20zl")
    vim.wait(50)
    local text = table.concat(screen(), "\n")
    assert(text:find("\n      2 0123456789", 1, true), text)
  end)
end)

test(":vertical and :tab are kept to", function()
  bench.buffer({ "one" })
  vim.cmd("vertical LiveOccur one")
  equal({ fn.winlayout()[1], vim.wo.winfixheight }, { "row", false })
  close_all()
  vim.cmd("tab LiveOccur one")
  equal(fn.tabpagenr("$"), 2)
  close_all()
  vim.cmd("silent! tabonly")
end)

test("CTRL-C ends each prompt without a message", function()
  bench.with_screen(function(run, screen, type)
    run([[vim.api.nvim_buf_set_lines(0, 0, -1, false, { "one" })]])
    type(":LiveOccur one<CR>")
    vim.wait(300)
    for _, key in ipairs({ "C", "+", "-", "a", "c" }) do
      type(key)
      vim.wait(100)
      type("<C-c>")
      vim.wait(100)
    end
    local text = run([[return vim.fn.execute("messages")]]) .. table.concat(screen(), "\n")
    assert(not text:find("interrupt") and not text:find("E5108") and not text:find("stack traceback"), text)
    equal(run([[return vim.fn.mode()]]), "n")
  end)
end)

test("a second window of a list has its options, and another buffer in it hasn't", function()
  local buffer = bench.buffer({ "one" })
  local list = bench.list("one")
  bench.begin_edit(list)
  vim.cmd("vsplit")
  vim.cmd("silent edit!")
  equal(vim.wo.foldcolumn, "8")
  vim.cmd("buffer " .. buffer)
  equal({ vim.wo.foldcolumn, vim.wo.winhighlight, vim.go.foldcolumn }, { "0", "", "0" })
end)
Session.start = start
