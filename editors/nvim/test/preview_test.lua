-- What is shown while a pattern is typed.

local bench = require("bench")
local test, equal = bench.test, bench.equal
local fn = vim.fn

-- The lines of the window above the command line, if there is one, without the options in the first.
local function previewed(run)
  local lines = run([[
    for _, window in ipairs(vim.api.nvim_list_wins()) do
      if vim.api.nvim_win_get_config(window).relative ~= "" then
        return vim.api.nvim_buf_get_lines(vim.api.nvim_win_get_buf(window), 0, -1, false)
      end
    end
    return {}
  ]])
  lines[1] = lines[1] and lines[1]:gsub("  %l+[^ ]*.*", "")
  return lines
end

-- Waits until lines that a function gives have this text, and returns them from there on.
local function await(give, text)
  local shown, at
  assert(vim.wait(10000, function()
    shown = give()
    for number, line in ipairs(shown) do
      if line:find(text, 1, true) then
        at = number
        return true
      end
    end
  end, 20), "there is no " .. text .. ":\n" .. table.concat(shown, "\n"))
  return vim.list_slice(shown, at)
end

-- What is left of a preview: windows, buffers, marks, changes, processes.
local function left(run)
  return run([[
    vim.wait(20)
    local marks = 0
    for _, buffer in ipairs(vim.api.nvim_list_bufs()) do
      marks = marks + #vim.api.nvim_buf_get_extmarks(buffer, require("live_occur.prompt").space, 0, -1, {})
    end
    local children = #vim.api.nvim_get_proc_children(vim.fn.getpid())
    return { #vim.api.nvim_list_wins(), #vim.api.nvim_list_bufs(), marks, vim.bo.modified and 1 or 0, children }
  ]])
end

local function text(run, lines)
  run([[
    vim.api.nvim_buf_set_lines(0, 0, -1, false, ...)
    vim.bo.modified = false
  ]], lines)
end

test("the first hits are shown while a pattern is typed, and nothing is left of that", function()
  bench.with_screen(function(run, screen, type)
    local function hits()
      return previewed(run)
    end
    text(run, { "one", "two", "one two", "" })
    local before = left(run)
    type(":LiveOccur tw")
    equal(vim.list_slice(await(hits, "2 hits"), 1, 3), { "2 hits", "      2 two", "      3 one two" })
    type("o$")
    await(hits, "2 hits")
    type("<BS><BS><BS><BS>on")
    equal(vim.list_slice(await(hits, "      1 one"), 1, 2), { "      1 one", "      3 one two" })
    type("\\(")
    await(hits, "UnclosedGroup at 2")
    type("<Esc>")
    equal(hits(), {})
    equal(left(run), before)
  end)
end)

test("a preview follows the range, the syntax and the buffers", function()
  bench.with_screen(function(run, screen, type)
    local function hits()
      return previewed(run)
    end
    text(run, { "one", "a|b", "one a", "b" })
    local before = left(run)
    type(":2,$LiveOccur! a|b")
    equal(vim.list_slice(await(hits, "3 hits"), 1, 4), { "3 hits", "      2 a|b", "      3 one a", "      4 b" })
    type("<C-u>%LiveOccur a|b")
    await(hits, "1 hit")
    equal(hits(), { "1 hit", "      2 a|b" })
    type("<C-u>2;+1LiveOccur one")
    await(hits, "      3 one a")
    equal(hits(), { "1 hit", "      3 one a" })
    type("<C-u>'x,$LiveOccur one")
    vim.wait(100)
    equal(hits(), {}, "there is no mark x")
    type("<Esc>")
    equal(left(run), before)
    run([[vim.cmd("badd other | call bufload('other')")]])
    type(":LiveOccur ++buffers=all a")
    await(hits, "      3 one a")
    type("<Esc>")
  end)
end)

test("the prompts for patterns of a list have a preview", function()
  bench.with_screen(function(run, screen, type)
    local function hits()
      return previewed(run)
    end
    text(run, { "one", "two", "three" })
    type(":LiveOccur one<CR>")
    await(screen, "basic  one  1 hit, 1 buffer")
    local before = left(run)
    type("ath")
    equal(vim.list_slice(await(hits, "2 hits"), 1, 3), { "2 hits", "      1 one", "      3 three" })
    type("<Esc>")
    equal(left(run), before)
    type("c<C-u>t")
    equal(vim.list_slice(await(hits, "2 hits"), 1, 3), { "2 hits", "      2 two", "      3 three" })
    type("<CR>")
    await(screen, "basic  t  2 hits, 1 buffer")
    equal(left(run), before)
    type(":LiveOccur<CR>")
    await(screen, "List lines that match:")
    type("one")
    await(hits, "0 hits")
    type("<Esc>")
    equal(left(run), before)
  end)
end)

test("a preview gives way to the window of the command line, and CTRL-C ends a prompt", function()
  bench.with_screen(function(run, screen, type)
    local function hits()
      return previewed(run)
    end
    text(run, { "one", "two" })
    local before = left(run)
    type(":LiveOccur o")
    await(hits, "2 hits")
    type("<C-f>")
    await(screen, "[Command Line]")
    vim.wait(100)
    equal(hits(), { "" })
    type(":")
    vim.wait(100)
    type("quit<CR>")
    vim.wait(100)
    type("<Esc>")
    equal(left(run), before)
    type(":LiveOccur<CR>")
    await(screen, "List lines that match:")
    type("o")
    await(hits, "2 hits")
    run([[vim.api.nvim_input("<C-c>")]])
    vim.wait(100)
    equal(left(run), before)
    assert(not run([[return vim.fn.execute("messages")]]):find("interrupt"), "CTRL-C is reported")
  end)
end)

test("a preview of many lines comes in pieces", function()
  bench.with_screen(function(run, _, type)
    local function hits()
      return previewed(run)
    end
    run([[
      local lines = {}
      for index = 1, 60000 do
        lines[index] = "line " .. index
      end
      vim.api.nvim_buf_set_lines(0, 0, -1, false, lines)
    ]])
    type(":LiveOccur 9$")
    await(hits, "      9 line 9")
    await(hits, "6000 hits")
    type("9")
    vim.wait(100)
    type("<BS><BS><BS>0$")
    await(hits, "     10 line 10")
    type("<Esc>")
    equal(run([[return #vim.api.nvim_list_wins()]]), 1)
  end)
end)

test("a preview of 1,000,000 lines keeps Neovim answering, also where its program is killed", function()
  bench.with_screen(function(run, _, type)
    local function hits()
      return previewed(run)
    end
    run([[
      package.path = ... .. "/?.lua;" .. package.path
      local lines = {}
      for index = 1, 1000000 do
        lines[index] = ("%07d: line of a log with %s"):format(index, index % 3 == 0 and "error" or "nothing")
      end
      vim.api.nvim_buf_set_lines(0, 0, -1, false, lines)
      lines = nil
      collectgarbage()
      ended = require("watch").start()
    ]], fn.fnamemodify(debug.getinfo(1, "S").source:sub(2), ":p:h"))
    local start = vim.loop.hrtime()
    type(":LiveOccur err")
    await(hits, "so far")
    local first = (vim.loop.hrtime() - start) / 1e6
    type("or")
    await(hits, "333333 hits")
    local all = (vim.loop.hrtime() - start) / 1e6
    type("$")
    await(hits, "      3 ")
    run([[vim.loop.kill(require("live_occur.prompt").now.list.session.pid, "sigkill")]])
    vim.wait(100)
    equal(hits(), {})
    type("<BS>")
    await(hits, "so far")
    type("<Esc>")
    local stall = run([[return ended()]])
    local told = "a preview of 1,000,000 lines: first hits in %.0f ms, all in %.0f ms; Neovim waits %.0f ms at most"
    bench.tell(told:format(first, all, stall))
    assert(stall < bench.longest, stall)
  end)
end)

test("a preview ends with its program, and where there is none", function()
  bench.with_screen(function(run, screen, type)
    local function hits()
      return previewed(run)
    end
    text(run, { "one" })
    local before = left(run)
    type(":LiveOccur o")
    await(hits, "1 hit")
    run([[vim.loop.kill(require("live_occur.prompt").now.list.session.pid, "sigkill")]])
    vim.wait(100)
    equal(hits(), {})
    equal(left(run), before)
    type("n")
    await(hits, "1 hit")
    type("<C-u>echo 1<Esc>")
    equal(left(run), before)
    run([[require("live_occur").setup({ program = "/no/such/occur" })]])
    type(":LiveOccur o<Esc>")
    equal(left(run), before)
    run([[require("live_occur").setup({ preview = false })]])
  end)
end)

test("a pattern that isn't typed by hand starts no program for a preview", function()
  bench.with_screen(function(run, _, type)
    text(run, { "one" })
    run([[
      local Session = require("live_occur.session")
      local start = Session.start
      started = 0
      Session.start = function(...)
        started = started + 1
        return start(...)
      end
    ]])
    type(":LiveOccur one<CR>")
    vim.wait(100)
    equal(run([[return started]]), 1)
  end)
end)

test("the text is sent once, and at Enter the list is the one of the preview", function()
  bench.with_screen(function(run, screen, type)
    text(run, { "one", "two", "one two" })
    local ended = bench.commands(run)
    type(":LiveOccur tw")
    await(function()
      return previewed(run)
    end, "2 hits")
    local pid = run([[return require("live_occur.prompt").now.list.session.pid]])
    type("<CR>")
    await(screen, "basic  tw  2 hits, 1 buffer")
    local sent = table.concat(ended(), "; ")
    equal(select(2, sent:gsub("splice", "")), 1, sent)
    equal(run([[return vim.api.nvim_get_proc_children(vim.fn.getpid())]]), { pid })
    equal(run([[return require("live_occur").list_of().session.unbounded]]), false)
  end)
end)

-- A screen with two buffers of hits, and the number of the second one.
local function with_two(run)
  return run([[
    vim.api.nvim_buf_set_lines(0, 0, -1, false, { "One", "x", "one two" })
    local first = vim.api.nvim_get_current_buf()
    local second = vim.api.nvim_create_buf(true, false)
    local lines = {}
    for number = 1, 40 do
      lines[number] = "one " .. number
    end
    vim.api.nvim_buf_set_lines(second, 0, -1, false, lines)
    return { first, second }
  ]])
end

test("case, syntax and whole lines are switched while a pattern is typed", function()
  bench.with_screen(function(run, screen, type)
    local function head(text)
      await(function()
        return { run([[return ((require("live_occur.prompt").now or {}).shown or { "" })[1] ]]) }
      end, text)
    end
    local buffers = with_two(run)
    type(":LiveOccur one")
    head("1 hit  basic")
    type("<M-s>i")
    head("2 hits  basic -i")
    type("<M-s>x")
    head("1 hit  basic -ix")
    type("<M-s>x<M-s>v")
    head("1 hit  basic -iv")
    type("<M-s>v<M-s>i<M-s>I")
    head("2 hits  basic, smart case -i")
    type("<M-s>I<M-s>F<BS>.")
    head("0 hits  fixed")
    type("<M-s>E")
    head("1 hit  extended")
    type("<M-s>i")
    head("2 hits  extended -i")
    type("<CR>")
    await(screen, "extended -i  on.  2 hits, 1 buffer")
    -- Also in a prompt of the list, where nothing is left of it without Enter.
    type("c<M-s>i")
    vim.wait(200)
    head("1 hit  extended")
    type("<Esc>")
    await(screen, "extended -i  on.  2 hits, 1 buffer")
    type("c<M-s>i")
    vim.wait(200)
    type("<CR>")
    await(screen, "extended  on.  1 hit, 1 buffer")
    equal(run([[return #vim.api.nvim_buf_get_keymap(...)]], buffers[1], "c"), 0)
  end)
end)

test("any hit of all buffers is chosen from a preview, or all go to the quickfix list", function()
  bench.with_screen(function(run, screen, type)
    local function hits()
      return previewed(run)
    end
    local buffers = with_two(run)
    type(":LiveOccur ++buffers=all one")
    await(hits, "41 hits")
    type("<C-p>")
    await(hits, "     40 one 40")
    type("<C-n><C-n><C-n>")
    await(hits, "      1 one 1")
    type("<C-n>")
    vim.wait(200)
    type("<CR>")
    vim.wait(500)
    equal(run([[return { vim.api.nvim_get_current_buf(), vim.api.nvim_win_get_cursor(0)[1] }]]), { buffers[2], 3 })
    local shown = run([[
      for _, window in ipairs(vim.api.nvim_list_wins()) do
        local list = require("live_occur.list").all[vim.api.nvim_win_get_buf(window)]
        if list then
          return vim.fn.getbufline(list.buffer, vim.api.nvim_win_get_cursor(window)[1])
        end
      end]])
    equal(shown, { "one 3" })
    type(":LiveOccur ++buffers=all one")
    await(hits, "41 hits")
    type("<M-s>Q")
    vim.wait(500)
    equal(run([[return vim.fn.getqflist({ size = 0 }).size]]), 41)
    equal(run([[return vim.fn.mode()]]), "n")
  end)
end)

test("a user's keys for the command line win", function()
  bench.with_screen(function(run, _, type)
    local function hits()
      return previewed(run)
    end
    text(run, { "one" })
    run([[vim.cmd("cnoremap <C-n> o")]])
    type(":LiveOccur n")
    await(hits, "1 hit")
    type("<C-n>")
    await(hits, "0 hits")
    type("<Esc>")
  end)
end)
