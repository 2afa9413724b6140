-- What is sent to the program.

local bench = require("bench")
local test, equal, rows = bench.test, bench.equal, bench.rows
local api = vim.api

local SPLICES = { "splice 0 0 21 21", "splice 0 500 0 2", "splice 0 1001 1 1" }

test("edits that are far apart are sent, and what changed is asked", function()
  local lines = {}
  for index = 1, 1000 do
    lines[index] = "o" .. index
  end
  local buffer = bench.buffer(lines)
  local list = bench.list("o")
  rows(list)
  local ended = bench.commands()
  api.nvim_buf_set_lines(buffer, 999, 1000, false, { "x" })
  api.nvim_buf_set_lines(buffer, 500, 500, false, { "x", "o" })
  api.nvim_buf_set_lines(buffer, 0, 1, false, {})
  api.nvim_buf_set_lines(buffer, 20, 20, false, { "o" })
  local apply, shown = list.apply_piece, {}
  list.apply_piece = function(...)
    apply(...)
    local row = bench.hits(list)[990] -- between the last two edits
    shown[#shown + 1] = row[3] == api.nvim_buf_get_lines(buffer, row[2] - 1, row[2], false)[1]
  end
  local found = rows(list)
  equal(ended(), { SPLICES[1], SPLICES[2], SPLICES[3], "changes" })
  equal(shown, { true, true, true })
  equal({ #found, found[1], found[21], found[501] }, { 1000, "1:o2", "21:o", "502:o" })
end)

test("edits of several buffers are sent, and what changed is asked", function()
  local a, b = bench.buffer({ "o" }), bench.buffer({ "o" })
  local list = bench.list("o", { a, b })
  rows(list)
  local ended = bench.commands()
  api.nvim_buf_set_lines(b, 1, 1, false, { "oo" })
  api.nvim_buf_set_lines(a, 0, 0, false, { "oo" })
  equal(rows(list), { "1:1:oo", "1:2:o", "2:1:o", "2:2:oo" })
  equal(ended(), { "splice 0 0 0 1", "splice 1 1 0 1", "changes" })
end)

test("a pattern is changed", function()
  bench.buffer({ "a", "b", "c" })
  local list = bench.list("a")
  list:add_pattern("c")
  rows(list)
  local ended = bench.commands()
  list:change_pattern(1, "b", function() end)
  equal(rows(list), { "2:b", "3:c" })
  equal({ ended(), list.wish.patterns }, { { "pattern 0", "changes" }, { "b", "c" } })
  local said
  list:change_pattern(2, "\\(", function(...)
    said = { ... }
  end)
  list:drop_pattern(1)
  rows(list)
  equal(said, { "UnclosedGroup at 0 in: \\(", 0 })
  equal(list.wish.patterns, { "c" })
end)

test("a syntax and flags are changed together, and what is refused leaves all as it was", function()
  bench.buffer({ "a", "a+", "A", "(" })
  local list = bench.list("a+")
  rows(list)
  local ended = bench.commands()
  list:change(function(wish)
    wish.syntax, wish.flags = "extended", { i = true, x = true }
  end)
  equal(rows(list), { "1:a", "3:A" })
  equal(ended(), { "drop 0", "syntax extended", "patterns 1", "flag i on", "flag x on", "changes" })
  local said
  list:change(function(wish)
    wish.syntax, wish.patterns = "basic", { "\\(" }
  end, function(...)
    said = { ... }
  end)
  equal(rows(list), { "1:a", "3:A" })
  equal({ said, list.wish.syntax, list.wish.patterns }, { { "UnclosedGroup at 0 in: \\(", 0 }, "extended", { "a+" } })
end)

test("rows are made of lines of the buffer, also where they are edited while a reply is on its way", function()
  local buffer = bench.buffer({ "one", "two", "one" })
  local list = bench.list("o")
  rows(list)
  list:set_flag("i", true)
  api.nvim_buf_set_lines(buffer, 0, 1, false, { "four", "", "five" })
  equal(rows(list), { "1:four", "4:two", "5:one" })
end)

test("a pattern is sent as it is typed, to the process of the list, and taken back", function()
  bench.with_screen(function(run, screen, type)
    local function shown(text)
      assert(vim.wait(10000, function()
        return run([[
          local preview, text = require("live_occur.prompt").now, ...
          return preview and preview.shown and preview.shown[1]:find(text, 1, true) or false
        ]], text)
      end, 10), text)
    end
    run([[vim.api.nvim_buf_set_lines(0, 0, -1, false, { "one", "two", "three", "t" })]])
    type(":LiveOccur w<CR>a")
    assert(vim.wait(10000, function()
      return screen()[20] == "Add pattern:"
    end, 10))
    local ended = bench.commands(run)
    type("t")
    shown("3 hits")
    type("h")
    shown("2 hits")
    type("\\(")
    shown("UnclosedGroup at 2")
    type("<BS><BS>x")
    shown("1 hit")
    type("<Esc>")
    vim.wait(100)
    local sent = vim.tbl_filter(function(command)
      return command:find("^patt") or command:find("^drop") or command:find("^changes")
    end, ended())
    equal(sent, { "patterns 1", "pattern 1", "pattern 1", "pattern 1", "drop 1", "changes" })
  end)
end)
