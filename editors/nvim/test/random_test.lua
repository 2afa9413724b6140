-- Random edits in several buffers, with changes of flags, syntaxes, patterns and context, compared
-- with grep.

local bench = require("bench")
local api, fn = vim.api, vim.fn
local EDITS = tonumber(vim.env.EDITS or 4000)
local SEED = tonumber(vim.env.SEED or os.time() % 100000)
local PATTERNS = { "a", "b", "ab*", "^$", "b$", "c.a", "a\\{2\\}", "x", "[ab]c", "a+", "" }
local SYNTAXES = { "basic", "extended", "fixed" }
local compared, numbers = 0, 0
local hunks = require("live_occur.hunks")

local function pick(list)
  return list[math.random(#list)]
end

local function word()
  local letters = {}
  for index = 1, math.random(0, 8) do
    letters[index] = pick({ "a", "b", "c", "A", " ", "x", "\195\164" })
  end
  return table.concat(letters)
end

local function words(most)
  local lines = {}
  for index = 1, math.random(0, most) do
    lines[index] = word()
  end
  return lines
end

local function range()
  local count = fn.line("$")
  local first = math.random(count)
  return first .. "," .. math.min(count, first + math.random(0, 8))
end

local COMMANDS = {
  function() return range() .. "delete" end,
  function() return range() .. "move " .. math.random(0, fn.line("$")) end,
  function() return range() .. "copy " .. math.random(0, fn.line("$")) end,
  function() return range() .. "join" end,
  function() return range() .. "sort" end,
  function() return range() .. "s/" .. pick({ "a", "b", "$", "^" }) .. pick({ "/b", "/aa", "/", "/\\r" }) .. "/ge" end,
  function() return pick({ "g/a$/", "g/^b/", "v/x/" }) .. pick({ "delete", "move 0", "s/b/a/e", "copy ." }) end,
  function() return "undo" end,
  function() return "undo" end,
  function() return "redo" end,
  function() return "earlier " .. math.random(1, 4) end,
  function() return "later " .. math.random(1, 4) end,
  function() return "normal! " .. math.random(fn.line("$")) .. "G" .. pick({ "o", "O", "A", "cc", "I" }) .. word() end,
  function() return "normal! " .. pick({ "dd", "yyp", "P", "x", "J", "D", "ggyG", "~", ">>", "gUU", "dip", "." }) end,
  function() return "normal! " .. math.random(fn.line("$")) .. "G\22jj" .. pick({ "x", "Ib\27", "A a\27" }) end,
  function() return "normal! qqA" .. word() .. "\27jq2@q" end,
  function() return range() .. "normal! Ia" end,
  function() return "normal! gggqG" end,
  function() return range() .. "retab!" end,
}

local EDIT_CALLS = {
  function(buffer)
    local count = api.nvim_buf_line_count(buffer)
    local first = math.random(0, count)
    api.nvim_buf_set_lines(buffer, first, math.min(count, first + math.random(0, 6)), false, words(6))
  end,
  function(buffer)
    local line = math.random(0, api.nvim_buf_line_count(buffer) - 1)
    local length = #api.nvim_buf_get_lines(buffer, line, line + 1, false)[1]
    local first = math.random(0, length)
    local text = words(3)
    api.nvim_buf_set_text(buffer, line, first, line, math.random(first, length), #text > 0 and text or { "" })
  end,
  function(buffer)
    fn.appendbufline(buffer, math.random(0, api.nvim_buf_line_count(buffer)), words(4))
  end,
  function(buffer)
    fn.setbufline(buffer, math.random(api.nvim_buf_line_count(buffer)), word())
  end,
}

local function edit(buffer)
  if math.random(3) == 1 then
    fn.bufload(buffer)
    return pick(EDIT_CALLS)(buffer)
  end
  if api.nvim_get_current_buf() ~= buffer then
    vim.cmd("silent buffer! " .. buffer)
  end
  local command = pick(COMMANDS)()
  vim.cmd("let &undolevels = &undolevels | silent! keepjumps " .. command)
  if api.nvim_buf_line_count(buffer) > 400 then
    vim.cmd("silent 100,$delete")
  end
end

-- Now and then something else than an edit.
local function other(list, buffers)
  local kind = math.random(10)
  if kind == 1 then
    local flag = pick({ "i", "v", "x" })
    list:set_flag(flag, not list.wish.flags[flag])
  elseif kind == 2 then
    list:set_syntax(pick(SYNTAXES))
  elseif kind == 3 and #list.wish.patterns < 4 then
    list:add_pattern(pick(PATTERNS))
  elseif kind == 4 and #list.wish.patterns > 0 then
    list:drop_pattern(math.random(#list.wish.patterns))
  elseif kind == 5 then
    list:set_context(pick({ 0, 0, 1, 2 }), pick({ 0, 0, 1, 3 }))
  elseif kind == 6 then
    local buffer = pick(buffers)
    vim.cmd("silent buffer! " .. buffer)
    vim.cmd("silent! edit!")
  elseif kind == 7 then
    local buffer = buffers[1]
    if api.nvim_get_current_buf() ~= buffer then
      vim.cmd("silent bunload! " .. buffer)
      bench.equal(api.nvim_buf_is_loaded(buffer), false)
    end
  elseif kind == 8 then
    list:restart()
  elseif kind == 9 and #list.wish.patterns > 0 then
    list:change_pattern(math.random(#list.wish.patterns), pick(PATTERNS), function() end)
  else
    local buffer = pick(buffers)
    for _, file in ipairs(list.files) do
      if file.buffer == buffer and #list.files > 1 then
        return list:remove_file(file)
      end
    end
    list:add_buffer(buffer)
  end
end

-- All rows as they are drawn: numbers, and lines around.
local function compare_drawn(list)
  local more = list:around() and { "-B", list.context[1], "-A", list.context[2] } or {}
  local wanted = vim.tbl_map(function(line)
    return #list.files > 1 and line:gsub("^%d+[:-]", "", 1) or line
  end, bench.grep(list, more))
  bench.equal(bench.around(list), wanted, "drawn")
end

-- Whether a place of the old text is among the lines that a hunk replaced.
local function is_replaced(pending, place)
  local grown = 0
  for _, hunk in ipairs(pending) do
    local before = place - (hunk.at - grown)
    if before >= 0 and before < hunk.removed then
      return true
    end
    grown = grown + hunk.added - hunk.removed
  end
  return false
end

-- At any time the number of a row is that of its line, unless the line was edited since.
local function check_numbers(list)
  local texts = api.nvim_buf_get_lines(list.buffer, 0, -1, false)
  for row = 1, #texts - 1 do
    local at = list:at(row)
    local file, place = at.file, at.place
    local known = place and api.nvim_buf_is_loaded(file.buffer) and file.attached
    if known and not is_replaced(file.sent, place) and not is_replaced(file.pending, hunks.place(file.sent, place)) then
      local line = list:line_of(file, place)
      bench.equal(texts[row + 1], api.nvim_buf_get_lines(file.buffer, line, line + 1, false)[1], "number")
      numbers = numbers + 1
    end
  end
end

local function compare(list, what)
  bench.compare(list, what)
  compare_drawn(list)
  bench.equal(#list:windows(), 1)
  compared = compared + 1
end

-- Few lines are sent at once, so that edits come between.
local settings = require("live_occur.settings")
local slice = settings.slice
settings.slice = 40

bench.test(("%d random edits in four buffers, seed %d"):format(EDITS, SEED), function()
  math.randomseed(SEED)
  local buffers = {}
  for index = 1, 4 do
    local lines = words(300)
    buffers[index] = index <= 2 and bench.file(table.concat(lines, "\n") .. "\n") or bench.buffer(lines)
  end
  local list = bench.list("a", { buffers[1], buffers[2], buffers[3] })
  local report, fault = list.report, nil
  list.report = function(...)
    report(...)
    fault = fault or select(2, pcall(check_numbers, list))
  end
  for number = 1, EDITS do
    edit(pick(buffers))
    if math.random(5) == 1 then
      check_numbers(list)
    end
    if math.random(40) == 1 then
      other(list, buffers)
    end
    local turn = math.random(20)
    if turn == 1 then
      compare(list, "edit " .. number)
    elseif turn == 2 then
      list:step()
    elseif turn == 3 then
      vim.wait(math.random(0, 3))
    end
  end
  compare(list, "the end")
  assert(not fault, fault)
end)
bench.tell(("%d random edits with seed %d, compared %d times; %d numbers of rows checked between"):format(EDITS, SEED,
  compared, numbers))

bench.test("random edits around a range of lines", function()
  math.randomseed(SEED)
  for _ = 1, 20 do
    local buffer = bench.buffer(words(40))
    local count = api.nvim_buf_line_count(buffer)
    local first = math.random(count)
    local list = bench.list("a", { buffer }, { range = { first, math.random(first, count) } })
    local file = list.files[1]
    for _ = 1, 20 do
      edit(buffer)
      list:wait()
      local wanted = vim.tbl_map(function(line)
        local number, text = line:match("^(%d+)(.*)$")
        return number + file.from .. text
      end, bench.grep(list))
      bench.equal(bench.rows(list), wanted)
    end
    vim.cmd("bwipeout! " .. list.buffer)
  end
end)

settings.slice = slice
