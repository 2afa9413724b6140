-- What the tests share.

local watch = require("watch")

local api, fn = vim.api, vim.fn
local M = { passed = 0, failed = 0, stall = 0 }
M.longest = tonumber(vim.env.STALL or 300) -- the milliseconds for which Neovim may not answer

function M.tell(text)
  io.stdout:write(text .. "\n")
end

function M.fail(title, text)
  M.failed = M.failed + 1
  M.tell("FAILED: " .. title .. "\n" .. text)
end

-- All tests are watched while they wait: what then runs are calls of the client.
local wait = vim.wait
function vim.wait(...)
  local ended = watch.start()
  local results = { wait(...) }
  M.stall = math.max(M.stall, ended())
  return unpack(results)
end

-- Changes of what a list wants.
local List = require("live_occur.list")

function List:set_flag(flag, on, done)
  self:change(function(wish)
    wish.flags[flag] = on or nil
  end, done)
end

function List:add_pattern(pattern, done)
  self:change(function(wish)
    table.insert(wish.patterns, pattern)
  end, done)
end

function List:change_pattern(number, pattern, done)
  self:change(function(wish)
    wish.patterns[number] = wish.patterns[number] and pattern
  end, done)
end

function List:set_syntax(syntax, done)
  self:change(function(wish)
    wish.syntax = syntax
  end, done)
end

function List:drop_pattern(number)
  self:change(function(wish)
    table.remove(wish.patterns, number)
  end)
end

-- Calls the client, as a key does, and counts it as a time without an answer.
function M.call(body)
  M.stall = math.max(M.stall, watch.time(body))
end

-- Runs one test in a Neovim with one empty buffer. It fails where Neovim doesn't answer for long.
function M.test(title, body)
  if vim.env.VERBOSE then
    M.tell(title)
    io.stdout:flush()
  end
  M.stall, vim.v.errmsg = 0, ""
  local ran, fault = xpcall(body, debug.traceback)
  if ran and vim.v.errmsg:find("Error executing", 1, true) then -- in a call that Neovim made
    ran, fault = false, vim.v.errmsg
  end
  if ran and M.stall > M.longest then
    M.fail(title, ("Neovim doesn't answer for %.0f ms"):format(M.stall))
  elseif ran then
    M.passed = M.passed + 1
  else
    M.fail(title, fault)
  end
  vim.cmd("silent! only!")
  vim.cmd("silent! %bwipeout!")
  local live = vim.tbl_count(require("live_occur.list").all)
  if live > 0 then
    M.fail(title, live .. " lists are left")
    require("live_occur.list").all = {}
  end
end

function M.equal(given, wanted, what)
  if not vim.deep_equal(given, wanted) then
    error((what or "") .. "\nwanted " .. vim.inspect(wanted) .. "\ngiven " .. vim.inspect(given), 2)
  end
end

-- A new buffer with these lines, in the current window.
function M.buffer(lines)
  vim.cmd("enew!")
  api.nvim_buf_set_lines(0, 0, -1, false, lines)
  if #lines > 10000 then -- The test's own lines aren't left to the client's calls.
    lines = nil
    collectgarbage()
  end
  return api.nvim_get_current_buf()
end

-- A file with this text, opened in the current window.
function M.file(text)
  local name = fn.tempname()
  local out = assert(io.open(name, "wb"))
  out:write(text)
  out:close()
  vim.cmd("edit! " .. name)
  return api.nvim_get_current_buf(), name
end

-- Opens a list on buffers, the current one at first, and comes back to the window before.
function M.list(pattern, buffers, options)
  local list, fault = require("live_occur").open(pattern, buffers or { api.nvim_get_current_buf() }, options)
  vim.cmd("wincmd p")
  return assert(list, fault)
end

-- The hits that a list shows: for each its buffer or path, its line from 1, the text of its row and its parts.
function M.hits(list)
  local hits, texts = {}, api.nvim_buf_get_lines(list.buffer, 0, -1, false)
  list:each_hit(1, math.huge, function(file, line, parts, row)
    hits[#hits + 1] = { file.path or file.buffer, line, texts[row + 1], parts }
  end)
  return hits
end

-- The rows of a list and the lines around them, as `grep` writes them without names.
function M.around(list)
  local texts, found = api.nvim_buf_get_lines(list.buffer, 0, -1, false), {}
  local draw = require("live_occur.draw")
  local function add(row)
    for _, line in ipairs(list:around() and list:between(row) or {}) do
      found[#found + 1] = line and line[1] + 1 .. "-" .. line[2] or "--"
    end
  end
  add(0)
  for row = 1, #texts - 1 do
    if not list:at(row).heading then
      local number = vim.trim(draw.marks(list, row, texts[row + 1])[1][4])
      found[#found + 1] = number .. ":" .. texts[row + 1]
    end
    add(row)
  end
  return found
end

-- The rows of a list that is up to date, as `number:line`, with the buffer's place among those of
-- the list before it where it has several.
function M.rows(list)
  assert(list:wait(20000), "the list doesn't come to rest")
  assert(not list.ended, list.ended)
  local index = {}
  for number, file in ipairs(list.files) do
    index[file.path or file.buffer] = #list.files > 1 and number .. ":" or ""
  end
  return vim.tbl_map(function(row)
    return index[row[1]] .. row[2] .. ":" .. row[3]
  end, M.hits(list))
end

-- Types keys in the list's window.
function M.type(list, keys)
  local window = fn.win_findbuf(list.buffer)[1]
  M.call(function()
    api.nvim_win_call(window, function()
      api.nvim_feedkeys(api.nvim_replace_termcodes(keys, true, true, true), "xt", false)
    end)
  end)
end

-- Begins an edit in the window of a list that is up to date.
function M.begin_edit(list)
  assert(list:wait(20000), "the list doesn't come to rest")
  api.nvim_set_current_win(fn.win_findbuf(list.buffer)[1])
  api.nvim_feedkeys("e", "xt", false)
  assert(vim.wait(20000, function()
    return list.edit and list.edit.ready
  end, 1), "no edit begins: " .. tostring(M.said))
end

-- What grep writes for the texts of buffers, as M.rows has it.
function M.grep(list, more)
  local words = { vim.env.GREP or "grep", "-n" }
  local letters = { extended = "-E", fixed = "-F" }
  words[#words + 1] = letters[list.known.syntax]
  for flag in pairs(list.known.flags) do
    words[#words + 1] = "-" .. flag
  end
  vim.list_extend(words, more or {})
  local folder = fn.tempname()
  fn.mkdir(folder)
  local patterns = assert(io.open(folder .. "/patterns", "wb")) -- They may have bytes that no word has.
  for _, text in ipairs(list.known.texts) do
    patterns:write(text .. "\n")
  end
  patterns:close()
  vim.list_extend(words, { "-f", "patterns" })
  for number, file in ipairs(list.files) do
    local lines = {}
    if file.path then
      lines = fn.readfile(file.path)
      lines = #lines > 0 and lines or { "" } -- as its buffer would have it
    elseif api.nvim_buf_is_loaded(file.buffer) then
      lines = api.nvim_buf_get_lines(file.buffer, file.ranged and file.from or 0, file.ranged and file.to or -1, false)
    end
    local out = assert(io.open(folder .. "/" .. number, "wb"))
    out:write(#lines > 0 and table.concat(lines, "\n") .. "\n" or "")
    out:close()
    words[#words + 1] = tostring(number)
  end
  local command = table.concat(vim.tbl_map(fn.shellescape, words), " ")
  local out = fn.systemlist("cd " .. folder .. " && " .. command .. " || test $? = 1")
  assert(vim.v.shell_error == 0, table.concat(out, "\n"))
  fn.delete(folder, "rf")
  return vim.tbl_map(function(line)
    return (line:gsub("\n", "\0"))
  end, out)
end

-- Compares a list with grep: its rows and, if lines are selected by a match, their parts.
function M.compare(list, what)
  M.equal(M.rows(list), M.grep(list), what)
  if list.wish.flags.v then
    return
  end
  local parts = {}
  for _, row in ipairs(M.hits(list)) do
    for first, last in row[4]:gmatch("(%d+)%-(%d+)") do
      parts[#parts + 1] = row[2] .. ":" .. row[3]:sub(first + 1, last)
    end
  end
  local wanted = vim.tbl_map(function(line)
    return #list.files > 1 and line:gsub("^%d+:", "", 1) or line
  end, M.grep(list, { "-o" }))
  M.equal(parts, wanted, (what or "") .. " parts")
end

-- Lets `Session.send` note each command, in this Neovim or, by its `run`, in another one. Returns a
-- function that ends it and returns the commands.
function M.commands(run)
  run = run or function(lua)
    return loadstring(lua)()
  end
  run([[
    local Session = require("live_occur.session")
    send, sent = Session.send, {}
    Session.send = function(session, command, ...)
      table.insert(sent, command)
      return send(session, command, ...)
    end
  ]])
  return function()
    return run([[
      require("live_occur.session").send = send
      return sent
    ]])
  end
end

-- A second Neovim, with a terminal of 60 columns and 20 lines: the body gets functions that run Lua in
-- it, that give what its screen shows, and that type keys.
function M.with_screen(body)
  local socket = fn.tempname()
  local words = { vim.v.progpath, "--listen", socket, "-u", "NONE", "-i", "NONE", "-n" }
  local child = fn.jobstart(words, { pty = true, width = 60, height = 20, env = { TERM = "xterm-256color" } })
  local channel
  assert(vim.wait(10000, function()
    local connected, number = pcall(fn.sockconnect, "pipe", socket, { rpc = true })
    channel = connected and number or nil
    return connected
  end, 10), "a second Neovim doesn't start")
  local function run(lua, ...)
    return vim.rpcrequest(channel, "nvim_exec_lua", lua, { ... })
  end
  local function screen()
    return run([[
      vim.cmd("redraw")
      local lines = {}
      for row = 1, vim.o.lines do
        local cells = {}
        for column = 1, vim.o.columns do
          cells[column] = vim.fn.screenstring(row, column)
        end
        lines[row] = table.concat(cells):gsub("%s+$", "")
      end
      return lines
    ]])
  end
  run([[
    local path, program = ...
    vim.opt.runtimepath:prepend(path)
    vim.o.hidden = true
    vim.cmd("runtime plugin/live_occur.lua")
    require("live_occur").setup({ program = program })
  ]], vim.opt.runtimepath:get()[1], require("live_occur.settings").program)
  local ran, fault = pcall(body, run, screen, function(keys)
    vim.rpcrequest(channel, "nvim_input", keys)
  end)
  fn.chanclose(channel)
  fn.jobstop(child)
  assert(ran, fault)
end

function M.milliseconds(body)
  local start = vim.loop.hrtime()
  body()
  return (vim.loop.hrtime() - start) / 1e6
end

return M
