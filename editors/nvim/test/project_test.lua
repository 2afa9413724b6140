-- Files that aren't open.

local bench = require("bench")
local settings = require("live_occur.settings")
local test, equal = bench.test, bench.equal
local api, fn = vim.api, vim.fn

local function write(name, text)
  fn.mkdir(fn.fnamemodify(name, ":h"), "p")
  local out = assert(io.open(name, "wb"))
  out:write(text)
  out:close()
end

-- A folder with files, and git if that is wanted.
local function folder(files, git)
  local root = vim.loop.fs_realpath(fn.fnamemodify(fn.tempname(), ":h")) .. "/" .. fn.rand()
  fn.mkdir(root)
  for name, text in pairs(files) do
    write(root .. "/" .. name, text)
  end
  if git then
    fn.system({ "git", "-C", root, "init", "-q" })
  end
  return root
end

local function open(pattern, root)
  local list = assert(require("live_occur").open(pattern, {}, { root = root }))
  return list
end

-- The hits as `name:line:text`, in order.
local function hits(list)
  assert(list:wait(20000), "the list doesn't come to rest")
  local found = {}
  for _, hit in ipairs(bench.hits(list)) do
    local name = type(hit[1]) == "string" and hit[1] or api.nvim_buf_get_name(hit[1])
    found[#found + 1] = ("%s:%d:%s"):format(name:sub(#list.root + 2), hit[2], hit[3])
  end
  table.sort(found)
  return found
end

local FILES = {
  ["a.txt"] = "one\ntwo one", -- no newline at the end
  ["b/c.txt"] = "x\r\none\r\n",
  ["b/bytes"] = "one\0two\n",
  ["b/latin"] = "caf\233 one\n",
  ["large"] = ("one\n"):rep(3000),
  ["empty"] = "",
  [".hidden/x"] = "one\n",
}

for _, git in ipairs({ true, false }) do
  test("the files of a folder are listed without being opened, " .. (git and "by git" or "by a walk"), function()
    local root, most = folder(FILES, git), settings.max_file_size
    if git then
      write(root .. "/.gitignore", "ignored\n")
      write(root .. "/ignored", "one\n")
    end
    settings.max_file_size = 10000
    local before = #api.nvim_list_bufs()
    local list = open("one", root)
    local wanted = { "a.txt:1:one", "a.txt:2:two one", "b/c.txt:2:one", "b/latin:1:café one" }
    if git then
      table.insert(wanted, 1, ".hidden/x:1:one")
    end
    equal(hits(list), wanted)
    equal(#api.nvim_list_bufs(), before + 1)
    assert(list:header():find("2 left out (1 no text, 1 too large)", 1, true), list:header())
    settings.max_file_size = most
    vim.cmd("bwipeout! " .. list.buffer)
    fn.delete(root, "rf")
  end)
end

test("a file is opened when its row is visited, and followed from then on", function()
  local root = folder({ ["a"] = "one\n", ["b"] = "x\none\n" }, true)
  local list = open("one", root)
  hits(list)
  equal(api.nvim_buf_get_lines(list.buffer, 1, -1, false), { "a", "one", "b", "one" })
  api.nvim_win_set_cursor(0, { 5, 0 })
  require("live_occur.keys").visit(list)
  equal({ api.nvim_buf_get_name(0), api.nvim_win_get_cursor(0) }, { root .. "/b", { 2, 0 } })
  api.nvim_buf_set_lines(0, 0, 0, false, { "one more" })
  equal(hits(list), { "a:1:one", "b:1:one more", "b:3:one" })
  equal(api.nvim_buf_get_lines(list.buffer, 1, -1, false), { "a", "one", "b", "one more", "one" })
  -- Where its buffer goes, it is read from the disk again.
  local opened = api.nvim_get_current_buf()
  api.nvim_buf_set_lines(0, 0, 0, false, { "one", "one" })
  vim.cmd("enew | bunload! " .. opened)
  equal(hits(list), { "a:1:one", "b:2:one" })
  vim.cmd("buffer " .. opened)
  api.nvim_buf_set_lines(0, 0, 0, false, { "one" })
  equal(hits(list), { "a:1:one", "b:1:one", "b:3:one" })
  vim.cmd("bwipeout! " .. opened)
  equal(hits(list), { "a:1:one", "b:2:one" })
  -- Files that are open are searched as they are in their buffers.
  vim.cmd("edit " .. root .. "/b")
  api.nvim_buf_set_lines(0, 0, 0, false, { "one more" })
  local again = open("one", root)
  equal(hits(again), { "a:1:one", "b:1:one more", "b:3:one" })
  fn.delete(root, "rf")
end)

test("rows of files that aren't open are written, and nothing else is", function()
  local root = folder({ ["a"] = "one\r\nx\r\n", ["b"] = "one\none", ["c"] = "one\n", ["d"] = "one\n" }, true)
  local list = open("one", root)
  hits(list)
  bench.begin_edit(list)
  write(root .. "/c", "new\none\n")
  vim.cmd("silent 2,$s/one/1/")
  vim.cmd("silent 10s/1/one/")
  vim.cmd("silent write")
  assert(bench.said:find("3 rows are written", 1, true), bench.said)
  assert(bench.said:find("1 left alone: c changed meanwhile: 1", 1, true), bench.said)
  local function text(name)
    return assert(io.open(root .. "/" .. name, "rb")):read("*a")
  end
  equal({ text("a"), text("b"), text("c"), text("d") }, { "1\r\nx\r\n", "1\n1\n", "new\none\n", "one\n" })
  equal(fn.bufloaded(root .. "/d"), 0)
  vim.cmd("silent edit!")
  equal(hits(list), { "c:2:one", "d:1:one" })
  fn.delete(root, "rf")
end)

for _, own in ipairs({ "nmapclear", "nnoremap <C-c> <Esc>" }) do
  test("a long write says how far it is, and CTRL-C ends it between files, " .. own, function()
    local files = {}
    for number = 1, 40 do
      files[("%02d"):format(number)] = "one\n"
    end
    local root = folder(files, true)
    bench.with_screen(function(run, screen, type)
      run([[
        vim.cmd(select(2, ...))
        vim.o.cmdheight = 8
        list = require("live_occur").open("one", {}, { root = (...) })
        list:wait(20000)
        vim.api.nvim_create_autocmd("BufWritePre", { callback = function()
          local start = vim.loop.hrtime()
          repeat until vim.loop.hrtime() - start > 5e7
        end })
      ]], root, own)
      type("e")
      assert(vim.wait(10000, function()
        return run("return list.edit and list.edit.ready")
      end, 20))
      type(":%s/one/1/<CR>:w<CR>")
      assert(vim.wait(10000, function()
        return table.concat(screen(), "\n"):find("of 40 files are written; CTRL-C ends that", 1, true)
      end, 20), table.concat(screen(), "\n"))
      type("<C-c>")
      assert(vim.wait(10000, function()
        return run([[return vim.fn.execute("messages")]]):find("the edit goes on")
      end, 20))
      local written = #vim.tbl_filter(function(name)
        return fn.readfile(root .. "/" .. name)[1] == "1"
      end, vim.tbl_keys(files))
      assert(written > 0 and written < 40, written)
      local said = run([[return vim.fn.execute("messages")]])
      assert(said:find(("%d left alone: "):format(40 - written), 1, true) and said:find("isn't written yet: 1"), said)
      run([[vim.api.nvim_clear_autocmds({ event = "BufWritePre" })]])
      type(":silent write<CR>")
      assert(vim.wait(10000, function()
        return run("return list.edit == nil")
      end, 20), run([[return vim.fn.execute("messages")]]))
      local mapped = run([[
        local maps = vim.tbl_filter(function(map) return map.lhs == "<C-C>" end, vim.api.nvim_get_keymap("n"))
        return maps[1] and maps[1].rhs or ""
      ]])
      equal(mapped, own:match("<Esc>") or "")
      for name in pairs(files) do
        equal(fn.readfile(root .. "/" .. name), { "1" })
      end
    end)
    fn.delete(root, "rf")
  end)
end

test("R reads files again that have changed", function()
  local root = folder({ ["a"] = "one\n", ["b"] = "x\none\n", ["c"] = "one\n" }, true)
  local list = open("one", root)
  equal(#hits(list), 3)
  write(root .. "/a", "y\none and one\n")
  write(root .. "/b", "\0")
  os.remove(root .. "/c")
  equal(#hits(list), 3)
  bench.type(list, "R")
  equal(hits(list), { "a:2:one and one" })
  assert(list:header():find("2 left out (1 no file, 1 no text)", 1, true), list:header())
  fn.delete(root, "rf")
end)

test("lines around hits of files that aren't open are shown", function()
  local root = folder({ ["a"] = "x\none\ny\nz\none\n" })
  local list = open("one", root)
  hits(list)
  list:set_context(1, 0)
  equal(bench.around(list), { "1-x", "2:one", "--", "4-z", "5:one" })
  fn.delete(root, "rf")
end)

test("the command and its preview take the project of the current file", function()
  local root = folder({ ["a/b/c"] = "one\n", ["d"] = "two one\n" }, true)
  bench.with_screen(function(run, screen, type)
    run([[vim.cmd("edit " .. ...)]], root .. "/a/b/c")
    type(":LiveOccur ++project one")
    vim.wait(200)
    local shown
    assert(vim.wait(10000, function()
      shown = run([[return (require("live_occur.prompt").now or {}).shown or {}]])
      return vim.deep_equal(shown, { "2 hits  basic", "a/b/c", "      1 one", "d", "      1 two one" })
    end, 20), vim.inspect(shown))
    type("<CR>")
    assert(vim.wait(10000, function()
      return table.concat(screen(), "\n"):find("basic  one  2 hits, 2 files", 1, true)
    end, 20), table.concat(screen(), "\n"))
    equal(run([[return #vim.api.nvim_get_proc_children(vim.fn.getpid())]]), 1)
  end)
  fn.delete(root, "rf")
end)

test("files that are opened, edited, closed and written at random are listed as grep has them", function()
  local seed = tonumber(vim.env.SEED or os.time() % 100000)
  math.randomseed(seed)
  local names, files = {}, {}
  for number = 1, 8 do
    names[number] = "f" .. number
    files["f" .. number] = ("one\ntwo\nother\n"):rep(math.random(0, 5)) .. "end\n"
  end
  local root = folder(files, true)
  local list = open("o", root)
  vim.cmd("wincmd p")
  local function pick(items)
    return items[math.random(#items)]
  end
  local acts = {
    function(name)
      vim.cmd("silent edit! " .. name)
    end,
    function()
      local count = api.nvim_buf_line_count(0)
      local first = math.random(0, count)
      local lines = vim.list_slice({ "one", "x", "o" }, math.random(3), math.random(3))
      api.nvim_buf_set_lines(0, first, math.min(count, first + math.random(0, 3)), false, lines)
    end,
    function()
      if api.nvim_buf_get_name(0):find(root, 1, true) then
        vim.cmd("silent write!")
      end
    end,
    function(name)
      vim.cmd("enew | silent! " .. pick({ "bwipeout! ", "bunload! ", "bdelete! " }) .. name)
    end,
    function(name)
      if fn.bufloaded(name) == 0 then
        write(name, pick({ "one\n", "o\nx\no\n", "x\n", "one" }) .. ("other\n"):rep(math.random(0, 9)))
      end
    end,
    function()
      list:toggle(pick({ "i", "v", "x" }))
    end,
    function()
      list:change_pattern(1, pick({ "o", "on", "x", "t.*", "." }))
    end,
    function()
      list:step()
    end,
    function()
      vim.wait(math.random(0, 30))
    end,
    function()
      list:restart()
    end,
  }
  for number = 1, 300 do
    pick(acts)(root .. "/" .. pick(names))
    if number % 10 == 0 then
      list:read_again()
      bench.compare(list, "act " .. number .. ", seed " .. seed)
    end
  end
  fn.delete(root, "rf")
end)

test("10,000 files: the first hit comes soon, nothing stalls, and CTRL-C ends it", function()
  local root = folder({}, true)
  for number = 1, 10000 do
    if number % 100 == 1 then
      fn.mkdir(root .. "/" .. math.floor(number / 100))
    end
    local text = ("some text\n"):rep(30) .. (number % 10 == 0 and "a hit\n" or "")
    local out = io.open(root .. "/" .. math.floor((number - 1) / 100) .. "/" .. number, "wb")
    out:write(text)
    out:close()
  end
  collectgarbage()
  local ended = require("watch").start()
  local list
  local first = bench.milliseconds(function()
    list = open("hit", root)
    assert(vim.wait(10000, function()
      return list:total() > 0
    end, 1))
  end)
  local all = first + bench.milliseconds(function()
    assert(list:wait(60000))
  end)
  local stall = ended()
  equal({ list:total(), #list.files }, { 1000, 10000 })
  local told = "10,000 files: first hit in %.0f ms, all in %.0f ms; Neovim waits %.0f ms at most"
  bench.tell(told:format(first, all, stall))
  assert(first < 300 and stall < 100, ("first %.0f, stall %.0f"):format(first, stall))
  vim.cmd("bwipeout! " .. list.buffer)
  list = open("text", root)
  bench.type(list, "<C-c>")
  assert(bench.said:find("files are not read", 1, true) or bench.said:find("all files were read", 1, true), bench.said)
  assert(list:wait(20000))
  local read = #list.files
  assert(read < 10000, read)
  vim.wait(100)
  equal({ #list.files, list:total() }, { read, read * 30 })
  fn.delete(root, "rf")
end)
