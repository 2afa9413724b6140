-- What a list searches: buffers, whose edits are followed, and files that aren't open, which are read from
-- the disk. Such a file has a `path` until its buffer is loaded.

local Hits = require("live_occur.hits")
local hunks = require("live_occur.hunks")
local settings = require("live_occur.settings")
local shared = require("live_occur.shared")

local api, fn, uv = vim.api, vim.fn, vim.uv or vim.loop
local M = {}

-- The name of a file, as it is shown.
function M:name_of(file)
  local name = file.path or shared.is_valid(file.buffer) and api.nvim_buf_get_name(file.buffer) or ""
  if self.root and vim.startswith(name, self.root .. "/") then
    return name:sub(#self.root + 2)
  end
  return name == "" and "[No Name]" or fn.fnamemodify(name, ":~:.")
end

function M:number_files()
  self.hint = { 1, 1 }
  for index, file in ipairs(self.files) do
    file.index = index
  end
end

-- Lines that the program has of a file, and its rows, are no longer those of this session.
function M:forget(file)
  file.pending, file.sent, file.hits = {}, {}, Hits.new()
  file.shown, file.heading, file.stale, file.joined = 0, nil, 0, nil
  if file.path then
    file.from, file.to, file.unread, file.state = 0, 0, true, nil
  else
    hunks.note(file.pending, 0, 0, file.to - file.from)
  end
end

local function new_file(self, file)
  file.index, file.from, file.to, file.count = #self.files + 1, 0, 0, 0
  self.files[file.index] = file
  self:forget(file)
end

-- Adds a file that is read from the disk. Lines are in the replies then.
local function add_path(self, path, buffer)
  if not self.from_disk then
    self.from_disk = true
    self:order("text on")
  end
  new_file(self, { path = path, disk = path, buffer = buffer })
end

function M:add_buffer(buffer, range)
  for _, file in ipairs(self.files) do
    if file.buffer == buffer then
      return
    end
  end
  local name = api.nvim_buf_get_name(buffer)
  local is_file = vim.bo[buffer].buftype == "" and uv.fs_stat(name)
  if not api.nvim_buf_is_loaded(buffer) and not range and is_file then
    add_path(self, name, buffer)
  else
    fn.bufload(buffer)
    local lines = range and { range[1] - 1, range[2] }
    new_file(self, { buffer = buffer, ranged = range ~= nil, range = lines, unloaded = true })
    self:attach(self.files[#self.files])
  end
  self:put_headings()
  self:turn()
  self:later()
end

-- The first lines of a file are sent, as many as are in a text, or none.
function M:join(file, count, text)
  file.joined = true
  self:order(("file %d %d"):format(file.index, count), text)
end

-- A file leaves the list: its rows do, some at once, and then the file itself.
function M:remove_file(file)
  file.closed, file.attached, file.pending, file.unread, file.hits = true, nil, {}, nil, Hits.new()
  self:leave(file)
end

function M:leave(file)
  if self.closed or self.files[file.index] ~= file then
    return
  end
  self:put_rows(file, self:row_of(file), math.min(file.shown, settings.slice, 5000), {})
  if file.shown > 0 then
    return vim.defer_fn(function() self:leave(file) end, 1)
  end
  if file.joined then
    self:order("close " .. file.index - 1)
  end
  table.remove(self.files, file.index)
  self:number_files()
  self:put_headings()
  self:show_header()
  self:turn()
end

-- Buffers

-- Follows the edits of a loaded buffer, all lines of which may be others.
function M:attach(file)
  local token = {}
  file.attached, file.path, file.unread = token, nil, nil
  -- Rows that are edited belong to no lines of a buffer that was loaded anew.
  local function lose(again)
    if self.edit then
      self.edit.lost[file] = "was loaded anew"
    end
    file.attached = again
  end
  api.nvim_buf_attach(file.buffer, false, {
    on_lines = function(_, _, _, first, last, new_last)
      if file.attached ~= token then
        return true
      end
      self:edited(file, first, last, new_last)
    end,
    on_reload = function()
      if file.attached == token then
        lose(token)
        self:renew(file)
      end
    end,
    on_detach = function()
      if file.attached == token then
        lose(nil)
        vim.schedule(function() self:check(file) end)
      end
    end,
  })
  self:renew(file)
end

-- Notes an edit: lines from `first` up to `last` are now those up to `new_last`.
function M:edited(file, first, last, new_last)
  file.count = file.count + new_last - last
  if file.count == 0 then -- Neovim reports no line, and has an empty one.
    file.count, new_last = 1, 1
  end
  local at, removed, added = first, last - first, new_last - first
  if file.ranged then
    file.from, file.to, at, removed, added = hunks.clip(file.from, file.to, first, last, new_last)
  else
    file.to = file.count
  end
  if at then
    hunks.note(file.pending, at, removed, added)
  end
  if new_last ~= last then
    self:redraw()
  end
  self:later()
end

-- Notes that all lines of a buffer may be others.
function M:renew(file)
  local loaded, old = api.nvim_buf_is_loaded(file.buffer), file.to - file.from
  file.count = loaded and api.nvim_buf_line_count(file.buffer) or 0
  if file.ranged then
    file.range = not file.unloaded and { file.from, file.to } or file.range
    file.from, file.to = math.min(file.range[1], file.count), math.min(file.range[2], file.count)
  else
    file.from, file.to = 0, file.count
  end
  file.unloaded = not loaded
  hunks.note(file.pending, 0, old, file.to - file.from)
  self:later()
end

-- Takes care that what is known of a buffer is right: it may have been unloaded, loaded anew or
-- wiped since. While rows are edited that waits.
function M:check(file)
  if self.closed or file.closed or file.path or self.edit then
    return
  end
  local loaded = api.nvim_buf_is_loaded(file.buffer)
  if file.disk and not loaded then -- It is read from the disk again.
    for _, hunk in ipairs(file.pending) do -- The program has the lines without these edits.
      file.to = file.to - hunk.added + hunk.removed
    end
    file.path, file.unread, file.state, file.pending = file.disk, true, nil, {}
    self:later()
  elseif not shared.is_valid(file.buffer) then
    file.pending = {}
    vim.schedule(function()
      if not file.closed and not self.closed then
        self:remove_file(file)
      end
    end)
  elseif loaded and not file.attached then
    self:attach(file)
  elseif file.count ~= api.nvim_buf_line_count(file.buffer) then -- An unloaded one has 0.
    self:renew(file)
  end
end

-- A buffer was loaded: if it is one of this list, its edits are followed from now on.
function M:loaded(buffer)
  local name, loaded = api.nvim_buf_get_name(buffer), api.nvim_buf_is_loaded(buffer)
  local follow = self.edit and require("live_occur.edit").opened or self.attach
  for _, file in ipairs(self.files) do
    if not file.attached and loaded and file.path == name then
      file.buffer = buffer
      follow(self, file)
    elseif not file.attached and file.buffer == buffer then
      self:check(file)
    end
  end
end

-- The buffer of a file, which is opened if it isn't yet.
function M:open_buffer(file)
  if file.path then
    file.buffer = fn.bufadd(file.path)
    vim.bo[file.buffer].buflisted = true
  end
  return file.buffer
end

-- Files

-- The text of a file that isn't open, as a buffer would have it, with a newline after each line; or nil and
-- the reason.
function M.read_file(path)
  local stat = uv.fs_stat(path)
  if not stat or stat.type ~= "file" then
    return nil, "no file"
  elseif stat.size > settings.max_file_size then
    return nil, "too large"
  end
  local handle = io.open(path, "rb")
  local text = handle and handle:read("*a")
  if handle then
    handle:close()
  end
  if not text then
    return nil, "unreadable"
  elseif text:find("\0", 1, true) then
    return nil, "no text"
  end
  text = text:gsub("^\239\187\191", "")
  local others = text:find("[\128-\255]") and text or "" -- what isn't UTF-8
  for _, form in ipairs(vim.list_slice(shared.FORMS, 2)) do
    others = others:gsub(form, ".")
  end
  if others:find("[\128-\255]") then -- Vim takes it as Latin-1.
    text = fn.iconv(text, "latin1", "utf-8")
  end
  if text:find("\r\n", 1, true) and not text:find("[^\r]\n") and text:sub(-1) == "\n" then
    text = text:gsub("\r\n", "\n")
  end
  return text:sub(-1) == "\n" and text or text .. "\n"
end

-- Reads a file, and sends it if it has changed. Returns how many lines that are, and at least 1.
function M:send_file(file)
  file.unread = nil
  local stat = uv.fs_stat(file.path)
  local state = stat and ("%d %d %d"):format(stat.mtime.sec, stat.mtime.nsec, stat.size) or "none"
  if state == file.state then
    return 1
  end
  local text, reason = M.read_file(file.path)
  text = text or ""
  local count = select(2, text:gsub("\n", "\n"))
  if file.joined then
    self:order(("splice %d 0 %d %d"):format(file.index - 1, file.to, count), text)
  else
    self:join(file, count, text)
  end
  file.state, file.reason = state, reason
  file.to, file.count, self.changed = count, count, true
  return math.max(count, 1)
end

-- Lets files that aren't open be read again, if they have changed.
function M:read_again()
  self.read = nil
  for _, file in ipairs(self.files) do
    file.unread = file.path ~= nil or nil
  end
end

-- Adds the files of a folder as their names come.
function M:add_folder(root)
  root = uv.fs_realpath(fn.fnamemodify(root, ":p")) or root
  self.root = root
  local open, met = {}, {}
  for _, buffer in ipairs(api.nvim_list_bufs()) do
    if api.nvim_buf_is_loaded(buffer) and vim.bo[buffer].buftype == "" then
      open[api.nvim_buf_get_name(buffer)] = buffer
    end
  end
  self.listing = require("live_occur.project").list(root, function(names)
    for _, name in ipairs(names) do
      local path = root .. "/" .. name
      if not met[path] and not self.closed then
        met[path] = true
        if open[path] then
          self:add_buffer(open[path])
        else
          add_path(self, path)
        end
      end
    end
    self:put_headings()
    self:step()
  end, function()
    self.listing = nil
    self:step()
    self:show_header()
  end)
end

-- Reads no more files: those that weren't read leave the list. Returns how many these are.
function M:stop_reading()
  if self.listing then
    self.listing.stop()
    self.listing = nil
  end
  local before = #self.files
  self.files = vim.tbl_filter(function(file) return file.joined or not file.unread end, self.files)
  for _, file in ipairs(self.files) do
    file.unread = nil
  end
  self:number_files()
  return before - #self.files
end

return M
