-- Rows that are edited.
--
-- While it lasts each row is its line alone, without the margin, so that all keys of Vim work. Each row
-- has a number (`identity.lua`), and a mark of this number is on its line in the searched buffer: whatever
-- is edited, a row is written into its own line or into none. Meanwhile the list waits: no edit is sent, and
-- no reply is on its way.

local Identity = require("live_occur.identity")
local row_texts = require("live_occur.row")
local settings = require("live_occur.settings")
local shared = require("live_occur.shared")

local api, fn, uv = vim.api, vim.fn, vim.uv or vim.loop
local say, blame = shared.say, shared.blame
local HEAD = "rows are edited: :w writes them, :e! gives them up"
local SLICE = 2000 -- how many rows are made ready at once
local NAMED = 3 -- how many rows a message names
local SHOWN = 200 -- how many bytes of each it shows
local PACE = 1e8 -- nanoseconds from one message of a write to the next
local NOT_YET = "isn't written yet"
local NEW_STEP = "let &l:undolevels = &l:undolevels" -- What follows is another step of undo.
local M = {}

-- Marks

-- Puts the mark of a row on its line. It covers the line and its end, and doesn't grow. It is sound until
-- its line is taken out or replaced, or loses its end.
local function pin(edit, file, number, line)
  local options = { id = number, end_row = line + 1, end_right_gravity = false }
  api.nvim_buf_set_extmark(file.buffer, edit.space, line, 0, options)
end

-- The line of the row of this number, from 0, or nil. A mark that isn't sound counts `anyhow`.
function M.line_of(edit, number, anyhow)
  local buffer = edit.files[number].buffer
  if edit.lines[number] or not shared.is_valid(buffer) then
    return edit.lines[number]
  end
  local mark = api.nvim_buf_get_extmark_by_id(buffer, edit.space, number, { details = true })
  return mark[1] and (anyhow or mark[3].end_row > mark[1]) and mark[1] or nil
end

-- Takes the marks of an edit out.
function M.clear(list, edit)
  for _, file in ipairs(list.files) do
    if shared.is_valid(file.buffer) then
      api.nvim_buf_clear_namespace(file.buffer, edit.space, 0, -1)
    end
  end
end

-- The beginning

-- Makes rows ready from `first` on: marks are put on lines. Heads are empty, and their texts drawn over them.
local function make_ready(list, edit, first, last)
  for row = first, last do
    local at, number, text = list:at(row), row + 1, edit.texts[row + 1]
    edit.files[number], edit.shown[number] = false, ""
    if at and at.place then
      local file, line = at.file, list:line_of(at.file, at.place)
      edit.files[number], edit.shown[number] = file, text
      if file.path then
        edit.lines[number], edit.cut[number] = line, #text > settings.max_columns - 4
      else
        edit.cut[number] = text ~= list:text_of(file, at.place)
        pin(edit, file, number, line)
      end
    end
  end
  list:put(first, last + 1, vim.list_slice(edit.shown, first + 1, last + 1))
end

-- All rows are ready.
local function open(list, edit)
  shared.set(list.buffer, { buftype = "acwrite", undolevels = vim.go.undolevels, modifiable = true })
  vim.bo[list.buffer].modified = false
  edit.identity = Identity.new(list.buffer, edit.shown, function() return list.edit == edit end)
  edit.ready = true
  list:redraw()
  local names = {}
  for _, file in ipairs(list.files) do
    names[#names + 1] = file.hits:count() > 0 and M.refusal(file) and list:name_of(file) or nil
  end
  if #names > 0 then
    say("rows of " .. table.concat(names, ", ") .. " can't be written", "WarningMsg")
  end
end

-- Makes the next rows ready, and all others after it. Where something is edited meanwhile it begins
-- again as soon as the list is right.
local function go_on(list, edit)
  if list.edit ~= edit or list.closed then
    return
  elseif list:has_edits() then
    M.finish(list)
    list.edit_wanted = true
    return list:step()
  end
  make_ready(list, edit, #edit.files, math.min(#edit.files + SLICE, #edit.texts) - 1)
  if #edit.files == #edit.texts then
    return open(list, edit)
  end
  vim.defer_fn(function() go_on(list, edit) end, 1)
end

-- Begins an edit, if one is wanted and the list is right.
function M.start(list)
  if not list.edit_wanted or list.edit or list.closed or not list:settled() then
    return
  end
  list.edit_wanted = false
  local rows = list:total()
  if rows == 0 then
    return say("there is no row")
  elseif rows > settings.edit_rows then
    return blame(("there are %d rows, and at most %d can be edited"):format(rows, settings.edit_rows))
  end
  list:show_header()
  local edit = { files = {}, cut = {}, shown = {}, lost = {}, lines = {} }
  edit.texts = api.nvim_buf_get_lines(list.buffer, 0, -1, false)
  edit.texts[1] = HEAD .. "  " .. edit.texts[1]
  edit.space = api.nvim_create_namespace("live_occur_rows_" .. list.buffer)
  list.edit = edit
  require("live_occur.keys").unset(list)
  go_on(list, edit)
end

-- A file whose rows are edited was opened: marks are put on those of their lines that have the same text.
function M.opened(list, file)
  local edit = list.edit
  list:attach(file)
  for number, line in pairs(edit.lines) do
    if edit.files[number] == file then
      if shared.line(file.buffer, line) == edit.shown[number] then
        pin(edit, file, number, line)
      end
      edit.lines[number] = nil
    end
  end
end

-- The key: begins an edit as soon as the list is right.
function M.begin(list)
  if list.ended then
    return blame("the list isn't kept right; r starts the program again")
  end
  list.edit_wanted = true
  list:step()
  if list.edit_wanted then
    say("rows are edited once all lines are searched")
  end
end

-- The end

-- Ends an edit: rows are as they were, or as they were written, and the list goes on.
function M.finish(list)
  local edit = list.edit
  list.edit = nil
  shared.set(list.buffer, { buftype = "nofile", undolevels = -1, bufhidden = "hide" })
  list:put(0, -1, edit.texts)
  M.clear(list, edit)
  require("live_occur.keys").set(list)
  list:put_headings()
  list:step()
  list:show_header()
  list:redraw()
end

-- Writing

-- Why rows of a file can't be written, or nil.
function M.refusal(file)
  local buffer = file.buffer
  if file.path then
    return not uv.fs_access(file.path, "W") and "is read-only" or nil
  elseif not api.nvim_buf_is_loaded(buffer) then
    return "isn't loaded"
  elseif not vim.bo[buffer].modifiable or vim.bo[buffer].readonly then
    return "is read-only"
  end
end

-- What was edited: `changes` are the numbers of rows that differ, with their texts, by their files, and
-- `mixed` those of rows that can't be told from one another; the others are counts of rows.
local function compare(list, edit)
  local result, met = { changes = {}, mixed = {}, heads = 0, gone = 0, added = 0 }, {}
  for row, text in ipairs(api.nvim_buf_get_lines(list.buffer, 0, -1, false)) do
    local number, mixed = edit.identity:number(row - 1)
    local file = number and edit.files[number]
    if file and text ~= edit.shown[number] then
      result.changes[file] = result.changes[file] or {}
      table.insert(result.changes[file], { number = number, text = text })
    elseif number and text ~= edit.shown[number] then
      result.heads = result.heads + 1
    elseif not number and not mixed then
      result.added = result.added + 1
    end
    for _, each in ipairs(mixed or { number }) do
      if mixed and edit.files[each] and not met[each] then
        table.insert(result.mixed, { number = each, text = "" })
      end
      met[each] = true
    end
  end
  for number, file in ipairs(edit.files) do
    result.gone = result.gone + (file and not met[number] and 1 or 0)
  end
  return result
end

-- A row that is left alone, with the reason, and with the text that was typed.
local function named(list, edit, change, reason)
  local number = change.number
  local line = M.line_of(edit, number, true)
  local text = edit.cut[number] and "" or vim.trim(change.text)
  if #text > SHOWN then
    text = text:sub(1, row_texts.whole(text, SHOWN)) .. "…"
  end
  local place = list:name_of(edit.files[number]) .. (line and ":" .. line + 1 or "")
  return place .. " " .. reason .. (text == "" and "" or ": " .. text)
end

-- Writes a row into its line: what differs, by whole characters. Returns a reason where that can't be.
local function write_row(edit, file, change)
  local line = M.line_of(edit, change.number)
  local old = line and shared.line(file.buffer, line)
  if not old or old ~= edit.shown[change.number] then
    return "changed meanwhile"
  end
  local first, removed = shared.difference(old, change.text, string.byte)
  local rest = #old - first - removed
  while row_texts.whole(old, #old - rest) ~= #old - rest do
    rest = rest - 1
  end
  first = row_texts.whole(old, first)
  local text = change.text:sub(first + 1, #change.text - rest)
  api.nvim_buf_set_text(file.buffer, line, first, line, #old - rest, { text })
  edit.shown[change.number], edit.texts[change.number] = change.text, row_texts.text(change.text)
end

-- Whether the file of a buffer can be saved: it has one, and no other changes, also by no other program, about
-- which Vim would ask. Where 'autoread' is on the buffer is loaded anew by this.
local function is_clean(buffer)
  local clean = vim.bo[buffer].buftype == "" and api.nvim_buf_get_name(buffer) ~= "" and not vim.bo[buffer].modified
  if clean then
    local function note()
      clean, vim.v.fcs_choice = false, ""
    end
    local watch = api.nvim_create_autocmd("FileChangedShell", { buffer = buffer, callback = note })
    pcall(vim.cmd, "silent checktime " .. buffer)
    api.nvim_del_autocmd(watch)
  end
  return clean
end

-- Why a text can't be written in an encoding, or nil.
local function conversion_fault(encoding, text)
  if encoding ~= "" and not encoding:find("^u[tc][fs]") and text:find("[\128-\255]") then
    local back = fn.iconv(fn.iconv(text, "utf-8", encoding), encoding, "utf-8")
    return back ~= text and "has a character that " .. encoding .. " doesn't have" or nil
  end
end

-- Writes the rows of one file, which is opened, as one step of undo, and saves it, if it had no other changes.
local function write_file(list, edit, file, changes, result)
  local refused = result.stopped or M.refusal(file)
  if file.path and not refused then
    fn.bufload(list:open_buffer(file))
    if file.path then
      M.opened(list, file)
    end
  end
  local buffer, clean, written = file.buffer, not refused and is_clean(file.buffer), result.written
  refused = refused or edit.lost[file] or M.refusal(file)
  local encoding = not refused and vim.bo[buffer].fileencoding
  local function write()
    for _, change in ipairs(changes) do
      local reason = edit.cut[change.number] and "is shortened" or refused
        or conversion_fault(encoding, change.text) or write_row(edit, file, change)
      if reason then
        table.insert(result.left, named(list, edit, change, reason))
      else
        result.written = result.written + 1
      end
    end
  end
  if refused then
    return write()
  end
  api.nvim_buf_call(buffer, function()
    vim.cmd(NEW_STEP)
    write()
    vim.cmd(NEW_STEP)
  end)
  if result.written == written then
    return
  end
  local saved, fault = false, nil
  if clean then
    saved, fault = pcall(api.nvim_buf_call, buffer, function() vim.cmd("silent keepalt lockmarks write") end)
    saved, fault = saved and not vim.bo[buffer].modified, not saved and shared.short(fault) or nil
  end
  table.insert(saved and result.saved or result.modified, list:name_of(file))
  table.insert(result.faults, fault)
end

-- Lets CTRL-C wait as a key, or break off again what runs. Where a user has mapped it, it is always a key.
local held = false
local function hold(on)
  if on and fn.maparg("<C-c>", "n") == "" then
    vim.keymap.set("n", "<C-c>", "<C-c>")
    held = true
  elseif not on and held then
    vim.keymap.del("n", "<C-c>")
    held = false
  end
end

-- Whether CTRL-C was typed, which is taken.
local function is_stopped()
  local stopped = false
  hold(false)
  for _ = 1, 2 do -- What came is done, and then what is typed is looked for.
    api.nvim_input("") -- By this Neovim sees that CTRL-C has waited.
    stopped = select(2, vim.wait(0)) == -2 or stopped
  end
  hold(true)
  return stopped or #api.nvim_list_uis() > 0 and fn.getchar(1) == 3 and fn.getchar(0) == 3
end

-- Writes the rows of several files. Between them CTRL-C ends it, and it says now and then how far it is.
local function write_files(list, edit, changes, result)
  local count, told = vim.tbl_count(changes), uv.hrtime()
  local files = vim.tbl_filter(function(file) return changes[file] end, list.files)
  for done, file in ipairs(files) do
    if uv.hrtime() > told + PACE then
      local text = ("LiveOccur: %d of %d files are written; CTRL-C ends that"):format(done - 1, count)
      api.nvim_echo({ { text } }, false, {})
      vim.cmd("redraw")
      told = uv.hrtime()
    end
    result.stopped = is_stopped() and NOT_YET or result.stopped
    write_file(list, edit, file, changes[file], result)
  end
end

-- The message after a write.
local function report(result, compared)
  local parts = {}
  local function add_count(number, what, rest, least)
    if number >= (least or 1) then
      parts[#parts + 1] = shared.counted(number, what) .. (number == 1 and " is " or " are ") .. rest
    end
  end
  local function add_names(kind, names)
    local shown = vim.list_slice(names, 1, NAMED)
    shown[#shown + 1] = #names > NAMED and ("%d more"):format(#names - NAMED) or nil
    if #names > 0 then
      parts[#parts + 1] = kind .. ": " .. table.concat(shown, ", ")
    end
  end
  add_count(result.written, "row", "written", 0)
  add_names("saved", result.saved)
  add_names("left modified", result.modified)
  add_names("not saved", result.faults)
  add_count(compared.gone, "row", "deleted, and left in the buffer")
  add_count(compared.added, "row", "added, and ignored")
  if result.written == 0 then -- Else a command for all rows met them, too.
    add_count(compared.heads, "head", "edited, and left alone")
  end
  add_names(#result.left .. " left alone", result.left)
  if #result.left > 0 then
    parts[#parts + 1] = "the edit goes on"
  end
  say(table.concat(parts, "; "), #parts > 1 + (#result.saved > 0 and 1 or 0) and "WarningMsg" or nil)
end

-- :w, which has no other name. The edit ends, unless there are rows that can't be written.
function M.write(list, name)
  local edit = list.edit
  if not edit or name ~= api.nvim_buf_get_name(list.buffer) then
    return blame(":w takes no name here")
  end
  vim.bo[list.buffer].bufhidden = "hide" -- For :wq, after which there may be such rows.
  local compared = compare(list, edit)
  local result = { written = 0, saved = {}, modified = {}, faults = {}, left = {} }
  local ran, problem = pcall(write_files, list, edit, compared.changes, result)
  hold(false)
  if not ran then
    error(problem, 0)
  end
  if list.edit ~= edit then
    return -- It was given up, by what ran meanwhile.
  end
  for _, change in ipairs(compared.mixed) do
    table.insert(result.left, named(list, edit, change, "is joined, split or filtered"))
  end
  if #result.left == 0 then
    M.finish(list)
  end
  report(result, compared)
end

return M
