-- What is drawn over the rows of a list: numbers in the margin, matched parts, lines around. It is made for
-- the rows in view alone, each time that they are drawn; so a number is right at once.

local List = require("live_occur.list")
local row_texts = require("live_occur.row")
local settings = require("live_occur.settings")
local shared = require("live_occur.shared")

local api = vim.api
local M = { space = api.nvim_create_namespace("live_occur") }
local near = api.nvim_create_namespace("live_occur_near")

local LINKS = {
  LiveOccurHeader = "Title",
  LiveOccurBuffer = "Directory",
  LiveOccurNumber = "LineNr",
  LiveOccurMatch = "Search",
  LiveOccurNear = "Comment",
  LiveOccurEdited = "WarningMsg",
  LiveOccurPreview = "StatusLine",
  LiveOccurChosen = "Visual",
}

-- The mark of a header or a name, over the margin and the text.
local function head_marks(group, text)
  return { { 0, nil, group, text .. (" "):rep(row_texts.margin) } }
end

-- The marks of a row while rows are edited.
local function edited_marks(list, row, text)
  local edit = list.edit
  local number = edit.identity:number(row)
  local file = number and edit.files[number]
  if file == false then
    return head_marks(number == 1 and "LiveOccurHeader" or "LiveOccurBuffer", edit.texts[number])
  end
  local same = number and text == edit.shown[number]
  local line = file and require("live_occur.edit").line_of(edit, number)
  local shown = line and row_texts.number(line + 1) or (" "):rep(row_texts.margin)
  return { { 0, nil, same and "LiveOccurNumber" or "LiveOccurEdited", shown } }
end

-- The marks of a row: for each its first column, the column after it and its group; or what is in the margin.
function M.marks(list, row, text)
  if list.edit then
    return list.edit.ready and edited_marks(list, row, text) or {}
  end
  local at = list:at(row)
  if row == 0 or at and at.heading then
    return head_marks(at and "LiveOccurBuffer" or "LiveOccurHeader", text)
  elseif not at or at.stale then
    return {}
  end
  local number = row_texts.number(list:line_of(at.file, at.place) + 1)
  local found = { { 0, nil, "LiveOccurNumber", number } }
  if settings.highlight then
    M.add_parts(found, at.parts, row_texts.shift(at.parts), #text)
  end
  return found
end

-- Adds marks for the parts of a row that is so many bytes long, further right by `shift`.
function M.add_parts(found, parts, shift, length)
  for first, last in shared.each_part(parts) do
    if shift + first >= length then
      break
    end
    found[#found + 1] = { shift + first, math.min(shift + last, length), "LiveOccurMatch" }
  end
end

local function on_line(_, _, buffer, row)
  local list = List.all[buffer]
  local text = list and shared.line(buffer, row)
  for _, mark in ipairs(text and M.marks(list, row, text) or {}) do
    local first, last, group, shown = unpack(mark)
    local options = { ephemeral = true, priority = 100 }
    if shown then
      options.virt_text, options.virt_text_win_col = { { shown, group } }, -row_texts.margin
    else
      options.end_row, options.end_col, options.hl_group = row, last, group
    end
    api.nvim_buf_set_extmark(buffer, M.space, row, first, options)
  end
end

-- Shows the lines around the hits of some ranges of rows, and no others.
local function show_near(list, ranges)
  api.nvim_buf_clear_namespace(list.buffer, near, 0, -1)
  local tab = (" "):rep(vim.bo[list.buffer].tabstop)
  for _, range in ipairs(list:around() and not list.edit and ranges or {}) do
    for row = range[1], range[2] do
      local shown = vim.tbl_map(function(line)
        local number = line and row_texts.number(line[1] + 1) or (" "):rep(row_texts.margin)
        local text = line and line[2]:gsub("\t", tab):gsub("[\n%z]", " ") or "--"
        return { { number, "LiveOccurNumber" }, { text, "LiveOccurNear" } }
      end, list:between(row))
      if #shown > 0 then
        api.nvim_buf_set_extmark(list.buffer, near, row, 0, { virt_lines = shown, virt_lines_leftcol = true })
      end
    end
  end
end

-- What is around the rows of a list's windows follows, if that differs from what was shown.
local function update_near(list)
  list.near_soon = false
  local ranges = {}
  for _, window in ipairs(list.closed and {} or list:windows()) do
    local top, height = vim.fn.line("w0", window) - 1, api.nvim_win_get_height(window)
    local last = math.min(top + 2 * height, api.nvim_buf_line_count(list.buffer) - 1)
    table.insert(ranges, { math.max(top - height, 0), last })
  end
  local key = { ranges, list.question, list.context, list:has_edits(), list.edit ~= nil }
  if #ranges > 0 and not vim.deep_equal(key, list.near) then
    list.near = key
    show_near(list, ranges)
  end
end

local function on_win(_, _, buffer)
  local list = List.all[buffer]
  if list and (list:around() or list.near) and not list.near_soon then
    list.near_soon = true
    vim.schedule(function() update_near(list) end)
  end
  return list ~= nil
end

function M.start()
  for group, link in pairs(LINKS) do
    api.nvim_set_hl(0, group, { link = link, default = true })
  end
  api.nvim_set_decoration_provider(M.space, { on_win = on_win, on_line = on_line })
end

return M
