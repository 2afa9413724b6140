-- The windows of a list, and how they are drawn.

local shared = require("live_occur.shared")

local api, fn = vim.api, vim.fn
local M = {}
local drawn = api.nvim_create_namespace("live_occur_drawn")

-- What a window of a list has, whatever the global values are. Numbers of lines are in the column for folds.
local OPTIONS = {
  wrap = false, number = false, relativenumber = false, cursorline = true, spell = false, list = false,
  foldenable = false, foldmethod = "manual", foldcolumn = "8", signcolumn = "no", conceallevel = 0,
  scrollbind = false, cursorbind = false, diff = false, winfixheight = true,
  winhighlight = "FoldColumn:LiveOccurNumber",
}

-- Sets the options of the current window. Global ones stay as they are.
function M.set_window()
  for name, value in pairs(OPTIONS) do
    api.nvim_set_option_value(name, value, { scope = "local" })
  end
end

function M:windows()
  return self.buffer and fn.win_findbuf(self.buffer) or {}
end

-- Where the windows of a list are: for each the row of its cursor, from 0, its column, and the first row.
function M:keep_windows()
  return vim.tbl_map(function(window)
    local row, column = unpack(api.nvim_win_get_cursor(window))
    return { window = window, row = row - 1, column = column, top = fn.line("w0", window) - 1 }
  end, self:windows())
end

-- Moves windows as rows from `first` on and before `last` were replaced by `count`.
function M:restore_windows(windows, first, last, count)
  local rows = api.nvim_buf_line_count(self.buffer)
  for _, kept in ipairs(windows) do
    local row, window = kept.row, kept.window
    if row >= last then
      row = row + count - (last - first)
    elseif row >= first then
      row = first + math.min(row - first, count - 1)
    end
    self.show_row(window, math.max(0, math.min(row, rows - 1)), kept.column, kept.row - kept.top, kept.top == 0)
  end
end

-- Puts the cursor of a window on a row, with so many rows above it. Where the window showed the header it
-- goes on to.
function M.show_row(window, row, column, above, has_header)
  local top = math.max(row - above, 0)
  top = has_header and row < api.nvim_win_get_height(window) and 0 or top
  if api.nvim_win_get_cursor(window)[1] - 1 ~= row or fn.line("w0", window) - 1 ~= top then
    api.nvim_win_call(window, function()
      fn.winrestview({ lnum = row + 1, col = column, topline = top + 1 })
    end)
  end
end

-- When the first hits come, a cursor that is on the header moves to the first one; or, where a hit was chosen
-- in a preview, to that.
function M:to_first_hit()
  local had, chosen = self.had_hits, self.chosen
  self.had_hits = api.nvim_buf_line_count(self.buffer) > 1
  local hits = chosen and chosen.file.hits
  local row = hits and hits:before() >= hits:below(chosen.place + 1)
    and self:hits_row(chosen.file) + hits:below(chosen.place)
  for _, kept in ipairs(self:keep_windows()) do
    if row then
      self.show_row(kept.window, row, kept.column, math.min(row, 3))
    elseif self.had_hits and not had and kept.row == 0 then
      self.show_row(kept.window, #self.files > 1 and 2 or 1, kept.column, 2)
    end
  end
  if row or not self.due then
    self.chosen = nil
  end
end

-- Draws the rows in view anew, soon: a window is drawn where a mark is put.
function M:redraw()
  if self.redrawing or #self:windows() == 0 then
    return
  end
  self.redrawing = true
  vim.schedule(function()
    self.redrawing = false
    if shared.is_valid(self.buffer) then
      local last = api.nvim_buf_line_count(self.buffer)
      local options = { id = 1, end_row = last, hl_group = "LiveOccurRow", strict = false }
      api.nvim_buf_set_extmark(self.buffer, drawn, 0, 0, options)
    end
  end)
end

return M
