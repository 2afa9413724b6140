-- The settings, which `require("live_occur").setup` changes.

local M = {
  program = "occur", -- the program, as a name or a path
  states = nil, -- its --states; nil is the program's default
  delay = 150, -- milliseconds without an edit before a list is brought up to date
  syntax = "basic", -- what a list begins with: basic, extended or fixed
  flags = "", -- the flags that a list begins with, of i, v and x
  smart_case = false, -- whether both cases match unless a pattern has an upper-case letter
  characters = true, -- whether patterns speak of characters, and not of bytes
  context = { 0, 0 }, -- how many lines a list shows at first before and after each that matches
  height = 12, -- the height of a list's window
  follow = false, -- whether the line of the row at the cursor is shown
  highlight = true, -- whether matched parts are highlighted
  max_columns = 1000, -- how many bytes of a line its row shows at most
  max_file_size = 10000000, -- how many bytes a file has at most that is read without being opened
  edit_rows = 100000, -- the greatest number of rows that can be edited
  slice = 10000, -- how many lines are sent at once
  preview = true, -- whether hits are shown while a pattern is typed
}

return M
