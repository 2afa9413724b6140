-- The files of a project: those that git knows or would add, else all of the folder.

local fn, uv = vim.fn, vim.uv or vim.loop
local M = {}
local MOST = 500 -- how many names of a folder are given at once

-- The folder of the project that a folder is in: one with `.git`, else this.
function M.root(folder)
  local up = fn.finddir(".git", folder .. ";")
  up = up ~= "" and up or fn.findfile(".git", folder .. ";")
  return up ~= "" and fn.fnamemodify(up, ":p:s?/$??:h") or folder
end

-- Walks through a folder, and gives the names of files without those that begin with a period.
local function walk(root, job, take, done)
  local folders = { "" }
  local function go_on()
    local names = {}
    while #names < MOST and #folders > 0 do
      local folder = table.remove(folders)
      for name, kind in uv.fs_scandir_next, uv.fs_scandir(root .. "/" .. folder) do
        if name:sub(1, 1) ~= "." then
          local is_folder = kind == "directory"
          table.insert(is_folder and folders or names, folder .. name .. (is_folder and "/" or ""))
        end
      end
    end
    if not job.stopped then
      table.sort(names)
      take(names)
      vim.defer_fn(#folders > 0 and go_on or done, 1)
    end
  end
  go_on()
end

-- Gives names of files below a folder to `take` as they come, some at once, and calls `done` at the end.
-- Returns a job, which has `stop`.
function M.list(root, take, done)
  local job, waiting, rest, met, ended = {}, {}, "", false, fn.executable("git") == 0
  local function go_on()
    if job.stopped then
      return
    elseif #waiting > 0 then
      take(vim.list_slice(waiting, 1, MOST))
      waiting = vim.list_slice(waiting, MOST + 1)
    elseif ended then
      return met and done() or not met and walk(root, job, take, done)
    end
    vim.defer_fn(go_on, #waiting > 0 and 1 or 5)
  end
  local words = { "git", "-C", root, "ls-files", "-z", "--cached", "--others", "--exclude-standard" }
  local id = not ended and fn.jobstart(words, {
    on_stdout = function(_, data) -- Vim has a newline for each NUL, and an item for each line.
      local names = vim.split(rest .. table.concat(data, "\0"), "\n", { plain = true })
      rest, met = table.remove(names), met or #names > 0
      vim.list_extend(waiting, vim.tbl_map(function(name) return (name:gsub("%z", "\n")) end, names))
    end,
    on_exit = function() ended = true end,
  })
  function job.stop()
    job.stopped = true
    fn.jobstop(id or 0)
  end
  vim.defer_fn(go_on, 1)
  return job
end

return M
