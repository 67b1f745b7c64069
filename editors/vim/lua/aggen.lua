-- Shows all faults of a grammar in Neovim, also if the buffer is not saved: `require('aggen').setup()`. In a diagnostic,
-- `user_data.related` lists the other places that the fault is about, in the same form.
local M = {}

local namespace = vim.api.nvim_create_namespace('aggen')
-- the milliseconds after a change before the program is run
local DELAY = 300

-- Converts a line and a column of aggen, from 1, to those of Neovim, from 0. A column of aggen counts characters, and one of
-- Neovim counts bytes. If there is no such line, returns the end of the last one.
local function position(lines, line, column)
    if line > #lines then
        return #lines - 1, #lines[#lines]
    end
    return line - 1, vim.fn.byteidxcomp(lines[line], column - 1)
end

-- Returns the diagnostic for a fault, or for another place of one. A fault without a place is shown at the first line.
local function diagnostic(lines, it)
    local lnum, col = position(lines, it.line or 1, it.column or 1)
    local end_lnum, end_col = position(lines, it.end_line or 1, it.end_column or 1)
    local related = vim.tbl_map(function(other) return diagnostic(lines, other) end, it.related or {})
    return {
        lnum = lnum, col = col, end_lnum = end_lnum, end_col = end_col,
        message = table.concat({ it.message, it.remedy ~= '' and it.remedy or nil }, ', '),
        code = it.number, source = 'aggen', severity = vim.diagnostic.severity.ERROR,
        user_data = { related = related },
    }
end

-- Shows the faults that aggen has printed about the lines of a buffer. An object without a number is no fault: it says how many
-- are left out.
local function show(buffer, lines, output)
    local found = {}
    for _, line in ipairs(output) do
        local it = line ~= '' and vim.fn.json_decode(line) or {}
        if it.number then
            table.insert(found, diagnostic(lines, it))
        end
    end
    vim.diagnostic.set(namespace, buffer, found)
end

-- Calls `action` with a buffer if it has not changed since `tick`.
local function unless_changed(buffer, tick, action)
    if vim.api.nvim_buf_is_loaded(buffer) and vim.api.nvim_buf_get_changedtick(buffer) == tick then
        action(buffer)
    end
end

-- Runs aggen on a buffer, and shows the faults unless the buffer has changed meanwhile.
local function check(buffer)
    local lines = vim.api.nvim_buf_get_lines(buffer, 0, -1, true)
    local tick = vim.api.nvim_buf_get_changedtick(buffer)
    local job = vim.fn.jobstart({ 'aggen', 'plan', '--all', '--json', '-' }, {
        stdout_buffered = true,
        on_stdout = function(_, output)
            unless_changed(buffer, tick, function() show(buffer, lines, output) end)
        end,
    })
    vim.fn.chansend(job, lines)
    vim.fn.chansend(job, '\n')
    vim.fn.chanclose(job, 'stdin')
end

--- Shows the faults of a grammar after its buffer was entered or changed.
function M.setup()
    if vim.fn.executable('aggen') == 0 then
        vim.notify('aggen is not in the path', vim.log.levels.ERROR)
        return
    end
    vim.api.nvim_create_autocmd({ 'BufEnter', 'TextChanged', 'InsertLeave' }, {
        group = vim.api.nvim_create_augroup('aggen', {}),
        callback = function(event)
            if vim.bo[event.buf].filetype == 'aggen' then
                local tick = vim.api.nvim_buf_get_changedtick(event.buf)
                vim.defer_fn(function() unless_changed(event.buf, tick, check) end, DELAY)
            end
        end,
    })
end

return M
