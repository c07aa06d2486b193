-- What text a buffer has: the bytes that Neovim would write of it now, in UTF-8 and without a byte order mark.
local api = vim.api

local M = {}

local ENDINGS = { unix = "\n", dos = "\r\n", mac = "\r" }
-- Neovim keeps a NUL as a line feed in its line, and in a buffer with Mac's line ends a line feed as a CR.
local IN_LINES = { unix = { ["\n"] = "\0" }, dos = { ["\n"] = "\0" }, mac = { ["\n"] = "\0", ["\r"] = "\n" } }

-- Whether a buffer has no line at all, as after deleting all. Its list of lines has an empty one all the same.
local function has_no_line(buffer, lines)
    return #lines == 1 and lines[1] == "" and api.nvim_buf_call(buffer, function() return vim.fn.wordcount().bytes == 0 end)
end

-- Whether Neovim would write an end of the last line: with `fixendofline` it does where the file has none, too.
local function writes_last_end(options)
    return options.endofline or (options.fixendofline and not options.binary)
end

-- The state of a buffer: its lines as Neovim keeps them, the format of their ends, and whether the last line has one.
function M.read(buffer)
    local options, lines = vim.bo[buffer], api.nvim_buf_get_lines(buffer, 0, -1, false)
    return { lines = lines, format = options.fileformat, has_last_end = writes_last_end(options) and not has_no_line(buffer, lines) }
end

-- A span of lines that changed: after the first `first` lines up to line `old_last` of the old lines, `new_last` of the new ones.
-- `before` is a span or nil, and after it Neovim reported another (`on_lines`).
function M.span(before, first, old_last, new_last)
    if not before then return { first = first, old_last = old_last, new_last = new_last } end
    local last = math.max(before.new_last, old_last)
    return {
        first = math.min(before.first, first),
        old_last = before.old_last + last - before.new_last,
        new_last = last + new_last - old_last,
    }
end

-- The state of a buffer whose lines are as before but for a span: only those are read. Nothing where that can't be all that changed.
function M.read_span(buffer, old, span)
    local options, count = vim.bo[buffer], #old.lines + span.new_last - span.old_last
    local is_same = options.fileformat == old.format and writes_last_end(options) == old.has_last_end
    if not is_same or count == 1 or count ~= api.nvim_buf_line_count(buffer) then return nil end
    local read, lines, rest = api.nvim_buf_get_lines(buffer, span.first, span.new_last, false), {}, span.new_last - span.old_last
    for index = 1, span.first do
        lines[index] = old.lines[index]
    end
    for index, line in ipairs(read) do
        lines[span.first + index] = line
    end
    for index = span.old_last + 1, #old.lines do
        lines[index + rest] = old.lines[index]
    end
    return { lines = lines, format = old.format, has_last_end = old.has_last_end }
end

-- The text of the lines after the first `from` up to line `to`.
local function text_of(state, from, to)
    if from == to then return "" end
    local names, parts = IN_LINES[state.format], {}
    for index = from + 1, to do
        local line = state.lines[index]
        parts[#parts + 1] = line:find("[\r\n]") and line:gsub("[\r\n]", names) or line
    end
    if to < #state.lines or state.has_last_end then parts[#parts + 1] = "" end
    return table.concat(parts, ENDINGS[state.format])
end

-- The whole text of a state.
function M.whole(state)
    return text_of(state, 0, #state.lines)
end

-- How many bytes these first lines have, with their ends.
local function length_of(state, count)
    local sum = count * #ENDINGS[state.format]
    for index = 1, count do
        sum = sum + #state.lines[index]
    end
    return sum
end

-- How many members at the start of two sequences are equal, and how many of the others at the end. `at` returns a member.
local function common(old, new, at)
    local least, first, last = math.min(#old, #new), 0, 0
    while first < least and at(old, first + 1) == at(new, first + 1) do
        first = first + 1
    end
    while last < least - first and at(old, #old - last) == at(new, #new - last) do
        last = last + 1
    end
    return first, last
end

local function line_at(lines, index) return lines[index] end

-- How many lines at the start and at the end of two states have the same text, and the same end.
local function common_lines(old, new)
    if old.format ~= new.format then return 0, 0 end
    local first, last = common(old.lines, new.lines, line_at)
    local is_same_end = old.has_last_end == new.has_last_end
    if is_same_end and (last > 0 or old.has_last_end or (first == #old.lines and first == #new.lines)) then return first, last end
    -- (the last of these lines may be the last of one state alone, and has no end there)
    return math.max(first - 1, 0), 0
end

-- The difference of two states, but for so many equal lines at the start and at the end: nothing where a border of it lies inside
-- a character or a line end of the old text.
local function trimmed(old, new, first, last, is_border)
    local before, after = text_of(old, first, #old.lines - last), text_of(new, first, #new.lines - last)
    local head, tail = common(before, after, string.byte)
    local offset = length_of(old, first)
    while head > 0 and not is_border(offset + head) do
        head = head - 1
    end
    while tail > 0 and not is_border(offset + #before - tail) do
        tail = tail - 1
    end
    local start, stop = offset + head, offset + #before - tail
    if not is_border(start) or not is_border(stop) then return nil end
    return { start = start, stop = stop, text = after:sub(head + 1, #after - tail) }
end

-- What differs between two states of a buffer: {start, stop, text}, where `text` comes in place of the bytes of the old text after
-- the first `start` up to `stop`. `is_border` says of such a count whether a position of the old text is there.
function M.difference(old, new, is_border)
    local first, last = common_lines(old, new)
    return trimmed(old, new, first, last, is_border) or trimmed(old, new, 0, 0, is_border)
end

-- Whether two states have the same text.
function M.is_same(old, new)
    local first = common_lines(old, new)
    return first == #old.lines and first == #new.lines
end

return M
