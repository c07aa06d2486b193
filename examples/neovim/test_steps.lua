-- The texts and the editing steps of the random sessions of `test`.
local M = {}

local NAMES = { CR = "\r", Esc = "\27", ["C-V"] = "\22", ["C-R"] = "\18", LT = "<" }

-- Keys as they are typed: what is between < and > is a key's name.
local function keys(typed)
    return (typed:gsub("<([%w-]+)>", NAMES))
end

local function normal(typed)
    vim.cmd("normal! " .. keys(typed))
end

local WORDS = { "a", "line", "value = 1", "é", "漢字", "😀", "e\204\129", "👩\226\128\141💻", "\226\128\168", "tab\there", "", "x😀y", "  " }

function M.word(random)
    return WORDS[random(#WORDS)]
end

-- Texts, by kind: how Neovim is to read the file, and its bytes.
local function lines(random, pick, ending, has_last_end)
    local all = {}
    for _ = 1, random(12) - 1 do
        all[#all + 1] = pick() .. " " .. pick()
    end
    local text = table.concat(all, ending)
    return (has_last_end and #all > 0) and text .. ending or text
end

local function ascii(random)
    return function() return ({ "one", "two words", "line", "x", "", "value = some_call(1)" })[random(6)] end
end

local function any(random)
    return function() return M.word(random) end
end

local function odd(random)
    return function() return ({ "a\rb", "\r", "é\r😀", "x\r\ry", "plain" })[random(5)] end
end

M.KINDS = {
    { name = "LF, ASCII", text = function(random) return lines(random, ascii(random), "\n", true) end },
    { name = "LF, emoji and combining marks", text = function(random) return lines(random, any(random), "\n", true) end },
    { name = "no last line end", text = function(random) return lines(random, any(random), "\n", false) end },
    { name = "CRLF", text = function(random) return lines(random, any(random), "\r\n", true) end },
    { name = "a CR inside lines", text = function(random) return lines(random, odd(random), "\n", true) end },
    { name = "files whose lines end with CR", text = function(random) return lines(random, any(random), "\r", true) end },
    { name = "NUL", text = function(random) return lines(random, function() return ({ "a\0b", "\0", "z" })[random(3)] end, "\n", true) end },
    { name = "empty", text = function() return "" end },
}

local function somewhere(random)
    local line = random(vim.api.nvim_buf_line_count(0))
    local text = vim.api.nvim_buf_get_lines(0, line - 1, line, true)[1]
    vim.fn.cursor(line, vim.fn.byteidx(text, random(vim.fn.strchars(text) + 1) - 1) + 1)
end

-- A step that types what is returned, at some place.
local function typed(of)
    return function(random)
        somewhere(random)
        normal(of(random))
    end
end

local function command(of)
    return function(random)
        somewhere(random)
        vim.cmd("silent! " .. of(random))
    end
end

local function one_of(...)
    local all = { ... }
    return function(random) return all[random(#all)] end
end

local function a_range(random)
    local count = vim.api.nvim_buf_line_count(0)
    local first = random(count)
    return first, math.min(first + random(3) - 1, count)
end

-- Steps of everyday editing, by name.
M.EVERYDAY = {
    { "types", typed(function(random) return "i" .. M.word(random) end) },
    { "types at the end", typed(function(random) return "A" .. M.word(random) end) },
    { "opens a line", typed(function(random) return one_of("o", "O")(random) .. M.word(random) end) },
    { "breaks a line", typed(function(random) return "i" .. M.word(random) .. "<CR>" .. M.word(random) end) },
    { "deletes", typed(one_of("x", "X", "dw", "db", "D", "dd", "2dd", "dj", "dk")) },
    { "deletes much", typed(one_of("dG", "dgg", "ggdG")) },
    { "replaces", typed(one_of("rz", "r😀", "~", "gUU", "ccnew", "cwé", "Sother", "R12")) },
    { "joins", typed(one_of("J", "gJ", "3J")) },
    { "copies lines", typed(one_of("yyp", "yyP", "Yp", "yw$p", "yiwP", "y$p")) },
    { "block", typed(one_of("<C-V>jx", "<C-V>jIab<Esc>", "<C-V>j$Aé<Esc>", "<C-V>lkd")) },
    { "shifts", typed(one_of(">>", "<LT><LT>", ">j")) },
    { "undoes", command(one_of("undo", "undo", "undo", "earlier 3", "normal! 4u")) },
    { "redoes", command(one_of("redo", "redo", "later 2")) },
    { "replaces everywhere", command(one_of("%s/e/E/g", "%s/ /\\r/", "%s/\\n//", "%s/x/😀/g", "%s/$/!/", "%s/^/- /", "%s/.//", "%s/é/e/ge")) },
    { "moves lines", command(one_of("move 0", "move $", "copy .", "copy $", "sort", "sort!", "g/e/d", "g/^/m0", "v/e/d", "retab")) },
    { "deletes lines", command(one_of("delete", "1,$delete", "$delete", "1delete", "%join")) },
    { "again", typed(one_of(".", ".", "@:", "u", "<C-R>")) },
}

local function writes_the_file(random, kind)
    local file = assert(io.open(vim.api.nvim_buf_get_name(0), "wb"))
    file:write(kind.text(random))
    file:close()
end

-- Steps that everyday editing has seldom.
M.SELDOM = {
    { "sets the format of line ends", command(one_of("set ff=dos", "set ff=unix", "set ff=mac")) },
    { "sets the last line end", command(one_of("set eol", "set noeol")) },
    { "reloads", function(random, kind)
        writes_the_file(random, kind)
        vim.cmd("silent! edit!")
    end },
    { "reads another text", function(random, kind)
        writes_the_file(random, kind)
        vim.cmd("silent! checktime")
    end },
    { "saves", function()
        os.remove(vim.api.nvim_buf_get_name(0)) -- (else Neovim asks whether to write over a file that is newer)
        vim.cmd("silent! write")
    end },
    { "opens the file as another buffer", function()
        local path = vim.api.nvim_buf_get_name(0)
        os.remove(path)
        vim.cmd("silent! write | bwipeout! | edit " .. path)
    end },
    { "attaches again", function(_, _, attach) attach() end },
    { "types a CR", typed(one_of("i<C-V>013", "A<C-V>013", "o<C-V>013<C-V>013")) },
    { "types a NUL", typed(one_of("i<C-V>000", "A<C-V>000")) },
    { "sets lines", function(random)
        local first, last = a_range(random)
        local all = {}
        for index = 1, random(4) - 1 do
            all[index] = M.word(random)
        end
        vim.api.nvim_buf_set_lines(0, first - 1, last, true, all)
    end },
    { "sets a text", function(random)
        local first, last = a_range(random)
        local text = vim.api.nvim_buf_get_lines(0, last - 1, last, true)[1]
        vim.api.nvim_buf_set_text(0, first - 1, 0, last - 1, #text, { M.word(random), M.word(random) })
    end },
    { "a macro", function(random)
        somewhere(random)
        vim.fn.setreg("q", keys(one_of("Aend<Esc>j", "ddp", "x.", "O<Esc>j")(random)))
        vim.cmd("silent! normal! 3@q")
    end },
}

return M
