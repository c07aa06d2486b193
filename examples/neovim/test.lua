-- Random sessions in Neovim: after each step the server's text is compared with what Neovim would write. Driven by `test` (this folder).
-- SESSIONS, STEPS and SEED are numbers, ENCODING is what positions count, BY is "laspidru" or "vim.lsp", OUT gets a line of JSON
-- for each session: kind, everyday (whether only everyday steps), `first`: the name of the step after which the texts differed first,
-- or null, and `more`: that after which they differed in more than the last line end.
local here = vim.env.HERE
local steps = dofile(here .. "/test_steps.lua")
local api = vim.api
local folder = vim.env.FOLDER
local command = { "python3", here .. "/test_server.py", vim.env.ENCODING }
local answer
local stale = 0 -- steps after which the spans that Neovim reported weren't all that changed

-- A generator of its own, so that all Neovims draw the same.
local function generator(seed)
    local state = seed % 2147483647 + 1
    local function draw()
        state = state * 48271 % 2147483647
        return state
    end
    for _ = 1, 5 do
        draw()
    end
    return function(count) return draw() % count + 1 end
end

local function started()
    vim.lsp.handlers["test/text"] = function(_, result) answer = result end
    local config = {
        name = "test",
        cmd = command,
        root_dir = folder,
        offset_encoding = vim.env.ENCODING,
        flags = { debounce_text_changes = 0, allow_incremental_sync = true },
    }
    if vim.env.BY == "laspidru" then config = require("laspidru_sync").config(config, { long = tonumber(vim.env.LONG) }) end
    local id = vim.lsp.start_client(config)
    vim.wait(10000, function() return vim.lsp.get_client_by_id(id).initialized end, 2)
    local client = vim.lsp.get_client_by_id(id)
    assert(client.offset_encoding == vim.env.ENCODING, client.offset_encoding)
    -- (as plugins do that start servers: a file that is read, also again, is attached)
    api.nvim_create_autocmd("BufReadPost", { callback = function(event) vim.lsp.buf_attach_client(event.buf, id) end })
    return client
end

local function is_utf8(text)
    return (pcall(require("laspidru").Document.new, text))
end

local function written(path)
    vim.cmd("silent keepalt noautocmd write! " .. path)
    local file = assert(io.open(path, "rb"))
    local text = file:read("*a")
    file:close()
    return text
end

-- What the server has of a document after what the step has scheduled, or nil. Before a request all of a long buffer is read.
local function asked(client, uri, is_requested)
    answer = nil
    vim.schedule(function()
        if is_requested then client.request("textDocument/hover", { textDocument = { uri = uri } }, function() end, 0) end
        client.notify("test/text", { uri = uri })
    end)
    return vim.wait(10000, function() return answer ~= nil end, 1) and answer or { fault = "no answer" }
end

-- What differs between the server's text and Neovim's, or nil, and whether it is the last line end alone.
local function difference(found, text)
    if found.fault ~= nil and found.fault ~= vim.NIL then return found.fault end
    if found.text == text then return nil end
    -- vim.lsp takes the text of a buffer without lines for one line end: that is counted as right.
    if vim.env.BY == "vim.lsp" and text == "" and (found.text == "\n" or found.text == "\r\n" or found.text == "\r") then return nil end
    local problem = ("has %s, and Neovim %s"):format(vim.inspect(found.text), vim.inspect(text))
    return problem, type(found.text) == "string" and found.text:gsub("[\r\n]+$", "") == text:gsub("[\r\n]+$", "")
end

-- The difference after a step, and whether the buffer is no text. A step may leave a buffer that isn't UTF-8 (`A` over a block that cuts a
-- character): no message can have that text, so that it isn't compared, and vim.lsp's session ends there.
local function compared(client, uri)
    local found, text = asked(client, uri), written(folder .. "/written")
    if not is_utf8(text) then return nil, nil, true end
    local problem, is_last_end = difference(found, text)
    if problem and vim.env.LONG then
        stale = stale + 1
        problem, is_last_end = difference(asked(client, uri, true), text)
    end
    return problem, is_last_end
end

local function steps_of(is_everyday)
    local all = {}
    vim.list_extend(all, steps.EVERYDAY)
    if not is_everyday then vim.list_extend(all, steps.SELDOM) end
    return all
end

local function run(client, number)
    local random = generator(number * 7919 + tonumber(vim.env.SEED))
    local kind, is_everyday = steps.KINDS[number % #steps.KINDS + 1], math.floor(number / #steps.KINDS) % 2 == 0
    local path = ("%s/text-%d.txt"):format(folder, number)
    local file = assert(io.open(path, "wb"))
    file:write(kind.text(random))
    file:close()
    vim.go.fixendofline = random(2) == 1
    vim.cmd("silent edit " .. path)
    local uri, all = vim.uri_from_bufnr(0), steps_of(is_everyday)
    local found = { kind = kind.name, everyday = is_everyday, number = number, first = vim.NIL, more = vim.NIL }
    stale = 0
    for step = 0, tonumber(vim.env.STEPS) do
        local name = "opens"
        if step > 0 then
            local chosen = all[random(#all)]
            name = chosen[1]
            vim.o.undolevels = vim.o.undolevels -- each step is undone alone
            pcall(chosen[2], random, kind, function() vim.lsp.buf_attach_client(0, client.id) end)
        end
        local problem, is_last_end, is_no_text = compared(client, uri)
        if is_no_text and vim.env.BY == "vim.lsp" then break end
        if problem and found.first == vim.NIL then found.first, found.step, found.problem = name, step, problem end
        if problem and not is_last_end then
            found.more = name
            break
        end
    end
    vim.cmd("silent bwipeout!")
    found.stale = stale
    return found
end

local function main()
    vim.o.fileformats = "unix,dos,mac"
    vim.o.hidden, vim.o.swapfile, vim.o.autoread = true, false, true
    local client = started()
    local out = assert(io.open(vim.env.OUT, "w"))
    for number = tonumber(vim.env.FIRST), tonumber(vim.env.SESSIONS) - 1, tonumber(vim.env.EACH) do
        out:write(vim.json.encode(run(client, number)), "\n")
        out:flush()
    end
    out:close()
    client.stop()
    vim.wait(2000, function() return client.is_stopped() end, 5)
end

-- (once Neovim has started: before that it says nothing of options that are set)
vim.schedule(function()
    local is_done, problem = xpcall(main, debug.traceback)
    if not is_done then io.stderr:write(problem, "\n") end
    vim.cmd(is_done and "qall!" or "cquit!")
end)
