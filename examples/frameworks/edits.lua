-- Random edits in Neovim, beside a server whose hover shows its text. Driven by `test` (this folder), which sets COMMAND (the server's, as
-- JSON), STEPS (the file with the steps), EDITS, SEED, FORMAT ("unix" or "dos") and ENCODING. Prints in how many edits of all the server's
-- text was the buffer's then.
local api = vim.api
local steps = dofile(vim.env.STEPS)

local function generator(state)
    return function(count)
        state = state * 48271 % 2147483647
        return state % count + 1
    end
end

local function form_feed(random)
    local line = random(api.nvim_buf_line_count(0)) - 1
    api.nvim_buf_set_text(0, line, 0, line, 0, { "x\fy \226\128\168😀" })
end

local function text_of_buffer()
    local ending = vim.bo.fileformat == "dos" and "\r\n" or "\n"
    return table.concat(api.nvim_buf_get_lines(0, 0, -1, true), ending) .. ending
end

local function text_of_server(client)
    local params = { textDocument = { uri = vim.uri_from_bufnr(0) }, position = { line = 0, character = 0 } }
    local answer = assert(client.request_sync("textDocument/hover", params, 20000, api.nvim_get_current_buf()), "no answer")
    local contents = (answer.result or {}).contents
    return type(contents) == "table" and contents[1] or contents
end

local function started()
    local capabilities = vim.lsp.protocol.make_client_capabilities()
    capabilities.general = vim.tbl_extend("force", capabilities.general or {}, { positionEncodings = { vim.env.ENCODING, "utf-16" } })
    local config = { name = "test", cmd = vim.json.decode(vim.env.COMMAND), root_dir = vim.fn.getcwd(), capabilities = capabilities }
    local id = (vim.lsp.start or vim.lsp.start_client)(config)
    vim.lsp.buf_attach_client(0, id) -- (Neovim 0.7 has no vim.lsp.start, which does this)
    local client = vim.lsp.get_client_by_id(id)
    assert(vim.wait(20000, function() return client.initialized end, 5), "the server doesn't start")
    assert(client.offset_encoding == vim.env.ENCODING, client.offset_encoding)
    return client
end

local function change_all(lines)
    local levels = vim.o.undolevels
    vim.o.undolevels = -1
    api.nvim_buf_set_lines(0, 0, -1, true, lines)
    vim.o.undolevels = levels
end

-- Neovim loses the last line end once all lines were deleted (docs/CLIENTS.md). Such a document is opened again, and no
-- undo leads back. Before 0.10 it is changed while no client is there, since what hears changes goes only then: else there
-- are two. From 0.10 on nothing would hear them afterwards.
local function open_again(client, lines)
    local hears_once = vim.fn.has("nvim-0.10") == 1
    if hears_once then change_all(lines) end
    vim.lsp.buf_detach_client(0, client.id)
    if not hears_once then change_all(lines) end
    vim.lsp.buf_attach_client(0, client.id)
end

local function main()
    vim.o.swapfile, vim.o.fixendofline = false, true
    vim.cmd("edit text.txt")
    vim.bo.fileformat = vim.env.FORMAT
    local random, first = generator(tonumber(vim.env.SEED)), {}
    for line = 1, 60 do
        first[line] = steps.word(random) .. " " .. steps.word(random)
    end
    api.nvim_buf_set_lines(0, 0, -1, true, first)
    vim.cmd("silent write")
    local client, all, right = started(), vim.list_extend({ { "a form feed", form_feed } }, steps.EVERYDAY), 0
    for _ = 1, tonumber(vim.env.EDITS) do
        vim.o.undolevels = vim.o.undolevels -- each step is undone alone
        pcall(all[random(#all)][2], random)
        if #text_of_buffer() < 3 then
            open_again(client, first)
        elseif api.nvim_buf_line_count(0) < 3 then
            api.nvim_buf_set_lines(0, 0, -1, true, first)
        end
        right = right + (text_of_server(client) == text_of_buffer() and 1 or 0)
    end
    io.stdout:write(("%d of %d\n"):format(right, tonumber(vim.env.EDITS)))
    client.stop()
    vim.wait(20000, function() return client.is_stopped() end, 5)
end

vim.schedule(function()
    local is_done, problem = xpcall(main, debug.traceback)
    if not is_done then io.stderr:write(problem, "\n") end
    vim.cmd(is_done and "qall!" or "cquit!")
end)
