-- A session of Neovim with a language server whose hover shows its text (COMMAND): after each step the text is Neovim's.
local api = vim.api

local STEPS = { "ggOfirst", "A 😀 é", "yyp", "GA, the end", "ggdw", "u", "jddP", "ggJ" }

local function main()
    vim.o.fixendofline = false
    vim.cmd("edit " .. vim.env.NOTES)
    local id = vim.lsp.start_client({
        name = "loop",
        cmd = vim.split(vim.env.COMMAND, " "),
        root_dir = vim.fn.getcwd(),
        flags = { debounce_text_changes = 0 },
    })
    assert(vim.wait(20000, function() return vim.lsp.get_client_by_id(id) and vim.lsp.get_client_by_id(id).initialized end, 5), "it doesn't start")
    vim.lsp.buf_attach_client(0, id)
    for _, keys in ipairs(STEPS) do
        vim.o.undolevels = vim.o.undolevels
        vim.cmd("silent normal! " .. keys)
        local params = { textDocument = vim.lsp.util.make_text_document_params(), position = { line = 0, character = 0 } }
        local answers = assert(vim.lsp.buf_request_sync(0, "textDocument/hover", params, 10000))
        local ending = vim.bo.fileformat == "dos" and "\r\n" or "\n"
        local wanted = table.concat(api.nvim_buf_get_lines(0, 0, -1, true), ending) .. ending
        local found = answers[id].result.contents[1]
        assert(found == wanted, ("after %s it has %q, not %q"):format(keys, found, wanted))
    end
    vim.lsp.stop_client(id)
    vim.wait(2000, function() return vim.lsp.client_is_stopped(id) end, 5)
end

vim.schedule(function()
    local is_done, problem = xpcall(main, debug.traceback)
    if not is_done then io.stderr:write(problem, "\n") end
    vim.cmd(is_done and "qall!" or "cquit!")
end)
