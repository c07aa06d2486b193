-- What the plugin does in trouble, and beside the rest of vim.lsp, case by case. ONLY names a case; the status is 0 where it ends well.
local here, folder = vim.env.HERE, vim.env.FOLDER
local api, lsp = vim.api, vim.lsp
local sync = require("laspidru_sync")
local said, texts = {}, {}

vim.notify = function(message) said[#said + 1] = message end
lsp.handlers["test/text"] = function(_, result) texts[result.uri] = result end

local function wait(of)
    assert(vim.wait(5000, of, 2), "nothing came")
end

local function plain_config(more)
    return vim.tbl_extend("force", {
        name = "test",
        cmd = { "python3", here .. "/test_server.py", "utf-16" },
        root_dir = folder,
        flags = { debounce_text_changes = 0 },
    }, more or {})
end

-- Starts a server with this configuration, and attaches the buffer.
local function start_plain(config)
    local id = lsp.start_client(config)
    lsp.buf_attach_client(0, id)
    wait(function() return lsp.get_client_by_id(id).initialized end)
    return lsp.get_client_by_id(id)
end

local function start(more, options) return start_plain(sync.config(plain_config(more), options)) end

-- The server's text of a URI, or nil where it has none.
local function text_in(client, uri)
    texts[uri] = nil
    vim.schedule(function() client.notify("test/text", { uri = uri }) end)
    wait(function() return texts[uri] end)
    assert(not texts[uri].fault or texts[uri].fault == vim.NIL, texts[uri].fault)
    return texts[uri].text ~= vim.NIL and texts[uri].text or nil
end

local function has(client, wanted)
    local found = text_in(client, vim.uri_from_bufnr(0))
    assert(found == wanted, ("the server has %s, not %s"):format(vim.inspect(found), vim.inspect(wanted)))
end

local function heard(words)
    wait(function() return #said > 0 end)
    local message = table.remove(said, 1)
    assert(message:find(words, 1, true), ("%q was said, not %q"):format(message, words))
end

local function is_silent() assert(#said == 0, said[1]) end

local function set(...) api.nvim_buf_set_lines(0, 0, -1, true, { ... }) end

-- (as plugins do that start servers)
local function attach_what_is_read(client)
    api.nvim_create_autocmd("BufReadPost", { callback = function(event) lsp.buf_attach_client(event.buf, client.id) end })
end

local function edit(name, ...)
    vim.fn.writefile({ ... }, folder .. "/" .. name)
    vim.cmd("silent edit " .. folder .. "/" .. name)
end

local CASES = {}

function CASES.server_dies()
    local client = start()
    set("one")
    has(client, "one\n")
    client.notify("test/die", vim.empty_dict())
    heard("quit with exit code 7")
    wait(function() return not pcall(api.nvim_get_autocmds, { group = "laspidru_sync_" .. client.id }) end)
    set("one", "two")
    client = start()
    has(client, "one\ntwo\n")
    set("three")
    has(client, "three\n")
    is_silent()
end

function CASES.text_over_the_limit()
    local client = start({}, { max_text = 20 })
    set("short")
    has(client, "short\n")
    set("this line is longer than the limit")
    heard("isn't sent: the text is longer than max_text")
    set("this line is longer than the limit, still")
    has(client, "short\n")
    set("short again")
    has(client, "short again\n")
    heard("is sent again")
    set("and on")
    has(client, "and on\n")
    is_silent()
end

function CASES.message_over_the_limit()
    local client = start({}, { max_body = 4096 })
    set("short")
    has(client, "short\n")
    set(('"'):rep(3000)) -- (6,000 bytes in the message)
    heard("isn't sent: the text is longer than max_text, or its message than max_body")
    has(client, "short\n")
    set("short again")
    has(client, "short again\n")
    heard("is sent again")
    is_silent()
end

function CASES.opened_over_the_limit()
    set("this line is longer than the limit")
    local client = start({}, { max_text = 20 })
    heard("isn't sent: the text is longer than max_text")
    has(client, nil)
    set("short")
    has(client, "short\n")
end

function CASES.a_bad_limit()
    local client = start({}, { max_body = 1 })
    heard("keeps vim.lsp's own synchronisation: max_body is out of its range")
    set("one")
    has(client, "one\n")
end

function CASES.no_text()
    local client = start()
    set("one")
    has(client, "one\n")
    set("one", "\255")
    heard("isn't sent: it isn't text in UTF-8")
    has(client, "one\n")
    vim.cmd("silent undo")
    set("one", "é")
    has(client, "one\né\n")
end

function CASES.line_ends()
    local client = start()
    set("one", "two")
    has(client, "one\ntwo\n")
    vim.bo.fileformat = "dos"
    has(client, "one\r\ntwo\r\n")
    vim.bo.fileformat, vim.bo.endofline, vim.bo.fixendofline = "mac", false, false
    has(client, "one\rtwo")
    set("three")
    has(client, "three")
    is_silent()
end

function CASES.a_last_line_end_that_neovim_adds()
    local file = assert(io.open(folder .. "/noeol.txt", "wb"))
    file:write("ab\ncd")
    file:close()
    vim.cmd("silent edit " .. folder .. "/noeol.txt")
    local client = start()
    assert(vim.bo.fixendofline and not vim.bo.endofline)
    has(client, "ab\ncd\n")
    vim.bo.fixendofline = false
    has(client, "ab\ncd")
    vim.bo.fixendofline = true
    has(client, "ab\ncd\n")
    vim.bo.binary = true
    has(client, "ab\ncd")
    is_silent()
end

-- (as Neovim 0.11 starts the clients of `vim.lsp.config`)
function CASES.two_clients_of_one_configuration()
    local config = sync.config(plain_config())
    local first, second = start_plain(vim.deepcopy(config)), start_plain(vim.deepcopy(config))
    set("one")
    has(first, "one\n")
    first.stop()
    wait(function() return first.is_stopped() end)
    assert(not sync.sessions[first.id] and sync.sessions[second.id])
    set("two")
    has(second, "two\n")
    is_silent()
end

local function health()
    vim.cmd("silent checkhealth laspidru")
    local found = table.concat(vim.api.nvim_buf_get_lines(0, 0, -1, false), "\n")
    vim.cmd("silent bwipeout!")
    return found
end

function CASES.its_health()
    assert(health():find("no server runs", 1, true))
    local client = start(nil, { max_text = 9 })
    assert(health():find("the library is version " .. require("laspidru").version, 1, true))
    edit("a.txt", "one")
    lsp.buf_attach_client(0, client.id)
    has(client, "one\n")
    assert(health():find("a.txt, version %d+: the server has the text"))
    set("a longer line")
    heard("isn't sent")
    assert(health():find("the server lacks the text: the text is longer than max_text", 1, true))
end

function CASES.whole_texts()
    local client = start({ cmd = { "python3", here .. "/test_server.py", "utf-8", "full" } })
    assert(client.offset_encoding == "utf-8")
    set("é", "two")
    has(client, "é\ntwo\n")
    vim.cmd("normal! ggx")
    has(client, "\ntwo\n")
end

function CASES.no_synchronisation()
    local client = start({ cmd = { "python3", here .. "/test_server.py", "utf-16", "none" } })
    set("one")
    has(client, nil)
    is_silent()
end

function CASES.attached_twice()
    local client = start()
    lsp.buf_attach_client(0, client.id)
    set("one")
    lsp.buf_attach_client(0, client.id)
    set("one", "two")
    has(client, "one\ntwo\n")
    lsp.buf_detach_client(0, client.id)
    has(client, nil)
    lsp.buf_attach_client(0, client.id)
    has(client, "one\ntwo\n")
    set("three")
    has(client, "three\n")
end

function CASES.renamed_and_wiped()
    edit("first.txt", "one")
    local client = start()
    has(client, "one\n")
    local before = vim.uri_from_bufnr(0)
    vim.cmd("file " .. folder .. "/second.txt")
    set("two")
    has(client, "two\n")
    assert(text_in(client, before) == nil)
    local after = vim.uri_from_bufnr(0)
    vim.cmd("bwipeout!")
    assert(text_in(client, after) == nil)
end

function CASES.wiped_and_opened_again_in_one_command()
    edit("a.txt", "one")
    local client = start()
    attach_what_is_read(client)
    has(client, "one\n")
    local buffer = api.nvim_get_current_buf()
    vim.cmd("silent bwipeout! | edit " .. folder .. "/a.txt")
    assert(api.nvim_get_current_buf() ~= buffer)
    has(client, "one\n")
    set("two")
    has(client, "two\n")
    is_silent()
end

function CASES.read_again()
    edit("a.txt", "one")
    local client = start()
    attach_what_is_read(client)
    set("two")
    has(client, "two\n")
    vim.fn.writefile({ "three" }, folder .. "/a.txt")
    vim.cmd("silent edit!")
    has(client, "three\n")
    set("four")
    has(client, "four\n")
end

function CASES.two_buffers_of_one_name()
    local client = start()
    set("one")
    has(client, "one\n")
    vim.cmd("new")
    lsp.buf_attach_client(0, client.id)
    heard("another buffer has the same name")
    set("two")
    vim.cmd("bwipeout!")
    has(client, "one\n")
    vim.cmd("new")
    lsp.buf_attach_client(0, client.id)
    heard("another buffer has the same name")
    set("two")
    vim.cmd("wincmd p | bwipeout!")
    vim.wait(20)
    has(client, "two\n")
end

function CASES.requests_come_after_changes()
    local client = start()
    set("one")
    for _, method in ipairs({ "textDocument/hover", "textDocument/completion" }) do
        set("before " .. method)
        local params = lsp.util.make_position_params(0, client.offset_encoding)
        local result = lsp.buf_request_sync(0, method, params, 5000)[client.id].result
        assert((result.contents or result[1].label) == "before " .. method .. "\n", vim.inspect(result))
    end
    assert(client.server_capabilities.completionProvider and client.server_capabilities.hoverProvider)
end

function CASES.beside_another_server()
    local client, other = start(), start_plain(plain_config())
    set("one")
    has(client, "one\n")
    has(other, "one\n")
    set("one", "two 😀")
    has(client, "one\ntwo 😀\n")
    has(other, "one\ntwo 😀\n")
    other.stop()
    wait(other.is_stopped)
    set("three")
    has(client, "three\n")
end

function CASES.own_calls()
    local calls = {}
    local client = start({
        on_init = function(it) calls.init = it.id end,
        on_attach = function(it, buffer) calls.attach = { it.id, buffer } end,
        on_exit = function(code) calls.exit = code end,
    })
    assert(calls.init == client.id and vim.deep_equal(calls.attach, { client.id, api.nvim_get_current_buf() }))
    client.stop()
    wait(function() return calls.exit == 0 end)
    set("after")
    vim.wait(20)
    is_silent()
end

vim.schedule(function()
    vim.o.hidden = true
    local is_done, problem = xpcall(CASES[vim.env.ONLY], debug.traceback)
    if not is_done then io.stderr:write(problem, "\n") end
    vim.cmd(is_done and "qall!" or "cquit!")
end)
