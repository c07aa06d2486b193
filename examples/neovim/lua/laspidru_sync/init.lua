-- vim.lsp with laspidru's client in place of its text synchronisation (README.md). vim.lsp starts the server, and says which buffers are
-- open in it. What changed is read from the buffer, once the command that did it is through, and sent as laspidru's client has it.
-- A text is the bytes that Neovim would write now, in UTF-8, with the line ends of `fileformat`. On each change the buffer's lines are
-- compared with those that were sent last. In a buffer of over 5,000 lines (`long`) those are compared that Neovim reports, and all lines
-- 300 milliseconds later and before a request. A text that can't be sent (over a limit, not UTF-8) waits, and a message says so.
local laspidru = require("laspidru")
local text = require("laspidru_sync.text")
local api, lsp = vim.api, vim.lsp

-- The sessions that run, by the numbers of their clients
local M = { sessions = {} }
local Session = {}
Session.__index = Session

local WHY = {
    TOO_LONG = "the text is longer than max_text, or its message than max_body",
    TOO_MANY_CHANGES = "there are too many changes, or too long ones",
    TOO_MANY_DOCUMENTS = "as many documents are open as may be",
    ALREADY_OPEN = "another buffer has the same name",
    NOT_UTF8 = "it isn't text in UTF-8",
    OUT_OF_MEMORY = "there is no memory left",
}
local CHECK_AFTER = 300 -- milliseconds without a change, after which a long buffer is read whole
local NEW_STATE = { "BufWritePost", "FileChangedShellPost", "TextChanged", "TextChangedI", "TextChangedP" }

local function warn(...)
    vim.notify("laspidru: " .. string.format(...), vim.log.levels.WARN)
end

-- Returns a configuration of vim.lsp's with the change: for `vim.lsp.start_client`, `vim.lsp.start`, and Neovim 0.11's `vim.lsp.config`. In `options`
-- `max_text`, `max_body` and `max_docs` are laspidru's limits. Of a buffer with more than `long` lines (5000) only those are read at once
-- that Neovim reports as changed, and the others a little later.
function M.config(config, options)
    local calls, on_exit = type(config.on_init) == "table" and config.on_init or { config.on_init }, config.on_exit
    return vim.tbl_extend("force", config, {
        on_init = function(client, result)
            for _, call in ipairs(calls) do
                call(client, result)
            end
            M.sessions[client.id] = Session.new(client, result.capabilities, options or {})
        end,
        on_exit = function(code, signal, id) -- (a configuration may have several clients)
            if M.sessions[id] then M.sessions[id]:stop() end
            if on_exit then on_exit(code, signal, id) end
        end,
    })
end

-- What each session's server has: a list of {server, encoding, documents}, and of each document its {name, version, problem}, where
-- `problem` says why its text isn't the buffer's, or is nil.
function M.status()
    local all = {}
    for _, session in pairs(M.sessions) do
        local found = { server = session.client.name, encoding = session.client.offset_encoding, documents = {} }
        for buffer, entry in pairs(session.entries) do
            local is_sent = not entry.problem and entry.state and text.is_same(entry.state, text.read(buffer))
            local problem = entry.problem and (WHY[entry.problem] or entry.problem) or not is_sent and "its last change isn't sent yet" or nil
            table.insert(found.documents, { name = vim.fn.fnamemodify(api.nvim_buf_get_name(buffer), ":~:."), version = entry.version, problem = problem })
        end
        table.insert(all, found)
    end
    return all
end

-- Laspidru's client of a session whose `initialize` was vim.lsp's own, or nil and why there can be none. It gets the server's response to
-- the parts of that which are its own.
local function client_of(encoding, synchronisation, options)
    local ours = laspidru.Client.new({
        utf8 = encoding == "utf-8",
        utf32 = encoding == "utf-32",
        max_text = options.max_text,
        max_body = options.max_body,
        max_docs = options.max_docs,
    })
    ours:start()
    local capabilities = { positionEncoding = encoding, textDocumentSync = synchronisation }
    local event = ours:deliver(vim.json.encode({ jsonrpc = "2.0", id = 1, result = { capabilities = capabilities } }))
    return event.kind == "send" and ours or nil, event.reason
end

-- Takes the place of vim.lsp's synchronisation with a server, if that wants documents to be opened and changed.
function Session.new(client, capabilities, options)
    local encoding = capabilities.positionEncoding or client.offset_encoding
    local is_done, ours, reason = pcall(client_of, encoding, capabilities.textDocumentSync, options)
    if not is_done then ours, reason = nil, tostring(ours) end
    if not ours and reason ~= "NO_SYNC" then warn("%s keeps vim.lsp's own synchronisation: %s", client.name, reason) end
    if not ours then return nil end
    client.offset_encoding = encoding
    local self = setmetatable({ client = client, ours = ours, options = options, entries = {} }, Session)
    self.group = api.nvim_create_augroup("laspidru_sync_" .. client.id, {})
    self:take_calls()
    self:listen_to_all()
    return self
end

-- Puts `call` in the place of a call of vim.lsp's client, and passes it that. (From Neovim 0.11 on they are methods.)
local function replace(client, name, call)
    local own = client[name]
    client[name] = function(first, ...)
        if first == client then return call(function(...) return own(client, ...) end, ...) end
        return call(own, first, ...)
    end
end

-- vim.lsp no longer computes changes, and what it says of documents is done here. What changed is sent before all else.
function Session:take_calls()
    local client = self.client
    local documents = {
        ["textDocument/didOpen"] = self.attach,
        ["textDocument/didChange"] = function() end,
        ["textDocument/didClose"] = self.detach,
    }
    replace(client, "notify", function(own, method, params)
        if documents[method] then
            documents[method](self, params.textDocument)
            return true
        end
        self:flush_scheduled()
        return own(method, params)
    end)
    replace(client, "request", function(own, method, params, handler, buffer)
        self:flush_scheduled()
        self:flush((buffer or 0) ~= 0 and buffer or api.nvim_get_current_buf())
        return own(method, params, handler, buffer)
    end)
    replace(client, "stop", function(own, ...)
        self:stop()
        return own(...)
    end)
    if client.resolved_capabilities then
        client.resolved_capabilities.text_document_did_change = lsp.protocol.TextDocumentSyncKind.None
    elseif type(client.server_capabilities.textDocumentSync) == "table" then
        client.server_capabilities.textDocumentSync.change = lsp.protocol.TextDocumentSyncKind.None
    end
end

-- vim.lsp opens a document: that of a buffer which it has attached.
function Session:attach(document)
    for _, buffer in ipairs(api.nvim_list_bufs()) do
        local is_new = not self.entries[buffer] and api.nvim_buf_is_loaded(buffer) and lsp.buf_is_attached(buffer, self.client.id)
        if is_new and vim.uri_from_bufnr(buffer) == document.uri then
            local entry = { buffer = buffer, theirs = document.uri, language = document.languageId }
            self.entries[buffer] = entry
            self:listen(entry)
            self:flush(buffer)
            return self:flush_soon(entry) -- (a buffer that is read again may not have all of its text yet)
        end
    end
end

-- vim.lsp closes a document. It names it as it was when it was opened. Where two buffers have the name, `on_detach` says which is meant.
function Session:detach(document)
    local found = vim.tbl_filter(function(entry) return entry.theirs == document.uri end, vim.tbl_values(self.entries))
    if #found == 1 then self:forget(found[1]) end
end

function Session:listen(entry)
    local function note()
        if self.entries[entry.buffer] ~= entry then return true end -- detaches
        self:flush_soon(entry)
    end
    api.nvim_buf_attach(entry.buffer, false, {
        on_bytes = note,
        -- (`3J` on an empty buffer makes one line of none, and has no on_bytes)
        on_lines = function(_, _, _, first, old_last, new_last)
            entry.span = text.span(entry.span, first, old_last, new_last)
            return note()
        end,
        on_reload = note,
        on_changedtick = note,
        -- (at once: the next buffer may have the same name)
        on_detach = function() self:forget(entry) end,
    })
end

function Session:forget(entry)
    if self.entries[entry.buffer] ~= entry then return end
    self.entries[entry.buffer] = nil
    self:close(entry)
    for _, other in pairs(self.entries) do
        if not other.is_open then self:flush_soon(other) end
    end
end

function Session:close(entry)
    if entry.is_open then self:send(self.ours:close(entry.uri)) end
    entry.is_open, entry.is_behind = false, false
end

-- Sends a message of laspidru's client, by vim.lsp, which writes its JSON anew.
function Session:send(frame)
    local message = vim.json.decode(frame:match("\r\n\r\n(.*)$"))
    self.client.rpc.notify(message.method, message.params)
end

-- What on_bytes doesn't say: options that belong to the text, a new name, and for safety each time that Neovim waits for a key.
function Session:listen_to_all()
    local function on(events, pattern, call)
        api.nvim_create_autocmd(events, {
            group = self.group,
            pattern = pattern,
            callback = function(event) call(self.entries[event.buf ~= 0 and event.buf or api.nvim_get_current_buf()]) end,
        })
    end
    on("OptionSet", { "fileformat", "endofline", "fixendofline", "binary" }, function()
        for _, entry in pairs(self.entries) do
            self:flush_soon(entry)
        end
    end)
    on(NEW_STATE, "*", function(entry)
        if entry then self:flush_soon(entry) end
    end)
    on("BufFilePost", "*", function(entry)
        if not entry then return end
        self:close(entry)
        self:flush(entry.buffer)
    end)
end

-- Sends the changes once the command that made them is through: before that a buffer may be between two states.
function Session:flush_soon(entry)
    if entry.is_scheduled then return end
    entry.is_scheduled = true
    vim.schedule(function() self:flush_now(entry) end)
end

function Session:flush_scheduled()
    for _, entry in pairs(self.entries) do
        if entry.is_scheduled then self:flush_now(entry) end
    end
end

function Session:flush_now(entry)
    entry.is_scheduled = false
    if self.entries[entry.buffer] ~= entry then return end
    if entry.span and entry.is_open and not entry.is_behind and #entry.state.lines > (self.options.long or 5000) then
        self:flush_span(entry)
    else
        self:flush(entry.buffer)
    end
end

-- Sends the lines that Neovim reports as changed, and reads all of them once nothing was changed for a little while.
function Session:flush_span(entry)
    local state = text.read_span(entry.buffer, entry.state, entry.span)
    if not state then return self:flush(entry.buffer) end
    entry.span, entry.spans = nil, (entry.spans or 0) + 1
    if not text.is_same(entry.state, state) then self:attempt(entry, state, self.change) end
    local spans = entry.spans
    vim.defer_fn(function()
        if self.entries[entry.buffer] == entry and entry.spans == spans then self:flush(entry.buffer) end
    end, CHECK_AFTER)
end

-- Sends what changed in a buffer since the last time.
function Session:flush(buffer)
    local entry = self.entries[buffer]
    if not entry or not api.nvim_buf_is_loaded(buffer) then return end
    local state = text.read(buffer)
    entry.span = nil
    if not entry.is_open then
        self:attempt(entry, state, self.open)
    elseif entry.is_behind then
        self:attempt(entry, state, self.replace)
    elseif not text.is_same(entry.state, state) then
        self:attempt(entry, state, self.change)
    end
end

-- Makes one of the calls below, by which a document comes to a state. Where it is refused the server keeps the text that it has,
-- and the whole text is sent as soon as that is possible again.
function Session:attempt(entry, state, call)
    local name = vim.fn.fnamemodify(api.nvim_buf_get_name(entry.buffer), ":t")
    local version = math.max((entry.version or 0) + 1, api.nvim_buf_get_changedtick(entry.buffer))
    local is_done, result = pcall(call, self, entry, state, version)
    if is_done then
        if entry.problem then warn("%s is sent again", name) end
        entry.state, entry.version, entry.is_open, entry.is_behind, entry.problem = state, version, true, false, nil
        return self:send(result)
    end
    local code = type(result) == "table" and result.code or tostring(result)
    if code ~= entry.problem then warn("%s isn't sent: %s", name, WHY[code] or code) end
    entry.is_behind, entry.problem = true, code
end

function Session:open(entry, state, version)
    entry.uri = vim.uri_from_bufnr(entry.buffer)
    return self.ours:open(entry.uri, entry.language, version, text.whole(state))
end

function Session:change(entry, state, version)
    local position = function(offset) return self.ours:position(entry.uri, offset) end
    local found = text.difference(entry.state, state, function(offset) return (pcall(position, offset)) end)
    local range = { start = position(found.start), ["end"] = position(found.stop) }
    return self.ours:edit(entry.uri, version, { { range = range, text = found.text } })
end

function Session:replace(entry, state, version)
    return self.ours:edit(entry.uri, version, { { text = text.whole(state) } })
end

-- The server ends: nothing more is sent to it.
function Session:stop()
    self.entries = {}
    M.sessions[self.client.id] = nil
    vim.schedule(function() pcall(api.nvim_del_augroup_by_id, self.group) end)
end

return M
