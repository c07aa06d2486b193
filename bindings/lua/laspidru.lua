-- Texts that are kept as LSP 3.17 says, and a client's end of a session, by a library that is proved (docs/lua.md).
-- For LuaJIT, as Neovim has it. LASPIDRU_LIBRARY names the shared library, or it is beside this file, or the loader finds it.
local has_ffi, ffi = pcall(require, "ffi")
if not has_ffi then error("laspidru needs LuaJIT, as Neovim has it, and this is " .. _VERSION, 0) end

ffi.cdef([[ // declared: by tools/declared
typedef struct { void *pointer; bool is_full; } laspidru_handle;
typedef struct { uint32_t line, character; } laspidru_position;
typedef struct { laspidru_position start, end; size_t len; bool is_whole; } laspidru_edit;
typedef struct { size_t change; bool at_end; } laspidru_fault;
typedef struct { size_t edit, other; bool at_end; } laspidru_edits_fault;
typedef struct { size_t start, end; } laspidru_line;
typedef struct { size_t bytes, lines; } laspidru_length;
typedef struct { size_t max_body, max_text, max_docs, max_changes; uint32_t encoding; bool is_fixed, whole_texts, lenient;
    } laspidru_settings;
typedef struct { uint32_t kind, reason, status; int32_t error; size_t reply_len; } laspidru_answer;
typedef struct { size_t bytes, body_len; uint64_t offset; uint32_t frame; bool is_whole; } laspidru_taken;
typedef struct { size_t max_body, max_text, max_docs, max_changes; bool utf8, utf32, lenient; } laspidru_client_settings;
typedef struct { uint32_t phase, reason, encoding; size_t documents; } laspidru_state;
typedef struct { int32_t version; size_t bytes; } laspidru_opened;
typedef struct { size_t max_body, max_text, max_docs, max_changes; uint64_t at; uint32_t encoding; bool lenient, squash,
    documents, texts, bodies, has_uri, brief, all; } laspidru_log_settings;
typedef struct { uint32_t status, frame, missing; uint64_t messages, refused, offset; size_t output_len; } laspidru_ending;
uint32_t laspidru_version(void);
uint32_t laspidru_code_text(uint32_t code, size_t start, unsigned char *out, size_t out_len, size_t *copied);
uint32_t laspidru_document_new(laspidru_handle *document, const unsigned char *text, size_t text_len);
void laspidru_handle_free(laspidru_handle *handle);
uint32_t laspidru_document_change(laspidru_handle *document, uint32_t encoding, const laspidru_edit *edits, size_t edits_len,
    const unsigned char *texts, size_t texts_len, laspidru_fault *fault);
uint32_t laspidru_document_size(laspidru_handle *document, laspidru_length *length);
uint32_t laspidru_document_line(laspidru_handle *document, uint32_t line, laspidru_line *range);
uint32_t laspidru_document_copy(laspidru_handle *document, size_t start, unsigned char *out, size_t out_len, size_t *copied);
uint32_t laspidru_document_offset(laspidru_handle *document, uint32_t encoding, laspidru_position position, size_t *offset);
uint32_t laspidru_document_position(laspidru_handle *document, uint32_t encoding, size_t offset, laspidru_position *position);
uint32_t laspidru_document_canonical(laspidru_handle *document, uint32_t encoding, const laspidru_edit *edits, size_t edits_len,
    const unsigned char *texts, size_t texts_len, laspidru_handle *batch, laspidru_fault *fault);
uint32_t laspidru_document_apply_edits(laspidru_handle *document, uint32_t encoding, const laspidru_edit *edits, size_t edits_len,
    const unsigned char *texts, size_t texts_len, laspidru_edits_fault *fault);
uint32_t laspidru_document_batch_of_edits(laspidru_handle *document, uint32_t encoding, const laspidru_edit *edits,
    size_t edits_len, const unsigned char *texts, size_t texts_len, laspidru_handle *batch, laspidru_edits_fault *fault);
uint32_t laspidru_batch_len(laspidru_handle *batch, size_t *len);
uint32_t laspidru_batch_edit(laspidru_handle *batch, size_t index, laspidru_edit *edit, unsigned char *out, size_t out_len,
    size_t *copied);
uint32_t laspidru_framer_new(laspidru_handle *framer, size_t max_body);
uint32_t laspidru_framer_feed(laspidru_handle *framer, const unsigned char *piece, size_t piece_len, laspidru_taken *taken);
uint32_t laspidru_framer_body(laspidru_handle *framer, size_t start, unsigned char *out, size_t out_len, size_t *copied);
uint32_t laspidru_framer_next(laspidru_handle *framer);
uint32_t laspidru_framer_at_rest(laspidru_handle *framer, bool *at_rest);
uint32_t laspidru_server_new(laspidru_handle *server, const laspidru_settings *settings);
uint32_t laspidru_client_new(laspidru_handle *client, const laspidru_client_settings *settings);
uint32_t laspidru_client_start(laspidru_handle *client, size_t *frame_len);
uint32_t laspidru_client_did_open(laspidru_handle *client, const unsigned char *uri, size_t uri_len,
    const unsigned char *language, size_t language_len, int32_t version, const unsigned char *text, size_t text_len,
    size_t *frame_len);
uint32_t laspidru_client_did_change(laspidru_handle *client, const unsigned char *uri, size_t uri_len, int32_t version,
    const laspidru_edit *edits, size_t edits_len, const unsigned char *texts, size_t texts_len, laspidru_fault *fault,
    size_t *frame_len);
uint32_t laspidru_client_did_close(laspidru_handle *client, const unsigned char *uri, size_t uri_len, size_t *frame_len);
uint32_t laspidru_client_shutdown(laspidru_handle *client, size_t *frame_len);
uint32_t laspidru_client_exit(laspidru_handle *client, size_t *frame_len);
uint32_t laspidru_session_feed(laspidru_handle *session, const unsigned char *piece, size_t piece_len, laspidru_taken *taken,
    laspidru_answer *answer);
uint32_t laspidru_session_body(laspidru_handle *session, size_t start, unsigned char *out, size_t out_len, size_t *copied);
uint32_t laspidru_session_deliver(laspidru_handle *session, const unsigned char *body, size_t body_len, laspidru_answer *answer);
uint32_t laspidru_session_frame(laspidru_handle *session, size_t start, unsigned char *out, size_t out_len, size_t *copied);
uint32_t laspidru_session_state(laspidru_handle *session, laspidru_state *state);
uint32_t laspidru_message_uri(const unsigned char *body, size_t body_len, size_t start, unsigned char *out, size_t out_len,
    size_t *copied);
uint32_t laspidru_session_document_state(laspidru_handle *session, const unsigned char *uri, size_t uri_len,
    laspidru_opened *document);
uint32_t laspidru_session_document_text(laspidru_handle *session, const unsigned char *uri, size_t uri_len, size_t start,
    unsigned char *out, size_t out_len, size_t *copied);
uint32_t laspidru_session_document_offset(laspidru_handle *session, const unsigned char *uri, size_t uri_len, uint32_t encoding,
    laspidru_position position, size_t *offset);
uint32_t laspidru_session_document_position(laspidru_handle *session, const unsigned char *uri, size_t uri_len, uint32_t encoding,
    size_t offset, laspidru_position *position);
uint32_t laspidru_session_document_line(laspidru_handle *session, const unsigned char *uri, size_t uri_len, uint32_t line,
    laspidru_line *range);
uint32_t laspidru_session_document_batch_of_edits(laspidru_handle *session, const unsigned char *uri, size_t uri_len,
    uint32_t encoding, const laspidru_edit *edits, size_t edits_len, const unsigned char *texts, size_t texts_len,
    laspidru_handle *batch, laspidru_edits_fault *fault);
uint32_t laspidru_session_document_canonical_message(laspidru_handle *session, const unsigned char *uri, size_t uri_len,
    int32_t version, uint32_t encoding, const laspidru_edit *edits, size_t edits_len, const unsigned char *texts,
    size_t texts_len, laspidru_handle *output, laspidru_fault *fault, size_t *frame_len);
uint32_t laspidru_log_run(laspidru_handle *output, uint32_t command, const laspidru_log_settings *settings,
    const unsigned char *uri, size_t uri_len, const unsigned char *log, size_t log_len, laspidru_ending *ending);
uint32_t laspidru_log_compare(laspidru_handle *output, const laspidru_log_settings *settings, const unsigned char *uri,
    size_t uri_len, const unsigned char *saved, size_t saved_len, const unsigned char *log, size_t log_len,
    laspidru_ending *ending);
uint32_t laspidru_output_copy(laspidru_handle *output, size_t start, unsigned char *out, size_t out_len, size_t *copied);
// end of declared
]])

-- How systems name the library: for the loader, and beside this file for several processors
local LOADED = ({ Windows = "laspidru.dll", OSX = "liblaspidru.dylib" })[ffi.os] or "laspidru.so.0"
local ENDING = ({ Windows = "dll", OSX = "dylib" })[ffi.os] or "so"

-- The library's path: the one that LASPIDRU_LIBRARY names, or the one beside this file, or a name that the loader searches for.
local function path_of_library()
    local folder = debug.getinfo(1, "S").source:match("^@(.*[/\\])") or "./"
    for _, name in ipairs({ ("laspidru-%s-%s.%s"):format(ffi.os, ffi.arch, ENDING), "liblaspidru.so.0" }) do
        local file = io.open(folder .. name, "rb")
        if file then
            file:close()
            return os.getenv("LASPIDRU_LIBRARY") or folder .. name
        end
    end
    return os.getenv("LASPIDRU_LIBRARY") or LOADED
end

-- Why the library can't be loaded, in a sentence. `problem` is what the loader says.
local function why(problem)
    if not (ffi.arch == "x64" or ffi.arch == "arm64") or not ({ Linux = 1, OSX = 1, Windows = 1 })[ffi.os] then
        return "laspidru's library is for Linux, macOS and Windows on x64 and arm64, and this is " .. ffi.os .. " on " .. ffi.arch
    end
    local needed = problem:match("GLIBC_([0-9.]+)' not found")
    if needed then return "laspidru's library needs glibc " .. needed .. " or newer, and this C library is older" end
    return "laspidru's library can't be loaded (" .. problem .. "); LASPIDRU_LIBRARY names it if it is elsewhere"
end

local is_loaded, C = pcall(ffi.load, path_of_library())
if not is_loaded then error(why(C), 0) end
local ENCODINGS = { ["utf-8"] = 8, ["utf-16"] = 16, ["utf-32"] = 32 }
local NAMES = { [8] = "utf-8", [16] = "utf-16", [32] = "utf-32" }
local PHASES = { [0] = "new", "asked", "ready", "closing", "closed", "done", "failed" }
local KINDS = { [0] = "send", [3] = "ignored", [6] = "noted", [7] = "bad-server" }

-- The name of each code, by its number, and what it means, by its name: as the library says it
local CODES, WHY = {}, {}
do
    local out, count, code = ffi.new("unsigned char[120]"), ffi.new("size_t[1]"), 0
    while C.laspidru_code_text(code, 0, out, 120, count) == 0 do
        local name, why_ = ffi.string(out, count[0]):match("^(.-): (.*)$")
        CODES[code], WHY[name], code = name, why_, code + 1
    end
end
local function is(code, ...)
    for _, name in ipairs({ ... }) do
        if CODES[code] == name then return true end
    end
    return false
end

-- What a refused call raises: a table with `code`, the name of the code, and `why`; where a change or a text edit is faulty with `change`,
-- `edit`, `other`, `at_end`; of a faulty frame, and of a log, with `frame` and `offset`. It changed nothing.
local Refusal = {}
Refusal.__index = Refusal
function Refusal.__tostring(self)
    local where = self.change and "change at index " .. self.change .. ": "
        or self.other and "edits at the indexes " .. self.edit .. " and " .. self.other .. ": "
        or self.edit and "edit at index " .. self.edit .. ": " or ""
    return where .. self.why
end

local function refuse(name, more)
    more = more or {}
    more.code, more.why = name, WHY[name]
    error(setmetatable(more, Refusal), 0)
end

local function demand(code)
    if code ~= 0 then refuse(CODES[code]) end
end

local function text_of(value, what)
    if type(value) ~= "string" then error(what .. " is no string", 0) end
    return value
end

-- A number that has so many values. The FFI would take any, and drop bits.
local function number(value, low, high, name)
    if type(value) ~= "number" then error("a number is no number", 0) end
    if value < low or value > high or value % 1 ~= 0 then refuse(name or "OUT_OF_RANGE") end
    return value
end

local function uint(value) return number(value, 0, 4294967295) end

local function encoding_of(name)
    return ENCODINGS[name] or refuse("BAD_ENCODING")
end

-- A handle, which the collector closes.
local function new_handle()
    return ffi.gc(ffi.new("laspidru_handle"), C.laspidru_handle_free)
end

-- So many bytes that a call copies.
local function copied(call, len)
    local out, count = ffi.new("unsigned char[?]", math.max(len, 1)), ffi.new("size_t[1]")
    demand(call(out, len, count))
    return ffi.string(out, count[0])
end

-- Changes or text edits as the library takes them. Each edit counts bytes of `texts`, one after the other.
local function batch(changes, key)
    local edits, texts = ffi.new("laspidru_edit[?]", math.max(#changes, 1)), {}
    for index, change in ipairs(changes) do
        local edit, range = edits[index - 1], change.range
        texts[index] = text_of(change[key], "a text")
        edit.len, edit.is_whole = #texts[index], range == nil
        if range then
            edit.start.line, edit.start.character = uint(range.start.line), uint(range.start.character)
            edit["end"].line, edit["end"].character = uint(range["end"].line), uint(range["end"].character)
        end
    end
    return edits, #changes, table.concat(texts)
end

local function demand_change(code, fault)
    if is(code, "INSIDE_CHARACTER", "REVERSED_RANGE") then refuse(CODES[code], { change = tonumber(fault.change), at_end = fault.at_end }) end
    demand(code)
end

local function batch_of_text_edits(edits)
    for _, edit in ipairs(edits) do
        if not edit.range then error("a text edit has no range", 0) end
    end
    return batch(edits, "newText")
end

local function demand_edits(code, fault)
    if is(code, "INSIDE_CHARACTER", "REVERSED_RANGE", "OVERLAP") then
        local other = is(code, "OVERLAP") and tonumber(fault.other) or nil
        refuse(CODES[code], { edit = tonumber(fault.edit), other = other, at_end = fault.at_end })
    end
    demand(code)
end

local function written(edit, text)
    if edit.is_whole then return { text = text } end
    return {
        range = {
            start = { line = edit.start.line, character = edit.start.character },
            ["end"] = { line = edit["end"].line, character = edit["end"].character },
        },
        text = text,
    }
end

local function changes_of(found)
    local count, out = ffi.new("size_t[1]"), {}
    demand(C.laspidru_batch_len(found, count))
    for index = 1, tonumber(count[0]) do
        local edit = ffi.new("laspidru_edit")
        demand(C.laspidru_batch_edit(found, index - 1, edit, ffi.new("unsigned char[1]"), 0, ffi.new("size_t[1]")))
        local text = copied(function(...) return C.laspidru_batch_edit(found, index - 1, edit, ...) end, tonumber(edit.len))
        out[index] = written(edit, text)
    end
    return out
end

-- A text with its lines. Positions are LSP's: tables with `line` and `character`, counted from 0.
local Document = {}
Document.__index = Document

-- A document of a text; positions count units of `encoding`, "utf-16" if none is given.
function Document.new(text, encoding)
    local self = setmetatable({ handle = new_handle(), encoding = encoding_of(encoding or "utf-16") }, Document)
    demand(C.laspidru_document_new(self.handle, text_of(text, "a text"), #text))
    return self
end

local function length_of(self)
    local length = ffi.new("laspidru_length")
    demand(C.laspidru_document_size(self.handle, length))
    return length
end

function Document:text()
    local handle = self.handle
    return copied(function(...) return C.laspidru_document_copy(handle, 0, ...) end, tonumber(length_of(self).bytes))
end

function Document:line_count()
    return tonumber(length_of(self).lines)
end

-- A line, counted from 0, without its line end. The rest of the text is not read.
function Document:line(line)
    local handle, range = self.handle, ffi.new("laspidru_line")
    demand(C.laspidru_document_line(handle, uint(line), range))
    local len = tonumber(range["end"] - range.start)
    return copied(function(...) return C.laspidru_document_copy(handle, range.start, ...) end, len)
end

-- Makes the changes of a didChange, in order, or raises and makes none of them.
function Document:change(changes)
    local edits, count, texts = batch(changes, "text")
    local fault = ffi.new("laspidru_fault")
    demand_change(C.laspidru_document_change(self.handle, self.encoding, edits, count, texts, #texts, fault), fault)
end

-- Makes text edits, as a formatter returns them, or none of them. All count in the text as it is.
function Document:apply_edits(edits_)
    local edits, count, texts = batch_of_text_edits(edits_)
    local fault = ffi.new("laspidru_edits_fault")
    demand_edits(C.laspidru_document_apply_edits(self.handle, self.encoding, edits, count, texts, #texts, fault), fault)
end

-- The canonical batch of what text edits mean: the changes of the didChange that reports them. The text stays as it is.
function Document:batch_of_edits(edits_)
    local edits, count, texts = batch_of_text_edits(edits_)
    local found, fault = new_handle(), ffi.new("laspidru_edits_fault")
    demand_edits(C.laspidru_document_batch_of_edits(self.handle, self.encoding, edits, count, texts, #texts, found, fault), fault)
    return changes_of(found)
end

-- The one canonical batch that means the same on the text.
function Document:canonical(changes)
    local edits, count, texts = batch(changes, "text")
    local found, fault = new_handle(), ffi.new("laspidru_fault")
    demand_change(C.laspidru_document_canonical(self.handle, self.encoding, edits, count, texts, #texts, found, fault), fault)
    return changes_of(found)
end

-- The byte offset, counted from 0, of a position. One after the line's end is the line's end.
function Document:offset(position)
    local place, offset = ffi.new("laspidru_position", uint(position.line), uint(position.character)), ffi.new("size_t[1]")
    demand(C.laspidru_document_offset(self.handle, self.encoding, place, offset))
    return tonumber(offset[0])
end

-- The exact position of a byte offset.
function Document:position(offset)
    local place = ffi.new("laspidru_position")
    demand(C.laspidru_document_position(self.handle, self.encoding, number(offset, 0, 2 ^ 53), place))
    return { line = place.line, character = place.character }
end

-- Frees the text at once; else the collector does. Each later call raises EMPTY.
function Document:close()
    C.laspidru_handle_free(self.handle)
end

-- A client's end of a session, without input and output of its own: each call returns the bytes to send.
local Client = {}
Client.__index = Client

local LIMITS = { max_body = 16777216, max_text = 16777216, max_docs = 1024, max_changes = 65536 }

-- Settings with the limits of options, which may be lenient, and may have these others.
local function with_limits(settings, options, others)
    for name in pairs(options) do
        if not LIMITS[name] and name ~= "lenient" and not (" " .. others .. " "):find(" " .. tostring(name) .. " ", 1, true) then
            error("there is no option " .. tostring(name), 0)
        end
    end
    for name, default in pairs(LIMITS) do
        settings[name] = number(options[name] or default, 0, 2 ^ 53, "BAD_" .. name:upper())
    end
    settings.lenient = options.lenient and true or false
    return settings
end

-- Options are `utf8`, `utf32` (what it offers beside UTF-16, always in the order utf-8, utf-16, utf-32, which LSP reads as
-- a preference), `max_body`, `max_text`, `max_docs`, `max_changes`, and `lenient`: an edit of any version is taken, and an
-- open document may be opened again.
function Client.new(options)
    options = options or {}
    local self = setmetatable({ handle = new_handle(), rest = "" }, Client)
    local settings = with_limits(ffi.new("laspidru_client_settings"), options, "utf8 utf32")
    settings.utf8, settings.utf32 = options.utf8 and true or false, options.utf32 and true or false
    demand(C.laspidru_client_new(self.handle, settings))
    return self
end

local function frame_of(self, len)
    local handle = self.handle
    return copied(function(...) return C.laspidru_session_frame(handle, 0, ...) end, tonumber(len))
end

local function call(self, code, len)
    demand(code)
    return frame_of(self, len[0])
end

-- Begins the session: `initialize`.
function Client:start()
    local len = ffi.new("size_t[1]")
    return call(self, C.laspidru_client_start(self.handle, len), len)
end

-- Opens a document: `textDocument/didOpen`.
function Client:open(uri, language, version, text)
    local len = ffi.new("size_t[1]")
    text_of(uri, "a URI")
    text_of(language, "a language")
    text_of(text, "a text")
    number(version, -2147483648, 2147483647)
    return call(self, C.laspidru_client_did_open(self.handle, uri, #uri, language, #language, version, text, #text, len), len)
end

-- Changes a document: one `textDocument/didChange`, with the canonical batch, or where the server asked for it with the whole text.
function Client:edit(uri, version, changes)
    local edits, count, texts = batch(changes, "text")
    local fault, len = ffi.new("laspidru_fault"), ffi.new("size_t[1]")
    text_of(uri, "a URI")
    number(version, -2147483648, 2147483647)
    demand_change(C.laspidru_client_did_change(self.handle, uri, #uri, version, edits, count, texts, #texts, fault, len), fault)
    return frame_of(self, len[0])
end

-- Closes a document: `textDocument/didClose`.
function Client:close(uri)
    local len = ffi.new("size_t[1]")
    return call(self, C.laspidru_client_did_close(self.handle, text_of(uri, "a URI"), #uri, len), len)
end

-- Asks the server to shut down.
function Client:shutdown()
    local len = ffi.new("size_t[1]")
    return call(self, C.laspidru_client_shutdown(self.handle, len), len)
end

-- Ends the session, once `shutdown` was answered.
function Client:exit()
    local len = ffi.new("size_t[1]")
    return call(self, C.laspidru_client_exit(self.handle, len), len)
end

-- What the client did with a message.
local function event_of(self, answer, body)
    local event = { kind = KINDS[answer.kind], body = body }
    if event.kind == "send" then event.frame = frame_of(self, answer.reply_len) end
    if event.kind == "bad-server" then event.reason, event.why = CODES[answer.reason], WHY[CODES[answer.reason]] end
    return event
end

-- What the client does with the body of a message of the server: {kind, body}, with `frame` where kind is "send", and with `reason` and
-- `why` where it is "bad-server". The others are "noted" and "ignored".
function Client:deliver(body)
    local answer = ffi.new("laspidru_answer")
    demand(C.laspidru_session_deliver(self.handle, text_of(body, "a body"), #body, answer))
    return event_of(self, answer, body)
end

-- What the client did with the next message of what was received, or nil where the rest of it is to come. `last` is what it did with
-- the message before, if there was one.
local function next_event(self, last)
    local handle, taken, answer = self.handle, ffi.new("laspidru_taken"), ffi.new("laspidru_answer")
    local code, has_rest = C.laspidru_session_feed(handle, self.rest, #self.rest, taken, answer), self.rest ~= ""
    -- Of a stream that is refused no more is taken.
    self.rest = is(code, "OK", "OUT_OF_MEMORY") and self.rest:sub(tonumber(taken.bytes) + 1) or ""
    if is(code, "BAD_FRAME") then refuse("BAD_FRAME", { frame = taken.frame, offset = tonumber(taken.offset) }) end
    -- A client that listens no more has no use for what follows.
    if is(code, "WRONG_PHASE") and (last or not has_rest) then return nil end
    demand(code)
    if not taken.is_whole then return nil end
    return event_of(self, answer, copied(function(...) return C.laspidru_session_body(handle, 0, ...) end, tonumber(taken.body_len)))
end

-- What the client does with each message that ends in these bytes, as `deliver` says it: a list of events, once all are handled. They
-- change no document: the client's own calls do. Of a faulty frame the error's `events` came before it.
function Client:receive(bytes)
    local events = {}
    self.rest = self.rest .. text_of(bytes, "what is received")
    local is_done, problem = pcall(function()
        for event in next_event, self do events[#events + 1] = event end
    end)
    if not is_done then
        if type(problem) == "table" then problem.events = events end
        error(problem, 0)
    end
    return events
end

local function state_of(self)
    local state = ffi.new("laspidru_state")
    demand(C.laspidru_session_state(self.handle, state))
    return state
end

-- "new", "asked", "ready", "closing", "closed", "done" or "failed".
function Client:phase()
    return PHASES[state_of(self).phase]
end

-- The encoding that was agreed on, or nil.
function Client:encoding()
    return NAMES[state_of(self).encoding]
end

function Client:document_count()
    return tonumber(state_of(self).documents)
end

-- Whether a call found its document open. Another refusal is raised.
local function is_open(code)
    if not is(code, "NOT_OPEN") then demand(code) end
    return code == 0
end

local function opened_at(self, uri)
    local opened = ffi.new("laspidru_opened")
    return is_open(C.laspidru_session_document_state(self.handle, text_of(uri, "a URI"), #uri, opened)) and opened or nil
end

-- The version of the open document of a URI, or nil.
function Client:version(uri)
    local opened = opened_at(self, uri)
    return opened and opened.version
end

-- The text of the open document of a URI, or nil.
function Client:text(uri)
    local opened, handle = opened_at(self, uri), self.handle
    if not opened then return nil end
    return copied(function(...) return C.laspidru_session_document_text(handle, uri, #uri, 0, ...) end, tonumber(opened.bytes))
end

-- A line, counted from 0, of the open document of a URI, without its line end, or nil. The rest of the text is not read.
function Client:line(uri, line)
    local handle, range = self.handle, ffi.new("laspidru_line")
    if not is_open(C.laspidru_session_document_line(handle, text_of(uri, "a URI"), #uri, uint(line), range)) then return nil end
    local len = tonumber(range["end"] - range.start)
    return copied(function(...) return C.laspidru_session_document_text(handle, uri, #uri, range.start, ...) end, len)
end

-- The number of the encoding that was agreed on; of UTF-16 before.
local function units_of(self)
    local units = state_of(self).encoding
    return units > 0 and units or ENCODINGS["utf-16"]
end

-- The byte offset, counted from 0, of a position in the open document of a URI, or nil. One after the line's end is the line's end.
function Client:offset(uri, position)
    local place, offset = ffi.new("laspidru_position", uint(position.line), uint(position.character)), ffi.new("size_t[1]")
    local code = C.laspidru_session_document_offset(self.handle, text_of(uri, "a URI"), #uri, units_of(self), place, offset)
    return is_open(code) and tonumber(offset[0]) or nil
end

-- The exact position of a byte offset in the open document of a URI, or nil.
function Client:position(uri, offset)
    local place, at = ffi.new("laspidru_position"), number(offset, 0, 2 ^ 53)
    local code = C.laspidru_session_document_position(self.handle, text_of(uri, "a URI"), #uri, units_of(self), at, place)
    if not is_open(code) then return nil end
    return { line = place.line, character = place.character }
end

-- The canonical batch of what text edits mean on the open document of a URI: the changes for `edit`. The document stays as it is.
function Client:batch_of_edits(uri, edits_)
    local edits, count, texts = batch_of_text_edits(edits_)
    local handle, found, fault = self.handle, new_handle(), ffi.new("laspidru_edits_fault")
    text_of(uri, "a URI")
    local code = C.laspidru_session_document_batch_of_edits(handle, uri, #uri, units_of(self), edits, count, texts, #texts, found, fault)
    demand_edits(code, fault)
    return changes_of(found)
end

-- The bytes of a log: they themselves, or what is left of a file that is open.
local function bytes_of(log)
    return type(log) == "string" and log or log:read("*a")
end

local OPTIONS = "encoding explain brief all texts bodies at uri squash documents"
local COMMANDS = { check = 0, explain = 1, trace = 2, replay = 3, normalise = 4, convert = 5 }

-- Runs a command of lspsync on a log: what it wrote, and {status, messages, refused}. Options are lspsync's:
-- `encoding`, the four limits, `lenient`; `explain`, `brief` and `all` of check, `texts` and `bodies` of trace, `at` and
-- `uri` of replay, `uri` of compare, `squash` and `documents` of normalise. `saved` is the text that compare compares.
local function run(name, log, options, saved)
    options = options or {}
    local settings = with_limits(ffi.new("laspidru_log_settings"), options, OPTIONS)
    local ending = ffi.new("laspidru_ending")
    for _, flag in ipairs({ "squash", "documents", "texts", "bodies", "brief", "all" }) do settings[flag] = options[flag] and true or false end
    settings.encoding, settings.has_uri = encoding_of(options.encoding or "utf-16"), options.uri ~= nil
    settings.at = options.at and number(options.at, 1, 2 ^ 53) or 0
    local data, uri, output = bytes_of(log), text_of(options.uri or "", "a URI"), new_handle()
    local code
    if saved then
        code = C.laspidru_log_compare(output, settings, uri, #uri, saved, #saved, data, #data, ending)
    else
        local command = COMMANDS[(options.explain or options.brief or options.all) and "explain" or name]
        code = C.laspidru_log_run(output, command, settings, uri, #uri, data, #data, ending)
    end
    if not output.is_full then demand(code) end
    local written_ = copied(function(...) return C.laspidru_output_copy(output, 0, ...) end, tonumber(ending.output_len))
    if code ~= 0 then refuse(CODES[code], { offset = tonumber(ending.offset), frame = ending.frame, output = written_ }) end
    demand(ending.missing)
    return written_, { status = ending.status, messages = tonumber(ending.messages), refused = tonumber(ending.refused) }
end

-- The document that the body of a message opens, changes or closes, or nil.
local function message_uri(body)
    local out, count = ffi.new("unsigned char[?]", math.max(#text_of(body, "a body"), 1)), ffi.new("size_t[1]")
    local code = C.laspidru_message_uri(body, #body, 0, out, #body, count)
    if is(code, "NO_DOCUMENT") then return nil end
    demand(code)
    return ffi.string(out, count[0])
end

local number_ = C.laspidru_version()
local module = {
    Document = Document, Client = Client, WHY = WHY, message_uri = message_uri,
    version = ("%d.%d.%d"):format(number_ / 10000, number_ / 100 % 100, number_ % 100),
}
for _, name in ipairs({ "check", "trace", "replay", "normalise", "convert" }) do
    module[name] = function(log, options) return run(name, log, options) end
end
-- The same of compare, with the text of a document as its editor saved it: a string, or a file that is open.
function module.compare(log, saved, options) return run("compare", log, options, bytes_of(saved)) end
return module
