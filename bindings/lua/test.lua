-- The test of the binding for Lua.
package.path = (arg[0]:match("^(.*)/") or ".") .. "/?.lua;" .. package.path
local laspidru = require("laspidru")
local Document, Client = laspidru.Document, laspidru.Client

local function at(line, character) return { line = line, character = character } end
local function change(start, end_, text) return { range = { start = start, ["end"] = end_ }, text = text } end
local function edit(start, end_, text) return { range = { start = start, ["end"] = end_ }, newText = text } end

local function equal(found, wanted)
    if found ~= wanted then error(("%s, and not %s"):format(tostring(found), tostring(wanted)), 2) end
end

local function refuses(code, call, ...)
    local is_done, problem = pcall(call, ...)
    if is_done then error("not refused: " .. code, 2) end
    if type(problem) ~= "table" then error(problem, 2) end
    equal(problem.code, code)
    return problem
end

local document = Document.new("a\r\nb\xf0\x9f\x98\x80")
equal(document:line_count(), 2)
equal(document:line(1), "b\xf0\x9f\x98\x80")
equal(document:offset(at(1, 3)), 8)
equal(document:position(8).character, 3)
document:change({ change(at(1, 0), at(1, 1), "XY"), change(at(0, 0), at(0, 0), "Q") })
equal(document:text(), "Qa\r\nXY\xf0\x9f\x98\x80")
local fault = refuses("INSIDE_CHARACTER", document.change, document, { change(at(0, 0), at(0, 0), "Z"), change(at(1, 2), at(1, 3), "") })
equal(fault.change, 1)
equal(fault.at_end, true)
equal(tostring(fault), "change at index 1: a position lies inside a character")
refuses("REVERSED_RANGE", document.change, document, { change(at(0, 1), at(0, 0), "") })
refuses("NOT_UTF8", document.change, document, { { text = "\xff" } })
refuses("OUT_OF_RANGE", document.line, document, 2)
for _, bad in ipairs({ -1, 0.5, 2 ^ 32, 0 / 0 }) do
    refuses("OUT_OF_RANGE", document.line, document, bad)
    refuses("OUT_OF_RANGE", document.offset, document, at(bad, 0))
end
equal(pcall(document.change, document, { { text = 1 } }), false)
refuses("BAD_ENCODING", Document.new, "a", "utf-7")
equal(document:text(), "Qa\r\nXY\xf0\x9f\x98\x80")
local formatted = Document.new("abc", "utf-8")
formatted:apply_edits({ edit(at(0, 0), at(0, 0), "1"), edit(at(0, 1), at(0, 2), "2") })
equal(formatted:text(), "1a2c")
fault = refuses("OVERLAP", formatted.apply_edits, formatted, { edit(at(0, 0), at(0, 2), ""), edit(at(0, 1), at(0, 3), "") })
equal(fault.other, 1)
equal(tostring(fault), "edits at the indexes 0 and 1: two edits overlap")
local batch = formatted:batch_of_edits({ edit(at(0, 0), at(0, 1), "x"), edit(at(0, 2), at(0, 3), "") })
equal(#batch .. batch[1].range.start.character .. batch[1].text .. batch[2].range["end"].character .. batch[2].text, "221x")
equal(#formatted:batch_of_edits({}), 0)
fault = refuses("OVERLAP", formatted.batch_of_edits, formatted, { edit(at(0, 0), at(0, 2), ""), edit(at(0, 1), at(0, 3), "") })
equal(fault.edit .. fault.other, "01")
equal(pcall(formatted.batch_of_edits, formatted, { { newText = "" } }), false)
equal(formatted:text(), "1a2c")
local canonical = formatted:canonical({ { text = "1a3c" } })
equal(#canonical, 1)
equal(canonical[1].range.start.character, 0)
formatted:close()
refuses("EMPTY", formatted.text, formatted)

local function framed(body) return ("Content-Length: %d\r\n\r\n%s"):format(#body, body) end
local ANSWERED = '{"jsonrpc":"2.0","id":1,"result":{"capabilities":{"positionEncoding":"utf-8","textDocumentSync":2}}}'

local client = Client.new({ utf8 = true })
equal(client:phase(), "new")
refuses("WRONG_PHASE", client.open, client, "a", "c", 1, "")
equal(client:start():match('^Content%-Length: %d+\r\n\r\n{"id":1,"jsonrpc":"2.0","method":"initialize"') ~= nil, true)
local stream, events = framed(ANSWERED) .. framed('{"jsonrpc":"2.0","method":"a"}'), {}
for index = 1, #stream do
    for _, event in ipairs(client:receive(stream:sub(index, index))) do events[#events + 1] = event end
end
equal(#events, 2)
equal(events[1].kind .. events[1].frame, "send" .. framed('{"jsonrpc":"2.0","method":"initialized","params":{}}'))
equal(events[2].kind .. events[2].body, 'ignored{"jsonrpc":"2.0","method":"a"}')
equal(client:phase() .. client:encoding(), "readyutf-8")
refuses("NOT_OPEN", client.edit, client, "a", 1, {})
client:open("a", "c", 1, "\xc3\xa9\nx")
refuses("ALREADY_OPEN", client.open, client, "a", "c", 1, "")
refuses("STALE_VERSION", client.edit, client, "a", 1, {})
fault = refuses("INSIDE_CHARACTER", client.edit, client, "a", 2, { change(at(0, 0), at(0, 1), "") })
equal(fault.change, 0)
refuses("OUT_OF_RANGE", client.open, client, "b", "c", 2 ^ 31, "")
equal(client:edit("a", 2, { change(at(1, 0), at(1, 1), "yz") }), framed('{"jsonrpc":"2.0","method":"textDocument/didChange",'
    .. '"params":{"contentChanges":[{"range":{"end":{"character":1,"line":1},"start":{"character":0,"line":1}},"text":"yz"}],'
    .. '"textDocument":{"uri":"a","version":2}}}'))
equal(client:text("a"), "\xc3\xa9\nyz")
equal(client:line("a", 0) .. client:line("a", 1), "\xc3\xa9yz")
equal(client:offset("a", at(1, 1)), 4)
equal(client:offset("a", at(0, 9)), 2)
equal(client:position("a", 5).line .. client:position("a", 5).character, "12")
equal(client:position("a", 2).line .. client:position("a", 2).character, "02")
refuses("INSIDE_CHARACTER", client.offset, client, "a", at(0, 1))
refuses("INSIDE_CHARACTER", client.position, client, "a", 1)
refuses("INSIDE_CHARACTER", client.position, client, "a", 6)
refuses("OUT_OF_RANGE", client.line, client, "a", 2)
refuses("OUT_OF_RANGE", client.position, client, "a", -1)
equal(client:line("b", 0) or client:offset("b", at(0, 0)) or client:position("b", 0), nil)
batch = client:batch_of_edits("a", { edit(at(1, 0), at(1, 1), "\xc3\xa9"), edit(at(0, 2), at(1, 0), "") })
equal(#batch .. batch[1].text .. batch[1].range["end"].character, "1\xc3\xa91")
refuses("NOT_OPEN", client.batch_of_edits, client, "b", {})
fault = refuses("INSIDE_CHARACTER", client.batch_of_edits, client, "a", { edit(at(0, 0), at(0, 1), "") })
equal(fault.edit .. tostring(fault.at_end), "0true")
equal(client:text("a"), "\xc3\xa9\nyz")
equal(client:version("a"), 2)
equal(client:version("b"), nil)
equal(client:document_count(), 1)
client:close("a")
equal(client:document_count(), 0)
client:shutdown()
equal(client:receive(framed('{"jsonrpc":"2.0","id":2,"result":null}'))[1].kind, "noted")
client:exit()
equal(client:phase(), "done")

local bad = Client.new()
bad:start()
fault = refuses("BAD_FRAME", bad.receive, bad, framed('{"jsonrpc":"2.0","method":"a"}') .. "Content-Length 2")
equal(#fault.events, 1)
equal(fault.offset, 52 + 14)
equal(fault.frame, 1)
refuses("FAILED", bad.receive, bad, "")
equal(bad:deliver("{").reason, "NOT_AN_ANSWER")
equal(bad:phase(), "failed")
equal(tostring(refuses("BAD_MAX_DOCS", Client.new, { max_docs = 0 })), "max_docs is out of its range, 1 to 65,536 documents")

for _, call in ipairs({ function() Client.new({ utf_8 = true }) end, function() laspidru.check("", { max_texts = 1 }) end }) do
    local is_done, problem = pcall(call)
    equal(not is_done and problem:match("^there is no option ") ~= nil, true)
end

-- What follows a message with which no session can continue is of no use.
local failed = Client.new()
failed:start()
events = failed:receive(framed("{") .. framed('{"jsonrpc":"2.0","method":"a"}'))
equal(#events, 1)
equal(events[1].kind .. events[1].reason .. failed:phase(), "bad-serverNOT_AN_ANSWERfailed")
equal(#failed:receive(""), 0)
refuses("WRONG_PHASE", failed.receive, failed, "C")

local free = Client.new({ lenient = true })
free:start()
free:receive(framed(ANSWERED:gsub("utf%-8", "utf-16")))
free:open("a", "c", 1, "x")
free:edit("a", 1, { change(at(0, 0), at(0, 0), "y") })
equal(free:text("a"), "yx")
free:open("a", "c", 0, "z")
equal(free:text("a") .. free:version("a") .. free:document_count(), "z01")

-- Random edits: the canonical messages, applied to a document of its own, leave the client's text.
local chance = 1
local function below(bound)
    chance = (chance * 1103515245 + 12345) % 2147483648
    return math.floor(chance / 256) % bound
end
local LETTERS = { "a", "\r", "\n", "\r\n", "\xc3\xa9", "\xe2\x80\xa8", "\xf0\x9f\x98\x80" }
local function some_text(most)
    local letters = {}
    for index = 1, below(most) do letters[index] = LETTERS[below(#LETTERS) + 1] end
    return table.concat(letters)
end
local function some_changes()
    local changes = {}
    for index = 1, below(4) do
        changes[index] = below(8) == 0 and { text = some_text(4) }
            or change(at(below(4), below(6)), at(below(4), below(6)), some_text(4))
    end
    return changes
end

-- logs
local log_path = (arg[0]:match("^(.*)/") or ".") .. "/../../examples/stale-version.log"
local function log_file() return assert(io.open(log_path, "rb")) end
local checked, counts = laspidru.check(log_file())
equal(checked, "1 reply\n2 changed\n3 refused S5\n4 refused S4\n5 changed\n")
equal(counts.status .. " " .. counts.messages .. " " .. counts.refused, "1 5 2")
equal(laspidru.check(log_file(), { explain = true }):match("^1 reply\n2 changed\n3 refused S5 of ") ~= nil, true)
equal(laspidru.check(log_file(), { brief = true }):match("^3 refused S5 of ") ~= nil, true)
local compared, same = laspidru.compare(log_file(), "aXc")
equal(compared .. same.status, "\"file:///a\" after message 5: the text is the file's\n0")
local differing, other = laspidru.compare(log_file(), "abc", { uri = "/a" })
equal(differing:match('line 1 %(made by message 5%): "aXc"') ~= nil and other.status, 1)
refuses("NOT_OPEN", laspidru.compare, log_file(), "abc", { uri = "/b" })
refuses("NOT_UTF8", laspidru.compare, log_file(), "\255")
equal(#laspidru.trace(log_file(), { bodies = true }) > #laspidru.trace(log_file()), true)
equal((laspidru.replay(log_file(), { uri = "file:///a" })), "aXc")
equal((laspidru.replay(log_file(), { uri = "file:///a", at = 2 })), "abc")
refuses("NOT_OPEN", laspidru.replay, log_file(), { uri = "file:///none" })
refuses("OUT_OF_RANGE", laspidru.replay, log_file(), { at = 9 })
equal(refuses("BAD_FRAME", laspidru.normalise, "Content-Length 2").offset, 14)
equal(laspidru.message_uri('{"jsonrpc":"2.0","method":"textDocument/didClose","params":{"textDocument":{"uri":"a"}}}'), "a")
equal(laspidru.message_uri("{}"), nil)
equal(laspidru.version, "0.1.0")
equal(laspidru.WHY.STALE_VERSION, "the version is not greater than the current one")

local function session()
    local editor = Client.new()
    editor:start()
    editor:receive(framed(ANSWERED:gsub("utf%-8", "utf-16")))
    local text = some_text(12)
    editor:open("a", "c", 0, text)
    local copy, version = Document.new(text), 0
    for _ = 1, 20 do
        local changes = some_changes()
        local is_done = pcall(editor.edit, editor, "a", version + 1, changes)
        equal(is_done, (pcall(copy.change, copy, changes)))
        if is_done then version = version + 1 end
        equal(editor:text("a"), copy:text())
        equal(editor:version("a"), version)
    end
end
for _ = 1, tonumber(os.getenv("LASPIDRU_SESSIONS") or 200) do session() end
collectgarbage()
print("passed")
