"""The logs that editors and servers write by themselves, read as messages: what log-from knows. A class a form.

bindings/node/log-from.js reads the same forms, and bin/test compares what both make."""
import ast
import json
import re
import warnings

from session_log import EDITOR, SERVER, Fault

CHANGE = "textDocument/didChange"
DOCUMENTS = ("textDocument/didOpen", CHANGE, "textDocument/didClose")

# Flags: `^` is each line's start, or `.` is any character; digits and letters are those of ASCII
BY_LINE, ANY = re.MULTILINE | re.ASCII, re.DOTALL | re.ASCII

# The decimal digits that a number keeps in Lua's print
LUA_DIGITS = 14


class Unknown(Fault):
    """No form begins so."""

    status = 6


class Message:
    """A message: who sent it, the line that it begins in, its value, and its JSON. `stream` names the server where lines do."""

    def __init__(self, line, sender, value, body, stream=None):
        self.line, self.sender, self.value, self.body, self.stream = line, sender, value, body, stream
        method = value.get("method")
        self.method = method if isinstance(method, str) else None

    def is_of_document(self):
        """Returns whether the editor opened, changed or closed a document by the message."""
        return self.sender == EDITOR and self.method in DOCUMENTS

    def uri(self):
        """Returns the URI of the document that the message is of, or None."""
        params = self.value.get("params")
        document = params.get("textDocument") if isinstance(params, dict) else None
        return document.get("uri") if isinstance(document, dict) else None


def ended(line):
    """What stands for the end of all that wrote into a log."""
    return Message(line, None, {}, "")


# JSON


def no_constant(word):
    raise ValueError("%s is no JSON" % word)


DECODER = json.JSONDecoder(parse_constant=no_constant)


def json_at(text, at, line):
    """Returns the value at an offset, its text, and the offset after it."""
    try:
        value, end = DECODER.raw_decode(text, at)
    except RecursionError:
        raise Fault("line %d: it nests too deep" % line) from None
    except ValueError as error:
        raise Fault("line %d: the message isn't whole: %s" % (line, getattr(error, "msg", error))) from None
    return value, text[at:end], end


def message_at(text, at, line, sender, stream=None):
    """Returns the message whose JSON is at an offset."""
    value, body, _ = json_at(text, at, line)
    if not isinstance(value, dict):
        raise Fault("line %d: the message is no JSON object" % line)
    return Message(line, sender, value, body, stream)


# Half characters, but for those that stand for bytes which are no UTF-8
HALVES = re.compile("[\ud800-\udc7f\udd00-\udfff]")


def written(line, sender, value, stream=None):
    """Returns a message whose JSON isn't in the log."""
    try:
        body = json.dumps(value, ensure_ascii=False, allow_nan=False, separators=(",", ":"))
    except RecursionError:
        raise Fault("line %d: it nests too deep" % line) from None
    except (TypeError, ValueError):
        raise Fault("line %d: JSON has no such value" % line) from None
    return Message(line, sender, value, HALVES.sub(lambda half: "\\u%04x" % ord(half[0]), body), stream)


def with_version(value):
    """Returns a message with `jsonrpc`, and with the null that a reply without a result and an error had."""
    value = {"jsonrpc": "2.0", **value}
    if "method" not in value and "error" not in value:
        value.setdefault("result", None)
    return value


class Form:
    """A form of log. `begins` finds its first line, `HEAD` each message, and `remedy` says how it comes to have messages."""

    name = begins = HEAD = remedy = None

    def messages(self, text):
        """Gives the messages of a text. Raises Fault at the first line that can't be read."""
        head, line, before, at = self.head_in(text), 1, 0, 0
        while found := head.search(text, at):
            line, before = line + text.count("\n", before, found.start()), found.start()
            at = (yield from self.read(found, line)) or found.end()
        self.leave()

    def head_in(self, _text):
        return self.HEAD

    def read(self, found, line):
        """Gives the messages at a head. Returns where the next head is searched, if it isn't right after this one."""
        raise NotImplementedError

    def leave(self):
        """Ends what spans several heads."""

    def doubts(self, _messages):
        """Returns what can't be known of messages in this form."""
        return []


# What Lua and Lisp print


class Reader:
    """Reads values from a text at an offset: what the readers of both languages share."""

    BLANKS = re.compile(r"[ \t\r\n\f]*")

    def __init__(self, text, at, line):
        self.text, self.line = text, line
        self.at = self.BLANKS.match(text, at).end()

    def fault(self, words):
        return Fault("line %d: the message can't be read: %s before %r" % (self.line, words, self.text[self.at:self.at + 20]))

    def take(self, pattern):
        """Takes what matches here, with the blanks after it. Returns the match, or None."""
        found = pattern.match(self.text, self.at)
        if found:
            self.at = self.BLANKS.match(self.text, found.end()).end()
        return found

    def key(self):
        key = self.value()
        return key if isinstance(key, str) else json.dumps(key)

    def message(self):
        try:
            value = self.value()
        except RecursionError:
            raise Fault("line %d: it nests too deep" % self.line) from None
        except (ValueError, OverflowError) as error:  # (of a number or a character that there isn't)
            raise self.fault(str(error)) from None
        if not isinstance(value, dict):
            raise Fault("line %d: this is no message" % self.line)
        return with_version(value)


class Lua(Reader):
    """Reads what Neovim's vim.inspect prints."""

    STRING = re.compile(r""""((?:[^"\\]|\\.)*)"|'((?:[^'\\]|\\.)*)'""", ANY)
    ESCAPE = re.compile(r"\\(?:(\d{1,3})|x([0-9A-Fa-f]{2})|u\{([0-9A-Fa-f]+)\}|(.))", ANY)
    LETTERS = {"a": "\a", "b": "\b", "f": "\f", "n": "\n", "r": "\r", "t": "\t", "v": "\v"}
    NUMBER = re.compile(r"-?\d+(?:\.\d+)?(?:e[-+]?\d+)?", re.ASCII)
    WORD = re.compile(r"vim\.empty_dict\(\)|vim\.NIL|true|false|nil")
    WORDS = {"vim.empty_dict()": {}, "vim.NIL": None, "true": True, "false": False, "nil": None}
    NAME = re.compile(r"([A-Za-z_]\w*)\s*=(?!=)", re.ASCII)
    INDEX = re.compile(r"\[")
    AFTER_INDEX = re.compile(r"\]\s*=", re.ASCII)
    OPEN, CLOSE, COMMA = re.compile(r"(?:<(\d+)>)?\{", re.ASCII), re.compile(r"\}"), re.compile(r",")
    AGAIN = re.compile(r"<table (\d+)>", re.ASCII)
    OBJECTS = {"params", "capabilities", "result"}  # (an empty table there was an object)

    def __init__(self, text, at, line):
        super().__init__(text, at, line)
        self.tables, self.is_rounded = {}, False

    def value(self, name=None):
        for pattern, value_of in ((self.STRING, self.string), (self.NUMBER, self.number), (self.WORD, lambda it: self.WORDS[it[0]]),
                                  (self.AGAIN, lambda it: self.tables.get(it[1]))):
            found = self.take(pattern)
            if found:
                return value_of(found)
        opened = self.take(self.OPEN)
        if not opened:
            raise self.fault("no value")
        table = self.table(name)
        self.tables[opened[1]] = table
        return table

    def string(self, found):
        return self.ESCAPE.sub(self.character, found[1] if found[1] is not None else found[2])

    def character(self, found):
        if found[4] is not None:
            return self.LETTERS.get(found[4], found[4])
        code = int(found[1]) if found[1] else int(found[2] or found[3], 16)
        return chr(code) if code < 128 or found[3] else bytes([code & 255]).decode("utf-8", "surrogateescape")

    def number(self, found):
        if re.fullmatch(r"-?[0-9]+", found[0]):
            return int(found[0])
        number = float(found[0])
        self.is_rounded = self.is_rounded or abs(number) >= 10 ** LUA_DIGITS
        return int(number) if number.is_integer() and abs(number) < 2 ** 63 else number

    def table(self, name):
        items, members = [], {}
        while not self.take(self.CLOSE):
            named = self.take(self.NAME)
            if named:
                members[named[1]] = self.value(named[1])
            elif self.take(self.INDEX):
                key = self.key()
                if not self.take(self.AFTER_INDEX):
                    raise self.fault("no key")
                members[key] = self.value(key)
            else:
                items.append(self.value())
            if not self.take(self.COMMA) and self.text[self.at:self.at + 1] != "}":
                raise self.fault("no comma")
        if items and members:
            raise self.fault("a table with keys and without")
        return members if members or not items and name in self.OBJECTS else items


class Lisp(Reader):
    """Reads the property lists that Emacs prints."""

    STRING = re.compile(r'"((?:[^"\\]|\\.)*)"', ANY)
    ESCAPE = re.compile(r"\\(?:([0-7]{1,3})|x([0-9A-Fa-f]+)|u([0-9A-Fa-f]{4})|U([0-9A-Fa-f]{8})|\^(.)|(.))", ANY)
    LETTERS = {"a": "\a", "b": "\b", "d": "\x7f", "e": "\x1b", "f": "\f", "n": "\n", "r": "\r", "t": "\t", "v": "\v", "\n": "", " ": ""}
    ATOM = re.compile(r"[^][\s()\"';#]+", re.ASCII)
    NUMBER = re.compile(r"[-+]?(?:\d+\.?|\d*\.\d+(?:e[-+]?\d+)?|\d+e[-+]?\d+)", re.ASCII)
    WORDS = {"nil": None, "t": True, ":json-false": False, ":json-null": None, ":null": None, ":false": False}
    HASH = re.compile(r"#s\(hash-table\b[^()]*?(?:\bdata\s*)?(?=[()])", re.ASCII)
    OPEN, CLOSE = re.compile(r"\("), re.compile(r"\)")
    OPEN_VECTOR, CLOSE_VECTOR = re.compile(r"\["), re.compile(r"\]")

    def value(self, name=None):
        found = self.take(self.STRING)
        if found:
            return self.ESCAPE.sub(self.character, found[1])
        if self.take(self.HASH):
            return self.hash_table()
        if self.take(self.OPEN):
            return self.object()
        if self.take(self.OPEN_VECTOR):
            items = []
            while not self.take(self.CLOSE_VECTOR):
                items.append(self.value())
            return items
        return self.atom(name)

    def character(self, found):
        if found[5] is not None:
            return chr(ord(found[5]) & 31)
        if found[6] is not None:
            return self.LETTERS.get(found[6], found[6])
        code = int(found[1], 8) if found[1] else int(found[2] or found[3] or found[4], 16)
        return bytes([code]).decode("utf-8", "surrogateescape") if found[1] and 128 <= code < 256 else chr(code)

    def atom(self, name):
        found = self.take(self.ATOM)
        if not found:
            raise self.fault("no value")
        word = found[0]
        if word in self.WORDS:
            # (what is never null was an empty object)
            return {} if word == "nil" and name == "capabilities" else self.WORDS[word]
        if not self.NUMBER.fullmatch(word):
            raise self.fault("Emacs cut the message off (%s), or %r is no value," % ("...", word))
        return int(word.rstrip(".")) if re.fullmatch(r"[-+]?[0-9]+\.?", word) else float(word)

    def object(self):
        members = {}
        while not self.take(self.CLOSE):
            key = self.take(self.ATOM)
            if not key or key[0][0] != ":":
                raise self.fault("no key")
            members.setdefault(key[0][1:], self.value(key[0][1:]))
        return members

    def hash_table(self):
        members = {}
        if self.take(self.OPEN):
            while not self.take(self.CLOSE):
                key = self.key()
                members[key] = self.value(key)
        if not self.take(self.CLOSE):
            raise self.fault("no end of a hash table")
        return members


# The forms


class Neovim(Form):
    name = "Neovim's lsp.log, in ~/.local/state/nvim or ~/.cache/nvim"
    remedy = "it has them after vim.lsp.set_log_level('debug')"
    begins = re.compile(r"^\[(?:START|TRACE|DEBUG|INFO|WARN|ERROR)\]\[\d{4}-\d\d-\d\d \d\d:\d\d:\d\d\]", BY_LINE)
    HEAD = re.compile(r'^\[(?:(START)|[A-Z]+)\]\[[^]\n]*\](?: \S+\t"rpc\.(send|receive)"\t)?', BY_LINE)

    def __init__(self):
        self.is_rounded = False

    def read(self, found, line):
        if found[1]:
            yield ended(line)
        if found[2]:
            reader = Lua(found.string, found.end(), line)
            yield written(line, EDITOR if found[2] == "send" else SERVER, reader.message())
            self.is_rounded = self.is_rounded or reader.is_rounded

    def doubts(self, messages):
        if self.is_rounded:
            yield "numbers of more than %d digits were rounded by Lua" % LUA_DIGITS
        if any(it.sender == SERVER and "[]" in it.body for it in messages):
            yield "in the server's messages [] may have been {}: Neovim may print both alike"


class Eglot(Form):
    name = "eglot's events (M-x eglot-events-buffer)"
    remedy = "the :format of eglot-events-buffer-config has to be full or lisp"
    begins = re.compile(r"^\[(?:client|server)-(?:request|notification|reply)\] |^\[internal\] |^\[jsonrpc\] ", BY_LINE)
    HEAD = re.compile(r"^\[(client|server)-(?:request|notification|reply)\](?: \(id:[^)\n]*\))?[^\n]*:\n"
                      r"|^\[jsonrpc\] e\[[\d:.]+\] +(-->|<--) [^\s\[]*(?:\[[^]\n]*\])?[^\n{]*", BY_LINE)
    SENDERS = {"client": EDITOR, "-->": EDITOR, "server": SERVER, "<--": SERVER}

    def read(self, found, line):
        text, at, sender = found.string, found.end(), self.SENDERS[found[1] or found[2]]
        if text[at:at + 1] == "{":
            message = message_at(text, at, line, sender)
            yield message
            return at + len(message.body)
        reader = Lisp(text, at, line)
        if text[reader.at:reader.at + 1] in ("", "["):  # (`short`)
            raise Fault("line %d: the message isn't in it: %s" % (line, self.remedy))
        yield written(line, sender, reader.message())
        return reader.at

    def doubts(self, messages):
        if any(it.sender == SERVER and ":null" in it.body.replace('"result":null', "") for it in messages):
            yield "in the server's messages null may have been {}: Emacs prints both as nil"


# What newer channels of VS Code put before a line: a time and a level. The newest have `trace` as the level, and nothing else.
TIME = r"\d{4}-\d\d-\d\d \d\d:\d\d:\d\d\.\d{3}"
STAMP = r"^(?:%s \[\w+\] )?" % TIME
NEWEST = r"%s \[trace\]" % TIME
TRACE = r"(?:%s\[Trace - [^]\n]*\]|^%s) " % (STAMP, NEWEST)


class Trace(Form):
    name = "a trace in words, of lsp-mode, gopls (-rpc.trace) or VS Code (\"verbose\")"
    remedy = "it has them with \"verbose\", not with \"messages\""
    begins = re.compile(TRACE + r"(?:Sending|Received) (?:request|notification|response) ", BY_LINE)
    # (gopls' failed replies have the way where the time is, and the time after it)
    HEAD = re.compile(TRACE + r"(Sending|Received) (request|notification|response) '([^'\n]*?)(?: - \((.*?)\))?'?(?:\.| in )"
                      r"([^\n]*?)(?:\n|\Z| (?=(?:Params|Result|Error data): ))|" + STAMP
                      + r"\[Error - (?:[^]\n]*\] (?:Sent|Received) #|(?:Sent|Received)\] [^#\n]*#)", BY_LINE)
    DATA = re.compile(r"(?:%s )?(Params|Result|Error data): (?=[^ \r\n])" % NEWEST, BY_LINE)
    AT_SERVER = re.compile(TRACE + r"Received request 'initialize - ", BY_LINE)
    FAILED = re.compile(r"Request failed: (.*) \((-?\d+)\)\.\s*\Z", re.ASCII)

    def __init__(self):
        self.left_out = 0
        self.senders = {"Sending": EDITOR, "Received": SERVER}

    def head_in(self, text):
        if self.AT_SERVER.search(text):  # (only an editor sends that)
            self.senders = {"Sending": SERVER, "Received": EDITOR}
        return self.HEAD

    def read(self, found, line):
        text, at = found.string, found.end()
        if not found[1]:
            self.left_out += 1
            return at
        data, json_text = self.DATA.match(text, at), None
        if data:
            _, json_text, at = json_at(text, data.end(), line)
        elif text.find("\n", at) < 0:  # (a line follows, of data or an empty one)
            raise Fault("line %d: the message isn't whole" % line)
        yield self.message(line, found, data and data[1], json_text)
        return at

    def message(self, line, found, kind, json_text):
        way, what, method, number, rest = found.groups()[:5]
        sender = self.senders[way]
        identity = [] if number is None else ['"id":%s' % (number if IS_NUMBER.fullmatch(number) else as_json(number))]
        if what != "response":
            if json_text is None and method.startswith(("textDocument/did", "initialize")) and method != "initialized":
                raise Fault("line %d: %s has no Params: %s" % (line, method, self.remedy))
            members = identity + ['"method":%s' % as_json(method)]
            members += ['"params":%s' % json_text] if kind == "Params" else []
        elif self.FAILED.search(rest):
            words, code = self.FAILED.search(rest).groups()
            data = ',"data":%s' % json_text if kind == "Error data" else ""
            members = identity + ['"error":{"code":%s,"message":%s%s}' % (code, as_json(words), data)]
        else:
            members = identity + ['"result":%s' % ("null" if json_text is None else json_text)]
        return message_at('{"jsonrpc":"2.0",%s}' % ",".join(members), 0, line, sender)

    def doubts(self, messages):
        if self.left_out:
            yield "%d replies that failed are left out: the trace has no code of theirs" % self.left_out
        kinds = {(it.sender, type(it.value.get("id"))) for it in messages if it.method and "id" in it.value}
        if len(kinds) > len({sender for sender, _ in kinds}):
            yield "an id of digits is written as a number, where others are strings: the trace has no quotes around a string"
        if any(it.sender == SERVER and re.search(r'\{\n  "', it.body) and re.search(r'": null\b', it.body) for it in messages):
            yield "in the server's messages null may have been false: lsp-mode prints both alike"


IS_NUMBER = re.compile(r"-?[0-9]+")


def as_json(word):
    return json.dumps(word, ensure_ascii=False)


class TraceJson(Form):
    name = "VS Code's trace in JSON, as LSP Inspector reads it, also as an array"
    remedy = "it has them with \"verbosity\": \"verbose\""
    begins = re.compile(STAMP + r'\[LSP *- [^]\n]*\] \{|^(?:%s |\[\s*)?\{\s*"(?:isLSPMessage|type)":' % NEWEST, BY_LINE)
    HEAD = re.compile(r"(?:%s\[LSP *- [^]\n]*\]|^%s) (?=\{)" % (STAMP, NEWEST), BY_LINE)
    BARE = re.compile(r"^(?=\{)", BY_LINE)
    IS_ARRAY, IN_ARRAY = re.compile(r"\s*\[\s*\{", re.ASCII), re.compile(r"[\[,]\s*(?=\{)", re.ASCII)

    def head_in(self, text):
        return self.IN_ARRAY if self.IS_ARRAY.match(text) else self.HEAD if self.HEAD.search(text) else self.BARE

    def read(self, found, line):
        value, body, end = json_at(found.string, found.end(), line)
        kind = value.get("type")
        if isinstance(kind, str) and kind.startswith(("send-", "receive-")) and isinstance(value.get("message"), dict):
            yield Message(line, EDITOR if kind.startswith("send-") else SERVER, value["message"], members_of(body)["message"])
        return end


class Clangd(Form):
    name = "clangd's standard error (--log=verbose)"
    remedy = "it has them with --log=verbose"
    begins = re.compile(r"^[VIE]\[\d\d:\d\d:\d\d\.\d{3}\] ", BY_LINE)
    HEAD = re.compile(r"^V\[\d\d:\d\d:\d\d\.\d{3}\] (<<<|>>>) ", BY_LINE)

    def read(self, found, line):
        yield message_at(found.string, found.end(), line, EDITOR if found[1] == "<<<" else SERVER)


class Vim(Form):
    name = "Vim's log of channels (ch_logfile)"
    remedy = "it has them where ch_logfile comes before the server's start"
    begins = re.compile(r"^==== start log session |^ *(?:\d+\.\d+ )?(?:SEND|RECV) on \d+\(", BY_LINE)
    HEAD = re.compile(r"^==== (start) |^ *(?:\d+\.\d+ )?(SEND|RECV) on (\d+)\((?:in|out|sock)\): '", BY_LINE)
    END = re.compile(r"'\r?\n|'\Z")
    FRAME = re.compile(rb"(?:Content-Type:[^\r\n]*\r\n)?Content-Length: *(\d{1,15})\r\n(?:Content-Type:[^\r\n]*\r\n)?\r\n", re.IGNORECASE)

    def __init__(self):
        self.not_whole, self.waiting = 0, {}

    def read(self, found, line):
        if found[1]:
            self.leave()
            yield ended(line)
            return
        end = self.END.search(found.string, found.end())
        if not end:
            raise Fault("line %d: what was %s isn't whole" % (line, "sent" if found[2] == "SEND" else "received"))
        key = found[2], found[3]
        rest = self.waiting.get(key, b"") + found.string[found.end():end.start()].encode("utf-8", "surrogateescape")
        body, self.waiting[key] = self.frame(rest)
        while body is not None:
            yield message_at(body, 0, line, EDITOR if found[2] == "SEND" else SERVER, found[3])
            body, self.waiting[key] = self.frame(self.waiting[key])

    def leave(self):
        self.not_whole += sum(map(len, self.waiting.values()))
        self.waiting.clear()

    def frame(self, data):
        """Returns the body of the first frame, or None, and what comes after it. A channel without frames is of no language server."""
        head = self.FRAME.match(data)
        if not head:
            return None, data if b"content-" in data.lower() or b"content-".startswith(data[:8].lower()) else b""
        end = head.end() + int(head[1])
        if len(data) < end:
            return None, data
        return data[head.end():end].decode("utf-8", "surrogateescape"), data[end:]

    def doubts(self, _messages):
        if self.not_whole:
            yield "%d bytes are no whole message, and left out" % self.not_whole


class Devtools(Form):
    name = "lsp-devtools' lines of JSON (lsp-devtools record --to-file)"
    remedy = "each line has `source` and a message"
    begins = re.compile(r'^\{(?=[^\n]*"source": ?"(?:client|server)")', BY_LINE)
    HEAD = re.compile(r"[^ \t\r\n][^\n]*")
    SENDERS = {"client": EDITOR, "server": SERVER}
    MEMBERS = ("id", "method", "params", "result", "error")

    def read(self, found, line):
        value, body, _ = json_at(found[0], 0, line)
        if not isinstance(value, dict) or value.get("source") not in self.SENDERS:
            raise Fault("line %d: there is no `source`" % line)
        sender, stream, members = self.SENDERS[value["source"]], value.get("session"), members_of(body)
        if isinstance(value.get("message"), dict):
            yield Message(line, sender, value["message"], members["message"], stream)
        else:
            own = {it: members[it] for it in self.MEMBERS if value.get(it) is not None}
            if "method" not in own and "error" not in own:
                own.setdefault("result", "null")
            yield message_at('{"jsonrpc":"2.0"%s}' % "".join(',"%s":%s' % it for it in own.items()), 0, line, sender, stream)


class Helix(Form):
    name = "Helix's log (hx -v), ~/.cache/helix/helix.log"
    remedy = "it has them with hx -v"
    begins = re.compile(r"^\d{4}-\d\d-\d\dT\d\d:\d\d:\d\d\.\d+ helix_\S+ \[[A-Z]+\] ", BY_LINE)
    HEAD = re.compile(r"^\S+ helix_lsp::transport \[INFO\] ([^\n{]*)(->|<-) (?=\{)", BY_LINE)

    def read(self, found, line):
        message = message_at(found.string, found.end(), line, EDITOR if found[2] == "->" else SERVER, found[1])
        if "jsonrpc" in message.value:  # (a result comes again, without its message)
            yield message


class Pylsp(Form):
    name = "pylsp's log (pylsp -vv --log-file FILE)"
    remedy = "it has them with -vv"
    begins = re.compile(r"^\d{4}-\d\d-\d\d \d\d:\d\d:\d\d,\d{3} \S+ - [A-Z]+ - pylsp", BY_LINE)
    HEAD = re.compile(r"^[\d: ,-]+ \S+ - DEBUG - pylsp_jsonrpc\.endpoint - Handling \w+ from client (\{[^\n]*)", BY_LINE)

    def read(self, found, line):
        try:
            with warnings.catch_warnings():
                warnings.simplefilter("ignore")  # (of an escape that there isn't)
                value = ast.literal_eval(found[1].rstrip("\r"))
        except (ValueError, SyntaxError, MemoryError, RecursionError):
            value = None
        if not isinstance(value, dict):
            raise Fault("line %d: the message isn't whole" % line)
        yield written(line, EDITOR, value)

    def doubts(self, _messages):
        yield "the server's messages are left out: pylsp writes only some of them"


class LineFeeds(Form):
    name = "a log of a session whose CRLFs became LFs, in git or in an editor"
    remedy = "it has no message with a header"
    begins = re.compile(r"\A(?:lsp-session-log 2\n[<>])?(?i:content-(?:length|type)):[^\r\n]*\n")
    HEAD = re.compile(r"([<>]?)(?:content-type:[^\n]*\n)?content-length: *\d+\n(?:content-type:[^\n]*\n)?\n\s*(?=\{)",
                      re.ASCII | re.IGNORECASE)

    def read(self, found, line):
        message = message_at(found.string, found.end(), line, SERVER if found[1] == "<" else EDITOR)
        yield message
        return found.end() + len(message.body)


def members_of(body):
    """Returns the text of each of an object's members, as it is there, by its name."""
    members, at = {}, skip_blanks(body, body.index("{") + 1)
    while body[at] != "}":
        name, at = DECODER.raw_decode(body, at)
        start = skip_blanks(body, skip_blanks(body, at) + 1)
        _, end = DECODER.raw_decode(body, start)
        members[name], at = body[start:end], skip_blanks(body, end)
        at = skip_blanks(body, at + 1) if body[at] == "," else at
    return members


def skip_blanks(text, at):
    return BLANKS.match(text, at).end()


BLANKS = re.compile(r"[ \t\r\n]*")
FORMS = (Neovim, Eglot, Trace, TraceJson, Clangd, Vim, Devtools, Helix, Pylsp, LineFeeds)

# What editors write where no form is: what it is, and what makes it a log
WITHOUT_MESSAGES = (
    (re.compile(r'^(?:Command "[^"\n]*" is (?:not )?present on the path|Found the following clients for )', BY_LINE),
     "lsp-mode's *lsp-log*", "with (setq lsp-log-io t) a buffer of its own has them"),
    (re.compile(STAMP + r"\[(?:Info|Warn|Error) *- [^]\n]*\] ", BY_LINE), "what VS Code's Output shows", "it has them with \"verbose\""),
)

# What is no log of an editor, and what it is
OTHERS = (
    (re.compile(r"(?!%s)(?:lsp-session-log 2\n|(?i:content-length|content-type):)" % LineFeeds.begins.pattern),
     "this is a log of a session already, which lspsync reads"),
    (re.compile(r"\x1f\udc8b"), "this is packed by gzip: `gzip -d` unpacks it"),
    (re.compile(r'\{"(?:number|body|from)":'), "these are lines of messages, which log-from-lines reads"),
    (re.compile(r"\s*\Z"), "this is empty"),
)


def form_of(text):
    """Returns the form whose line comes first. Raises Unknown where there is none."""
    for pattern, words in OTHERS:
        if pattern.match(text):
            raise Unknown("line 1: " + words)
    found = [(it.begins.search(text), it) for it in FORMS]
    found = [(match.start(), at) for at, (match, _) in enumerate(found) if match]
    for pattern, name, remedy in WITHOUT_MESSAGES if not found else ():
        if pattern.search(text):
            raise Fault("this is %s, and it has no message: %s" % (name, remedy))
    if not found:
        raise Unknown("line 1: no form that is known begins like %r; --help has those that are" % text.split("\n", 1)[0][:60])
    return FORMS[min(found)[1]]()
