"""Random logs of both versions, and random events of `lsp_simulate`. Most is as editors send it; some of each part is wrong or odd."""
import json
import os
import random

URIS = ["file:///a", "file:///b", "file:///b/a", 'x"y\\é']
PIECES = ["a", "b", "z", " ", "\n", "\n", "\r", "\r\n", "😀", "é", "漢", "\t", "\u0001", "\u2028", "\u202e", "\x7f", "\ufeff"]
NUMBERS = [0, 1, 9, 100, 4294967295, 4294967296, -1, 1.5, 2 ** 63, 2 ** 64, "1", None]
VERSIONS = [None, -1, 2 ** 31 - 1, 2 ** 31, -2 ** 31, -2 ** 31 - 1, 0, "1", 1.5]
IDS = [1, 2, 3, 0, -1, "a", "é\n", -2 ** 63, 2 ** 63 - 1, 2 ** 63, 1.0, None, True, "1"]
OFFERS = [{}, {"capabilities": {}}, {"capabilities": None}, {"capabilities": []}, None, [], {"capabilities": {"general": None}},
          *({"capabilities": {"general": {"positionEncodings": it}}} for it in (["utf-8", "utf-32", "x"], ["utf-16", 3], ["utf-16"], None))]
SYNCS = [0, 1, 2, 2, 2, 3, None, {"openClose": True, "change": 2}, {"openClose": True, "change": 1}, {"openClose": True, "change": 5},
         {"openClose": True, "change": None}, {"change": 2}, {"openClose": False, "change": 2}, {}, {"openClose": 3}, "x"]
# Bodies whose JSON is odd, or that aren't JSON
BODIES = [
    b"", b"{", b"nul", b"\xff", b"\xef\xbb\xbf{}", b'{"a":"\\ud800"}', b'{"a":"\\ud83d\\ud83d\\ude00"}', b'{"a":"\t"}', b'"\x7f"',
    b'{"jsonrpc":"2.0","method":"exi\\u0074","x":1e400}', b'{"jsonrpc":"2.0","id":-0,"method":"shutdown"}', b'{"a":1}{"b":2}', b"[1,]",
    b'{"jsonrpc":"2.0","id":1,"id":2,"method":"shutdown"}', b'{"jsonrpc":"2.0","method":"a","method":"initialized"}', b"{'a':1}",
    b"[" * 127 + b"]" * 127, b"[" * 128 + b"]" * 128, b'{"a":' * 127 + b"1" + b"}" * 127, b'{"a":01}', b'{"a":1.}', b'{"a":NaN}',
    b'{"a":-Infinity}', b'{"jsonrpc":"2.0","method":"initialized"} ', b"\x0b{}", b'{"jsonrpc":"2.0","id":1e0,"method":"shutdown"}', b"/**/{}",
    b'{"jsonrpc":"2.0","id":12345678901234567890123,"method":"shutdown"}', b'{"jsonrpc":"2.0","id":"\\ud83d\\ude00","method":"shutdown"}',
    b'{"a":1e-400}', b'{"a":123456789012345678901234567890e-10}', b'{"jsonrpc":"2.0",\r\n "method":"initialized"\n}\n',
]
ANSWERS = ['{"jsonrpc":"2.0","id":2,"result":null}', '{"jsonrpc":"2.0","id":2,"error":{"code":1,"message":""}}',
           '{"jsonrpc":"2.0","id":3,"method":"workspace/configuration"}', '{"jsonrpc":"2.0","method":"$/progress"}']
CHANGE = "textDocument/didChange"
OBJECTS = [{"id": 5}, [], 3, None, "x", {"jsonrpc": "1.0", "id": 7, "method": "shutdown"}, {"jsonrpc": 2.0, "method": "exit"}]


class Sessions:
    def __init__(self, seed):
        self.random, self.texts, self.versions = random.Random(seed), {}, {}
        self.pick = self.random.choice

    def seldom(self, odds):
        return self.random.random() < odds

    def text(self):
        return "".join(self.pick(PIECES) for _ in range(self.pick([0, 1, 3, 3, 6, 6, 12, 12, 30])))

    def position(self):
        if self.seldom(.03):
            return self.pick([None, {}, {"line": 0}, {"line": self.pick(NUMBERS), "character": self.pick(NUMBERS)}])
        return {"line": self.pick([0, 0, 0, 1, 1, 2, 3]), "character": self.pick([0, 0, 1, 1, 2, 3, 4, 5, 7])}

    def range(self):
        ends = [self.position(), self.position()]
        if not self.seldom(.1):
            ends.sort(key=lambda it: [(isinstance(n, int), n if isinstance(n, int) else 0) for n in (it or {}).values()])
        return {"start": ends[0], "end": ends[1]}

    def change(self, whole):
        change = {"text": self.text() if not self.seldom(.01) else 3900 * "x"}
        if not self.seldom(whole):
            change["range"] = None if self.seldom(.03) else self.range()
            if self.seldom(.3):
                change["rangeLength"] = self.pick([0, 1, 1, 2, 2, 3, 4, -1, 1.0])
        if self.seldom(.02):
            change["text"] = self.pick([5, None])
        if self.seldom(.01):
            del change["text"]
        return change

    def version(self, uri):
        if self.seldom(.05):
            return self.pick(VERSIONS)
        self.versions[uri] = self.versions.get(uri, 0) + (1 if not self.seldom(.06) else self.pick([0, -1, 5]))
        return self.versions[uri]

    def document(self, kind):
        """The parameters of a message about a document."""
        uri = self.pick(URIS[:2] if not self.seldom(.1) else URIS)
        if kind == "didOpen":
            self.texts[uri] = self.text()
            language = self.pick(["py", "", "c\n"])
            return {"textDocument": {"uri": uri, "languageId": language, "version": self.version(uri), "text": self.texts[uri]}}
        if kind == "didChange":
            changes = [self.change(.15) for _ in range(self.pick([0, 1, 1, 1, 1, 2, 3]))]
            return {"textDocument": {"uri": uri, "version": self.version(uri)}, "contentChanges": changes}
        params = {"textDocument": {"uri": uri}}
        if kind == "didSave" and not self.seldom(.2):
            params["text"] = self.texts.get(uri, "") if self.seldom(.5) else self.text()
        return params

    def message(self):
        where = self.random.random()
        message = {"jsonrpc": "2.0"}
        if where < .7:
            kind = self.pick(["didOpen"] * 3 + ["didChange"] * 9 + ["didSave"] * 3 + ["didClose"])
            message.update(method=f"textDocument/{kind}", params=self.document(kind))
            if self.seldom(.03):
                message["params"] = self.pick([None, [], {}, {"textDocument": None}, {"textDocument": {}}])
            if self.seldom(.02):
                message["id"] = self.pick(IDS)
        elif where < .78:
            method = self.pick(["initialize", "shutdown", "textDocument/hover", "exit", "$/x"])
            message.update(id=self.pick(IDS), method=method, params=self.pick(OFFERS))
        elif where < .84:
            methods = ["initialized", "$/cancel", "workspace/didX", "shutdown", "exit"]
            message["method"] = self.pick(methods) if self.seldom(.5) else "initialized"
        elif where < .88:
            results = [{"result": None}, {"result": self.pick(OFFERS)}, {"error": {}}, {"error": None}, {"error": None, "result": 1}, {}]
            message.update(id=self.pick(IDS), **self.pick(results))
        elif where < .91:
            message.update(id=self.pick(IDS), method=self.pick([3, None, "m"]))
        elif where < .94:
            message = self.pick(OBJECTS)
        else:
            return self.pick(BODIES)
        return json.dumps(message, ensure_ascii=self.seldom(.5)).encode("utf-8", "surrogatepass")

    def frame(self, body):
        line = b"Content-Length: %d\r\n" % len(body)
        where = self.random.random()
        if where < .05:
            charset = self.pick([b"utf-8", b'"utf8"', b"UTF-8"])
            line = b"content-length:%d\r\nContent-Type: application/vscode-jsonrpc; charset=%s\r\n" % (len(body), charset)
        elif where < .08:
            line = b"X-Y: z\r\n" + line
        elif where < .095:
            line = self.pick([
                b"Content-Length: 0%d\r\n" % len(body), b"Content-Length:\t%d \r\n" % len(body), b"Content-Length: x\r\n", b"X: 1\r\n",
                b"Content-Length: \r\n", b"Content-Length: 1\r\nContent-Length: 1\r\n", b"Content-Length: 99999999\r\n", b"bad\r\n",
                b"A:" + b"x" * 9000 + b"\r\n", line + b"Content-Type: x; charset=latin-1\r\n",
                line + b"Content-Type: a; charset ; b=c\r\n", line + b"Content-Type: a;charset=\r\n"])
        return line + b"\r\n" + body

    def answer(self, number):
        """A response to `initialize`. Most fit."""
        announced = {"textDocumentSync": self.pick(SYNCS)}
        if self.seldom(.5):
            announced["positionEncoding"] = self.pick(["utf-8", "utf-16", "utf-32", "x", 3, None])
        answers = [{"result": {"capabilities": announced}}] * 8 + [{"error": {"code": 1}}, {"result": 3}, {"result": None}]
        return {"jsonrpc": "2.0", "id": 9 if self.seldom(.1) else number, **self.pick(answers)}

    def beginning(self, is_two):
        number = self.pick([1, 1, "a", 0])
        params = {"capabilities": {}} if self.seldom(.8) else self.pick(OFFERS)
        yield b">", json.dumps({"jsonrpc": "2.0", "id": number, "method": "initialize", "params": params}).encode()
        if is_two and not self.seldom(.1):
            yield b"<", json.dumps(self.answer(number)).encode()

    def log(self):
        self.texts, self.versions = {}, {}
        is_two, records = self.seldom(.4), []
        if not self.seldom(.1):
            records += self.beginning(is_two)
        records += [(b"<" if is_two and self.seldom(.2) else b">", self.message()) for _ in range(self.pick([0, 2, 5, 12, 25]))]
        if self.seldom(.3):
            records.append((b">", b'{"jsonrpc":"2.0","id":77,"method":"shutdown"}'))
            records += [(b">", self.message()) for _ in range(self.pick([0, 2, 8]))]
            records.append((b">", b'{"jsonrpc":"2.0","method":"exit"}'))
            records += [(b">", self.message())] if self.seldom(.3) else []
        log = b"lsp-session-log 2\n" if is_two else b""
        log += b"".join((side if is_two else b"") + self.frame(body) for side, body in records if is_two or side == b">")
        if self.seldom(.06):
            log = log[:self.random.randrange(len(log) + 1)]
        return log + (self.pick([b"x", b"\r\n", b"<", b">Content"]) if self.seldom(.03) else b"")

    def event(self, has_bodies):
        where = self.random.random()
        if has_bodies and where < .3:
            return {"event": "body", "body": self.pick(ANSWERS + [json.dumps(self.answer(1)), self.message().decode("utf-8", "replace")])}
        if where < .45:
            return {"event": self.pick(["toServer", "toServer", "toClient"])}
        if where < .5:
            return {"event": self.pick(["start", "shutdown", "exit"])}
        kind = self.pick(["open", "edit", "edit", "edit", "close"])
        event = {"event": kind, **self.document({"open": "didOpen", "edit": "didChange", "close": "didClose"}[kind])}
        return event if self.is_event(event) else self.event(has_bodies)

    @staticmethod
    def is_event(event):
        """Says whether `lsp_simulate` takes an event: its numbers and texts have the types of its members."""
        def is_number(it, low, high):
            return type(it) is int and low <= it < high
        document, changes = event["textDocument"], event.get("contentChanges", ())
        ends = [it for change in changes for it in (change.get("range") or {}).values()]
        return (is_number(document.get("version", 0), -2 ** 31, 2 ** 31) and all(isinstance(it.get("text"), str) for it in changes)
                and all(it and is_number(it.get("line"), 0, 2 ** 32) and is_number(it.get("character"), 0, 2 ** 32) for it in ends))

    def events(self, has_bodies=False):
        self.texts, self.versions = {}, {}
        events = [{"event": it} for it in ("start", "toServer", "toClient", "toServer")] if not self.seldom(.1) else []
        if has_bodies:
            events = [self.event(True), {"event": "start"}, {"event": "body", "body": json.dumps(self.answer(1))}]
        events += [self.event(has_bodies) for _ in range(self.pick([2, 5, 10, 30]))]
        if self.seldom(.5):
            events += [{"event": it} for it in ["shutdown"] + ["toServer"] * 12 + ["toClient"] * 4 + ["exit", "toServer", "toServer"]]
        if has_bodies:
            events += [{"event": "shutdown"}, {"event": "body", "body": self.pick(ANSWERS)}, {"event": "exit"}, self.event(True)]
        return b"".join(json.dumps(it, ensure_ascii=False).encode() + b"\n" for it in events)


def chosen_sessions():
    """Yields the name and the bytes of sessions that are rare among random ones."""
    def body(**message):
        return {"event": "body", "body": json.dumps({"jsonrpc": "2.0", **message})}
    start, shutdown, method = {"event": "start"}, {"event": "shutdown"}, {"method": "x"}
    begin = [start, body(id=1, result={"capabilities": {"textDocumentSync": 2}})]
    document = {"uri": "file:///a", "languageId": "x", "version": 1, "text": ""}
    change = {"textDocument": {"uri": "file:///a", "version": 2}, "contentChanges": [{"text": 3900 * "x"}]}
    for name, events in (
        ("requests", [body(**method), *begin, body(**method), body(id=3, **method)]),
        ("error", [*begin, shutdown, body(id=2, error={"code": 1, "message": ""})]),
        ("ends", [*begin, shutdown, body(id=2, result=None), {"event": "exit"}, body(**method)]),
        ("encoding", [start, body(id=1, result={"capabilities": {"positionEncoding": "utf-8", "textDocumentSync": 2}})]),
        ("number", [start, body(id=1, result={"capabilities": {"textDocumentSync": 3}})]),
        ("none", [start, body(id=1, result={"capabilities": {"textDocumentSync": 0}})]),
        ("long", [*begin, {"event": "open", "textDocument": document}, {"event": "edit", **change}]),
    ):
        yield f"{name}.events", b"".join(json.dumps(it).encode() + b"\n" for it in events)
    def opened(text, uri="file:///a"):
        return {"method": "textDocument/didOpen", "params": {"textDocument": {**document, "uri": uri, "text": text}}}
    def inserted(version, text, **more):
        start = {"line": 0, "character": 0}
        return {"method": CHANGE, "params": {"textDocument": {"uri": "file:///a", "version": version},
                                             "contentChanges": [{"range": {"start": start, "end": start}, "text": text, **more}]}}
    # (a text with a byte order mark and two forms of line ends, of which each message made one)
    last = {"range": {"start": {"line": 1, "character": 0}, "end": {"line": 2, "character": 0}}, "text": "c\n"}
    wrong = {"rangeLength": 1}
    stale = {"method": CHANGE, "params": {"textDocument": {"uri": "file:///a", "version": 1}, "contentChanges": [{"text": "b"}]}}
    begin = {"id": 1, "method": "initialize", "params": {"capabilities": {}}}
    for name, messages in (
        ("refusals", [opened("a"), *7 * [stale]]),
        ("rare", [{"id": 5, "method": 3}, {"method": "textDocument/didClose"}, opened(""), {"method": CHANGE, "params": change}]),
        ("ends", [opened("\ufeffa\rb\n"), {"method": CHANGE, "params": {**change, "contentChanges": [last]}}]),
        # (a whole URI after one that ends so; a line that twelve messages made, with a habit; a body that fits, whose frame would not)
        ("names", [opened("b", "file:///b/a"), opened("a")]),
        ("makers", [opened("x"), *(inserted(it, chr(95 + it), **(wrong if it in (2, 3, 4, 13) else {})) for it in range(2, 14))]),
        ("frame", [opened(""), inserted(2, 3859 * "x")]),
    ):
        bodies = [json.dumps({"jsonrpc": "2.0", **it}).encode() for it in (begin, *messages)]
        yield f"{name}.log", b"".join(b"Content-Length: %d\r\n\r\n%s" % (len(it), it) for it in bodies)
    yield "types.log", b"Content-Length: 2\r\n" + 2 * b"Content-Type: x\r\n" + b"\r\n{}"
    yield "bytes.log", b"Content-Length: 1\r\n\r\n\xff"


def write_sessions(folder, seed, count):
    """Writes so many logs, and a fifth as many files of events."""
    sessions = Sessions(seed)
    for number in range(count):
        for kind, data in (("log", sessions.log()), ("events", sessions.events()))[:1 if number % 5 else 2]:
            with open(os.path.join(folder, f"{number:04}.{kind}"), "wb") as file:
                file.write(data)
