#!/usr/bin/env python3
"""A language server for tests: test_server.py ENCODING [full | none]. It keeps the documents by conformance/plain.py, and where
LASPIDRU_LIBRARY names the library also by laspidru's own end. The notification `test/text` with a URI is answered by one of the same name,
with the text, or with why there is none. Hover and completion have the text too. `test/die` ends the process."""
import json
import os
import sys

HERE = os.path.dirname(os.path.abspath(__file__))
sys.path[:0] = [os.path.join(HERE, "..", "..", "conformance"), os.path.join(HERE, "..", "..", "bindings", "python")]
from plain import Plain, Refused  # noqa: E402

DOCUMENTS = {"textDocument/didOpen", "textDocument/didChange", "textDocument/didClose"}


def read_body():
    length = None
    while True:
        line = sys.stdin.buffer.readline()
        if not line:
            return None
        if line == b"\r\n":
            return sys.stdin.buffer.read(length)
        name, _, value = line.partition(b":")
        if name.lower() == b"content-length":
            length = int(value)


def send(**message):
    body = json.dumps({"jsonrpc": "2.0", **message}).encode()
    sys.stdout.buffer.write(b"Content-Length: %d\r\n\r\n%s" % (len(body), body))
    sys.stdout.buffer.flush()


class Texts:
    """The texts of the open documents, and what was refused of each."""

    def __init__(self, encoding):
        self.encoding, self.plain, self.texts, self.faults, self.ours = encoding, Plain(), {}, {}, None
        if "LASPIDRU_LIBRARY" in os.environ:
            from laspidru import Server
            self.ours = Server(encoding, is_fixed=True)

    def take(self, message, body):
        if self.ours is not None:
            event = self.ours.handle(body)
            if event.kind == "refused":
                self.faults[message["params"]["textDocument"]["uri"]] = "refused: " + event.why
        method, params = message.get("method"), message.get("params")
        if method not in DOCUMENTS:
            return
        uri = params["textDocument"]["uri"]
        if method == "textDocument/didOpen":
            self.texts[uri] = params["textDocument"]["text"]
            self.faults.pop(uri, None)
        elif method == "textDocument/didClose":
            self.texts.pop(uri, None)
        else:
            try:
                self.texts[uri], _ = self.plain.message(self.texts[uri], self.encoding, params["contentChanges"])
            except (Refused, KeyError) as fault:
                self.faults[uri] = repr(fault)

    def answer(self, uri):
        text, fault = self.texts.get(uri), self.faults.get(uri)
        if fault is None and self.ours is not None and self.ours.text(uri) != text:
            fault = "the library's own server has another text"
        return {"uri": uri, "text": text, "fault": fault}


def capabilities(encoding):
    change = {"full": 1, "none": 0}.get(sys.argv[-1], 2)
    synchronisation = {"textDocumentSync": {"openClose": True, "change": change}} if change else {}
    return {**synchronisation, "positionEncoding": encoding, "hoverProvider": True, "completionProvider": {}}


def main():
    texts = Texts(sys.argv[1])
    results = {
        "initialize": lambda _: {"capabilities": capabilities(texts.encoding)},
        "shutdown": lambda _: None,
        "textDocument/hover": lambda params: {"contents": texts.texts.get(params["textDocument"]["uri"], "")},
        "textDocument/completion": lambda params: [{"label": texts.texts.get(params["textDocument"]["uri"], "")}],
    }
    while True:
        body = read_body()
        if body is None:
            return 1
        message = json.loads(body.decode("utf-8", "replace"))
        texts.take(message, body)
        method, params = message.get("method"), message.get("params")
        if method in results:
            send(id=message["id"], result=results[method](params))
        elif method == "exit":
            return 0
        elif method == "test/text":
            send(method="test/text", params=texts.answer(params["uri"]))
        elif method == "test/die":
            return 7


sys.exit(main())
