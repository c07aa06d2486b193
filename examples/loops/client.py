#!/usr/bin/env python3
"""An editor's end, in Python: client.py SERVER [ARG ..] starts a language server, opens a text in it, changes the text, asks for a hover,
and quits. It prints the result of the hover, and ends with the server's status."""
import json
import subprocess
import sys

from laspidru import Client, Framer

ROOT, URI = "file:///tmp", "file:///tmp/notes.txt"
CAPABILITIES = {"textDocument": {"hover": {"contentFormat": ["plaintext"]}}}
CHANGE = {"range": {"start": {"line": 0, "character": 7}, "end": {"line": 0, "character": 10}}, "text": "2"}


def members(body):
    """The members of a message; none where the body has none."""
    try:
        message = json.loads(body)
    except (ValueError, RecursionError):
        return {}
    return message if isinstance(message, dict) else {}


def answered(body):
    """The id of the request that a body is the response to, if it is a response."""
    return members(body).get("id") if "method" not in members(body) else None


def is_notification(body):
    return "method" in members(body) and "id" not in members(body)


def framed(message):
    body = json.dumps(message).encode()
    return b"Content-Length: %d\r\n\r\n%s" % (len(body), body)


def own_initialize(start):
    """The client's `initialize`, with the editor's root and capabilities. The id, 1, and `general` with its `positionEncodings` stay the
    client's, which judges the response by them."""
    message = json.loads(start.partition(b"\r\n\r\n")[2])
    params = message["params"]
    params.update(rootUri=ROOT, capabilities={**CAPABILITIES, **params["capabilities"]})
    return framed(message)


class Editor:
    def __init__(self, command):
        self.client, self.framer = Client(), Framer()  # positions count UTF-16 units; client.encoding says so too
        self.asked, self.responses = 0, {}
        self.server = subprocess.Popen(command, bufsize=0, stdin=subprocess.PIPE, stdout=subprocess.PIPE)
        self.send(own_initialize(self.client.start()))
        self.read_until(lambda: self.client.phase == "ready")

    def send(self, frame):
        try:
            self.server.stdin.write(frame)
        except BrokenPipeError:
            sys.exit("the server ended")

    def read_until(self, is_done):
        while not is_done():
            data = self.server.stdout.read(65536)
            if not data:
                sys.exit("the server ended")
            for body in self.framer.receive(data):
                self.take(body)

    def take(self, body):
        """What is the editor's own is taken here; all else goes to the client."""
        if isinstance(answered(body), str):
            self.responses[answered(body)] = json.loads(body)
            return
        if is_notification(body):
            return  # yours, such as diagnostics. The client would ignore it, or fail where it can't read it
        event = self.client.deliver(body)
        if event.kind == "send":
            self.send(event.frame)
        elif event.kind == "bad-server":
            sys.exit(f"the server can't be used: {event.why}")
        # "noted" is the response to `shutdown`

    def ask(self, method, params):
        """A request of the editor's own. Its id is a string: 1 and 2 are the client's."""
        self.asked += 1
        name = f"own {self.asked}"
        self.send(framed({"jsonrpc": "2.0", "id": name, "method": method, "params": params}))
        self.read_until(lambda: name in self.responses)
        return self.responses.pop(name)

    def quit(self):
        self.send(self.client.shutdown())
        self.read_until(lambda: self.client.phase == "closed")
        self.send(self.client.exit())
        return self.server.wait()


editor = Editor(sys.argv[1:])
editor.send(editor.client.open(URI, "plaintext", 1, "one 😀 two\n"))
editor.send(editor.client.edit(URI, 2, [CHANGE]))
hover = editor.ask("textDocument/hover", {"textDocument": {"uri": URI}, "position": {"line": 0, "character": 0}})
print(json.dumps(hover.get("result"), ensure_ascii=False))
editor.send(editor.client.close(URI))
sys.exit(editor.quit())
