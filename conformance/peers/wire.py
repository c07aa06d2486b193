"""A server's standard input and output, as frames of JSON-RPC."""
import json
import os
import subprocess
import tempfile
import threading

# A server that is silent for so many seconds is ended.
LIMIT = 30
# Are characters that aren't ASCII sent as escapes?
ESCAPES = True


def output_of(*words):
    """What a command prints."""
    return subprocess.run(words, stdout=subprocess.PIPE, stderr=subprocess.DEVNULL, text=True, check=True).stdout.strip()


class Wire:
    """A server that was started here. `notes` are its notifications and `edits` the workspace edits that it asked for."""

    def __init__(self, command, log, **how):
        self.process = subprocess.Popen(command, stdin=subprocess.PIPE, stdout=subprocess.PIPE, stderr=log, **how)
        self.id, self.notes, self.edits, self.is_silent = 0, [], [], False

    def send(self, **message):
        body = json.dumps({"jsonrpc": "2.0", **message}, ensure_ascii=ESCAPES).encode()
        self.process.stdin.write(b"Content-Length: %d\r\n\r\n%s" % (len(body), body))
        self.process.stdin.flush()

    def notify(self, method, params):
        self.send(method=method, params=params)

    def stop(self):
        self.is_silent = True
        self.process.kill()

    def receive(self):
        watch = threading.Timer(LIMIT, self.stop)
        watch.start()
        try:
            return json.loads(self.body())
        finally:
            watch.cancel()

    def body(self):
        length = None
        while line := self.process.stdout.readline().strip():
            if line.lower().startswith(b"content-length:"):
                length = int(line.split(b":")[1])
        if length is None:
            raise EOFError("the server ended, or was silent for too long")
        return self.process.stdout.read(length)

    def request(self, method, params):
        """Returns the response; answers what the server requests before it."""
        self.id += 1
        self.send(id=self.id, method=method, params=params)
        while True:
            message = self.receive()
            if "method" not in message and message["id"] == self.id:
                return message
            if message.get("method") == "workspace/applyEdit":
                self.edits.append(message["params"]["edit"])
                self.send(id=message["id"], result={"applied": True})
            elif message.get("method") == "workspace/configuration":
                self.send(id=message["id"], result=[{} for _ in message["params"]["items"]])
            elif "id" in message and "method" in message:
                self.send(id=message["id"], result=None)
            else:
                self.notes.append(message)

    def end(self):
        self.process.kill()
        self.process.wait()


def answers_of(start, answer, vectors, encodings=("utf-16",)):
    """Answers by a server for each encoding. Where it shows no text, as when it ends or is silent, a new one is asked once more."""
    servers = {}

    def ask(path, vector):
        encoding = vector["encoding"]
        try:
            servers[encoding] = servers.get(encoding) or start(os.path.dirname(path), encoding)
            got = answer(servers[encoding], path, vector)
        except (EOFError, BrokenPipeError) as why:
            got = {"hang" if encoding in servers and servers[encoding].is_silent else "crash": str(why)}
        if got.get("text") is None and "refused" not in got and encoding in servers:
            servers.pop(encoding).end()
            return got, True
        return got, False

    with tempfile.TemporaryDirectory(ignore_cleanup_errors=True) as room:
        for number, vector in enumerate(vectors):
            got, is_lost = ask(f"{room}/{number}", vector) if vector["encoding"] in encodings else (None, False)
            yield ask(f"{room}/{number}", vector)[0] if is_lost else got
        for server in servers.values():
            server.end()


def shown(command, ending, method, vectors, encodings=("utf-16",), options=None, ready=None):
    """Answers of a server that returns its text by a method, as the contents of a hover or as they are, with LSP's negotiation.

    What it says of an error, as a message for the user or in its log, is a refusal. It is `ready` once that notification says so."""
    def start(room, encoding):
        server = Wire(command, subprocess.DEVNULL, cwd=room)
        capabilities = {"general": {"positionEncodings": [encoding]}, "experimental": {"serverStatusNotification": True}}
        server.request("initialize", {"processId": None, "rootUri": None, "initializationOptions": options, "capabilities": capabilities})
        server.notify("initialized", {})
        while ready and not (server.notes and server.notes[-1].get("method") == ready and server.notes[-1]["params"]["quiescent"]):
            server.notes.append(server.receive())
        return server

    def answer(server, path, vector):
        document, server.notes = {"uri": f"file://{path}{ending}"}, []
        with open(path + ending, "w", encoding="utf-8", newline="") as file:
            file.write(vector["text"])
        server.notify("textDocument/didOpen", {"textDocument": {**document, "languageId": "plain", "version": 1, "text": vector["text"]}})
        params = {**document, "textDocument": document, "position": {"line": 0, "character": 0}}
        if "edits" in vector:
            text = server.request("x/edited", {**params, "edits": vector["edits"]}).get("result")
        else:
            server.notify("textDocument/didChange", {"textDocument": {**document, "version": 2}, "contentChanges": vector["changes"]})
            text = server.request(method, params).get("result")
        server.notify("textDocument/didClose", {"textDocument": document})
        faults = [it["params"]["message"] for it in server.notes if "/" in it["method"] and it["params"].get("type") == 1]
        return {"refused": faults[0]} if faults else {"text": text["contents"] if isinstance(text, dict) else text}

    return answers_of(start, answer, vectors, encodings)
