"""A scripted session with a server of Python: documents are opened, changed and asked about. All that the server answers is returned.

The files are modules of Python's library; changes and requests follow from a seed. Changes are counted in UTF-16 by the plain
program below, after LSP 3.17."""
import json
import os
import random
import re
import subprocess
import threading
import time

MODULES = ["textwrap", "heapq", "bisect", "shlex", "json/decoder", "string", "queue", "fnmatch"]
KINDS = {"LF": "\n", "CRLF": "\r\n", "CR": "\r", "other characters": "\n"}
LINES, TURNS, SECONDS = 220, 8, 60
AT_POSITION = ["completion", "hover", "definition", "documentHighlight", "signatureHelp"]
LIBRARY = os.path.dirname(os.__file__)


def starts(text):
    return [0] + [end.end() for end in re.finditer("\r\n|\r|\n", text)]


def position(text, index):
    line = max(number for number, start in enumerate(starts(text)) if start <= index)
    return {"line": line, "character": len(text[starts(text)[line]:index].encode("utf-16-le")) // 2}


def some_index(chance, text):
    while True:
        index = chance.randint(0, len(text))
        if text[index - 1:index + 1] != "\r\n":
            return index


def source(module, kind):
    """The first lines of a module. Those of "other characters" have emoji, and characters that str.splitlines takes for line ends."""
    with open(os.path.join(LIBRARY, module + ".py"), encoding="utf-8") as file:
        lines = file.read().split("\n")[:LINES]
    if kind == "other characters":
        for number in range(0, len(lines), 9):
            if lines[number].strip() and not lines[number].rstrip().endswith("\\"):
                lines[number] += "  # \U0001F600 é\x0c \u2028 漢"
    return KINDS[kind].join(lines + [""])


def a_change(chance, text, kind):
    """One change, and the text after it."""
    first = some_index(chance, text)
    last = first if chance.random() < 0.6 else some_index(chance, text[:first + chance.randint(0, 40)])
    first, last = sorted((first, last))
    end, is_other = KINDS[kind], kind == "other characters"
    new = chance.choice(["x", "", "self.", "import os" + end, end, "    return heapq" + end, "(", "é" if is_other else "e",
                         "\U0001F600" if is_other else "_"])
    range_ = {"start": position(text, first), "end": position(text, last)}
    return {"range": range_, "text": new}, text[:first] + new + text[last:]


class Client:
    def __init__(self, command, environment):
        self.process = subprocess.Popen(command, stdin=subprocess.PIPE, stdout=subprocess.PIPE, stderr=subprocess.DEVNULL, env=environment)
        self.answers, self.diagnostics, self.number = {}, {}, 0
        self.arrived = threading.Condition()
        threading.Thread(target=self.listen, daemon=True).start()

    def send(self, **message):
        body = json.dumps({"jsonrpc": "2.0", **message}).encode()
        self.process.stdin.write(b"Content-Length: %d\r\n\r\n%s" % (len(body), body))
        self.process.stdin.flush()

    def listen(self):
        output = self.process.stdout
        while True:
            header = b""
            while not header.endswith(b"\r\n\r\n"):
                byte = output.read(1)
                if not byte:
                    return
                header += byte
            self.take(json.loads(output.read(int(re.search(rb"(?i)content-length: *(\d+)", header).group(1)))))

    def take(self, message):
        with self.arrived:
            if "method" not in message:
                self.answers[message["id"]] = message
            elif message["method"] == "textDocument/publishDiagnostics":
                self.diagnostics[message["params"]["uri"]] = message["params"]["diagnostics"]
            elif "id" in message:
                self.send(id=message["id"], result=None)
            self.arrived.notify_all()

    def request(self, method, params):
        self.number += 1
        number = self.number
        self.send(id=number, method=method, params=params)
        with self.arrived:
            assert self.arrived.wait_for(lambda: number in self.answers, SECONDS), f"{method} isn't answered"
            answer = self.answers.pop(number)
        return {"error": answer["error"].get("message", "")[:200]} if "error" in answer else {"result": answer.get("result")}

    def end(self):
        self.request("shutdown", None)
        self.send(method="exit")
        self.process.stdin.close()
        self.process.wait(SECONDS)


def requests(uri, at, is_fourth):
    """What is asked after a change: the names and params of the requests."""
    document, options = {"textDocument": {"uri": uri}}, {"tabSize": 4, "insertSpaces": True}
    where = {**document, "position": at}
    asked = [(method, where) for method in AT_POSITION] + [("references", {**where, "context": {"includeDeclaration": True}})]
    if is_fourth:
        from_start = {"start": {"line": 0, "character": 0}, "end": at}
        asked += [("documentSymbol", document), ("foldingRange", document), ("rename", {**where, "newName": "renamed"}),
                  ("formatting", {**document, "options": options}), ("rangeFormatting", {**document, "options": options, "range": from_start})]
    return asked


def run(command, environment, folder, kind, modules):
    """The texts after each message as they are meant, and the answers: a list of (name, answer)."""
    os.makedirs(folder, exist_ok=True)
    client, texts, answers = Client(command, environment), [], []
    client.request("initialize", {"processId": None, "rootUri": "file://" + folder, "capabilities": {}})
    client.send(method="initialized", params={})
    for module in modules:
        chance, text = random.Random(module + kind), source(module, kind)
        path = os.path.join(folder, module.replace("/", "_") + ".py")
        with open(path, "w", encoding="utf-8", newline="") as file:
            file.write(text)
        uri = "file://" + path
        client.send(method="textDocument/didOpen", params={"textDocument": {"uri": uri, "languageId": "python", "version": 1, "text": text}})
        for turn in range(TURNS):
            changes = []
            for _ in range(chance.choice([1, 1, 2, 4])):
                change, text = a_change(chance, text, kind)
                changes.append(change)
            client.send(method="textDocument/didChange", params={"textDocument": {"uri": uri, "version": turn + 2}, "contentChanges": changes})
            texts.append(text)
            for method, params in requests(uri, position(text, some_index(chance, text)), turn % 4 == 3):
                answers.append((f"{method} in {module}, turn {turn}", client.request("textDocument/" + method, params)))
        time.sleep(2.5)  # (diagnostics come half a second after the last change)
        diagnostics = sorted(json.dumps(one, sort_keys=True) for one in client.diagnostics.get(uri, []))
        answers.append((f"diagnostics in {module}", diagnostics))
        client.send(method="textDocument/didClose", params={"textDocument": {"uri": uri}})
    client.end()
    return texts, answers
