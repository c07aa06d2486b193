"""clangd over the wire, in the encoding that is negotiated.

It shows no text. So the text is taken to be the right one, and a function is put round it: a start before it, and an end after its last
character as clangd counts lines. The text is a comment there, in a branch that the tweak "Swap if branches" returns. Where that comes back
as another text, or can't be asked, the answer is wrong and the text unknown. A refused change is what clangd logs as "Failed to update"."""
import os
import re

from peers.wire import Wire, answers_of, output_of

COMMAND = [os.environ.get("CLANGD", "clangd")]
TITLE = "clangd " + re.search(r"version (\d+)", output_of(*COMMAND, "--version")).group(1)
FILES = ["vectors.jsonl"]
BEFORE, AFTER = "void f(){if(1){/*", "*/}else{}}"


class Clangd(Wire):
    def __init__(self, room, encoding):
        self.path, self.seen = f"{room}/log-{encoding}", 0
        with open(f"{room}/.clang-format", "w", encoding="utf-8") as style:
            style.write("DisableFormat: true\n")
        words = ["--background-index=0", "--clang-tidy=0", "--log=info", "-j=4"]
        super().__init__([*COMMAND, *words], open(self.path, "wb"), cwd=room)
        capabilities = {"offsetEncoding": [encoding], "workspace": {"applyEdit": True}}
        self.request("initialize", {"processId": None, "rootUri": None, "capabilities": capabilities})

    def logged(self):
        """What it logged since the last call."""
        with open(self.path, "rb") as log:
            log.seek(self.seen)
            said = log.read()
            self.seen = log.tell()
        return said.decode("utf-8", "replace")


def end_of(text, width):
    """The end of a text for one that ends lines at LF alone."""
    last = text.rsplit("\n", 1)[-1]
    return {"line": text.count("\n"), "character": sum(map(width, last))}


def answer(server, path, vector):
    from plain import WIDTHS
    document = {"uri": f"file://{path}.cpp"}
    change = lambda version, changes: server.notify("textDocument/didChange", {
        "textDocument": {**document, "version": version}, "contentChanges": changes, "wantDiagnostics": False})
    server.notify("textDocument/didOpen", {"textDocument": {**document, "languageId": "cpp", "version": 1, "text": vector["text"]}})
    change(2, vector["changes"])
    server.request("x/barrier", {})
    said = server.logged()
    if "Failed to update" in said:
        return {"refused": said.split("Failed to update", 1)[1].split("\n")[0]}
    if "text" not in vector["expect"]:
        return {"text": None}
    right, start = vector["expect"]["text"], {"line": 0, "character": 0}
    end = end_of(right, WIDTHS[vector["encoding"]])
    change(3, [{"range": {"start": end, "end": end}, "text": AFTER}])
    change(4, [{"range": {"start": start, "end": start}, "text": BEFORE}])
    server.edits = []
    place = {"line": 0, "character": 9}
    server.request("workspace/executeCommand", {"command": "clangd.applyTweak", "arguments": [
        {"file": document["uri"], "selection": {"start": place, "end": place}, "tweakID": "SwapIfBranches"}]})
    server.notify("textDocument/didClose", {"textDocument": document})
    server.logged()
    for edit in server.edits:
        for one in (one for edits in edit["changes"].values() for one in edits):
            if one["newText"].startswith("{/*") and one["newText"].endswith("*/}"):
                return {"text": one["newText"][3:-3]}
    return {"text": None}


def answers(vectors):
    return answers_of(Clangd, answer, vectors, ("utf-8", "utf-16", "utf-32"))
