"""gopls over the wire, in UTF-16. Its debug server has a page for each open file, with its text and the SHA-256 of that.

Without the command `go` it has no files, and so no pages."""
import hashlib
import html
import os
import re
import shutil
import socket
import subprocess
import urllib.request

from peers.wire import Wire, answers_of, output_of

if shutil.which("go") is None:
    raise ImportError("gopls needs the command go (on Debian: golang-go)")
COMMAND = ["gopls", "serve"]
VERSION = output_of("dpkg-query", "-W", "-f", "${Version}", "gopls")
# (Debian's first packages have the version of the tools that gopls came with)
TITLE = ("gopls of x/tools " if VERSION.startswith("1:") else "gopls ") + VERSION.split(":")[-1].split("+")[0]
FILES = ["vectors.jsonl"]


def free_port():
    with socket.socket() as door:
        door.bind(("127.0.0.1", 0))
        return door.getsockname()[1]


class Gopls(Wire):
    def __init__(self, room, _):
        self.port, env = free_port(), {**os.environ, "GO111MODULE": "off", "GOPATH": room, "GOCACHE": room, "HOME": room}
        super().__init__([*COMMAND, f"-debug=localhost:{self.port}"], subprocess.DEVNULL, env=env, cwd=room)
        self.request("initialize", {"processId": None, "rootUri": f"file://{room}", "capabilities": {}})
        self.notify("initialized", {})

    def page(self, path):
        with urllib.request.urlopen(f"http://localhost:{self.port}{path}", timeout=10) as page:
            return page.read().decode()


def shown(page):
    """The text on a page, if its sum is that of the page. NULs are shown as U+FFFD."""
    text = html.unescape(re.search(r"<pre>(.*)</pre>", page, re.S).group(1))
    wanted = re.search(r"Identifier: <b>(\w+)</b>", page).group(1)
    for one in (text, text.replace("\ufffd", "\0")):
        if hashlib.sha256(one.encode()).hexdigest() == wanted:
            return one
    return None


def pages(server, vector):
    """Yields the pages of open files, which are named by the sums of their texts. The right text's is the first: the list
    of them gets longer each time that it is asked, and slower."""
    if "text" in vector["expect"]:
        yield server.page("/file/1/" + hashlib.sha256(vector["expect"]["text"].encode()).hexdigest())
    yield from map(server.page, re.findall(r'href="?(/file/[^" >]*)', server.page("/session/1")))


def answer(server, path, vector):
    document = {"uri": f"file://{path}.go"}
    server.notify("textDocument/didOpen", {"textDocument": {**document, "languageId": "go", "version": 1, "text": vector["text"]}})
    server.notify("textDocument/didChange", {"textDocument": {**document, "version": 2}, "contentChanges": vector["changes"]})
    server.request("textDocument/foldingRange", {"textDocument": document})
    page = next((it for it in pages(server, vector) if f"{path}.go<" in it), None)
    server.notify("textDocument/didClose", {"textDocument": document})
    if page is None:
        return {"text": None}
    version = re.search(r"Version: <b>(.*?)</b>", page).group(1)
    return {"text": shown(page)} if version.startswith("2") else {"refused": "version " + version}


def answers(vectors):
    return answers_of(Gopls, answer, vectors)
