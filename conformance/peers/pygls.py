"""pygls: a server by it, which shows its text in a hover. It takes UTF-16 where it is offered, so nothing else is."""
import sys

COMMAND = [sys.executable, __file__]
FILES = ["vectors.jsonl"]


def main():
    sys.path.pop(0)  # (this folder's modules have the names of their peers)
    from lsprotocol.types import Hover
    from pygls.server import LanguageServer
    server = LanguageServer("peer", "1")

    @server.feature("textDocument/hover")
    def hover(asked):
        return Hover(contents=server.workspace.get_text_document(asked.text_document.uri).source)
    server.start_io()


if __name__ == "__main__":
    main()
else:
    from importlib.metadata import version
    from peers.wire import shown
    TITLE = "pygls " + version("pygls")
    answers = lambda vectors: shown(COMMAND, ".txt", "textDocument/hover", vectors, ("utf-8", "utf-16", "utf-32"))
