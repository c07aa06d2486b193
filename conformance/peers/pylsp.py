"""pylsp: its server, which shows its text in a hover, lints nothing, and says what a change raises. It negotiates no encoding."""
import sys

COMMAND = [sys.executable, __file__]
FILES = ["vectors.jsonl"]


def main():
    sys.path.pop(0)  # (this folder's modules have the names of their peers)
    from pylsp import python_lsp

    class Server(python_lsp.PythonLSPServer):
        def lint(self, *_, **__):
            pass

        def m_text_document__did_change(self, **params):
            try:
                super().m_text_document__did_change(**params)
            except Exception as fault:  # it logs it, and goes on
                self._endpoint.notify("window/showMessage", {"type": 1, "message": repr(fault)})

        def m_text_document__hover(self, textDocument=None, **_):
            return {"contents": self.workspace.get_document(textDocument["uri"]).source}

    python_lsp.start_io_lang_server(sys.stdin.buffer, sys.stdout.buffer, False, Server)


if __name__ == "__main__":
    main()
else:
    from importlib.metadata import version
    from peers.wire import shown
    TITLE = "pylsp " + version("python-lsp-server")
    answers = lambda vectors: shown(COMMAND, ".py", "textDocument/hover", vectors)
