"""rust-analyzer over the wire, in the encoding that is negotiated. A request of its own returns its text, with LF alone."""
from peers.wire import output_of, shown

COMMAND = ["rust-analyzer"]
TITLE = " ".join(output_of(*COMMAND, "--version").split()[:2])
FILES = ["vectors.jsonl"]
LINE_ENDS_ARE_LF = True


def answers(vectors):
    options = {"linkedProjects": [{"crates": []}]}  # (it looks for no project, and misses none)
    return shown(COMMAND, ".rs", "rust-analyzer/viewFileText", vectors, ("utf-8", "utf-16", "utf-32"), options,
                 "experimental/serverStatus")
