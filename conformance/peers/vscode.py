"""vscode-languageserver-textdocument, by vscode.js' server. UTF-16 alone."""
import os

from peers.wire import output_of, shown

COMMAND = ["node", os.path.join(os.path.dirname(os.path.abspath(__file__)), "vscode.js")]
VERSION = 'require("vscode-languageserver/node"); require("vscode-languageserver-textdocument/package.json").version'
TITLE = "vscode-textdocument " + output_of("node", "-p", VERSION)
FILES = ["vectors.jsonl", "edits.jsonl"]


def answers(vectors):
    return shown(COMMAND, ".txt", "textDocument/hover", vectors)
