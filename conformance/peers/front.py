#!/usr/bin/env python3
"""Counts what servers have right by themselves, behind `bin/front`, and behind `bin/front --whole`.

    LSPSYNC=path /usr/bin/python3 peers/front.py [--named] [--why] [PEER ..] >> RESULTS.txt

The vectors that LSP 3.17 decides in UTF-16 are sent through `front` in one session, each as a document of its own that is
changed once. What passes on is kept, and each server is then asked that as it is asked the vectors themselves. `--named`
asks no random vectors, and `--why` prints what came instead of what is right behind `front --whole`."""
import json
import os
import sys

TOP = os.path.dirname(os.path.dirname(os.path.abspath(__file__)))
BIN = os.path.join(os.path.dirname(TOP), "bin")
sys.path[0] = TOP  # not this folder, whose modules have the names of their peers
sys.path.append(BIN)
from peers import wire  # noqa: E402
from peers.table import found_peers, judge, print_table, vectors_of  # noqa: E402
from session_log import Log, put, written_header  # noqa: E402

PEERS = ["pylsp", "fortls", "gopls", "clangd"]
FRONT = [sys.executable, os.path.join(BIN, "front"), "--strict"]  # (else it passes all on where there is no lspsync)
WAYS = {"behind front": FRONT, "behind front --whole": [*FRONT, "--whole"]}
HEAD = """
Servers by themselves and behind bin/front, written by peers/front.py: how many of the {count} vectors that LSP 3.17
decides in UTF-16, named and random, each has right. Characters are sent as they are, not escaped, as by most editors.
"""
# Why a server has not all right behind `front --whole`
WHY = """
fortls splits texts at U+2028, U+0085, form feeds and whatever else str.splitlines takes for a line end, whole texts
too: each text that it has wrong behind front --whole has one of these."""


def serve():
    """Is a server that returns the changes that came."""
    changes = []
    for record in Log(0):
        message = json.loads(record.body)
        if message["method"] == "textDocument/didChange":
            changes.append(message["params"]["contentChanges"])
        if "id" in message:
            result = changes if message["method"] == "changes" else {"capabilities": {}}
            body = json.dumps({"jsonrpc": "2.0", "id": message["id"], "result": result}).encode()
            put(written_header(len(body)) + body)


def passed(vectors, words):
    """Returns the vectors with the changes that come to a server behind some words of a command line."""
    session = wire.Wire([*words, sys.executable, __file__, "--serve"], None)
    session.request("initialize", {"processId": None, "rootUri": None, "capabilities": {}})
    for number, vector in enumerate(vectors):
        document = {"uri": f"file:///{number}"}
        opened = {**document, "languageId": "plain", "version": 1, "text": vector["text"]}
        changed = {"textDocument": {**document, "version": 2}, "contentChanges": vector["changes"]}
        session.notify("textDocument/didOpen", {"textDocument": opened})
        session.notify("textDocument/didChange", changed)
        session.notify("textDocument/didClose", {"textDocument": document})
    changes = session.request("changes", {})["result"]
    session.end()
    return [{**vector, "changes": it} for vector, it in zip(vectors, changes, strict=True)]


def main(words):
    if "--help" in words:
        print(__doc__)
        return
    if "--serve" in words:
        serve()
        return
    wire.ESCAPES = False
    vectors = [it for it in vectors_of("vectors.jsonl") if it["standard"] == "says" and it["encoding"] == "utf-16"]
    vectors = [it for it in vectors if "about" in it or "--named" not in words]
    asked = {"by itself": vectors, **{way: passed(vectors, options) for way, options in WAYS.items()}}
    rows, wrong = [["server", *asked]], []
    for peer in found_peers([it for it in words if not it.startswith("-")] or PEERS):
        # (the answers are asked to their end, which ends the server)
        answers = {way: [(judge(peer, *it), *it) for it in zip(came, list(peer.answers(came)))] for way, came in asked.items()}
        rows.append([peer.TITLE, *(str(sum(word.startswith("right") for word, *_ in it)) for it in answers.values())])
        wrong += [f"{peer.TITLE}: {vector['name']}: {word}: {got} for {vector['expect']['text']!r}"
                  for word, vector, got in answers["behind front --whole"] if word != "right"]
    print(HEAD.format(count=len(vectors)))
    print_table(rows)
    print(WHY)
    if "--why" in words:
        print(f"\nWrong behind front --whole: {len(wrong)}", *wrong, sep="\n")


if __name__ == "__main__":
    main(sys.argv[1:])
