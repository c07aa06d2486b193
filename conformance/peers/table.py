#!/usr/bin/env python3
"""Asks the peers that are installed the vectors, and prints what they answer: table.py [OPTION ..] [PEER ..]

    LASPIDRU_TRIXIE=FOLDER ../tools/peers    # on Debian 12: asks Debian 13's peers
    /usr/bin/python3 peers/table.py --named --with ../build/debian13.json > RESULTS.txt

Each module of this folder is a peer, with TITLE, the FILES that it is asked, and `answers`; its COMMAND starts a server. Where LSP 3.17
decides, an answer is right or wrong (or refused); where it leaves a case open, none is wrong, but a peer that hangs or ends.

    --named        asks no random vectors
    --why          prints what came instead of what is right
    --json FILE    writes the word for each answer
    --with FILE    has in the table too what --json wrote elsewhere"""
import argparse
import datetime
import importlib
import json
import os
import re
import subprocess
import sys

TOP = os.path.dirname(os.path.dirname(os.path.abspath(__file__)))
sys.path[0] = TOP  # not this folder, whose modules have the names of their peers
import ask as asking  # noqa: E402
PEERS = ["pylsp", "pygls", "fortls", "gopls", "clangd", "rust_analyzer", "vscode", "ropey", "nvim", "eglot"]
FILES = ["vectors.jsonl", "edits.jsonl"]


def judge(peer, vector, got):
    if got is None:
        return "-"
    for word in ("hang", "crash"):
        if word in got:
            return word.upper()
    says, expect = vector["standard"] == "says", vector["expect"]
    if "refused" in got:
        return "refuses" if says or "refused" not in expect else "same"
    if "text" in expect and got["text"] is not None:
        seen = (lambda text: re.sub("\r\n?", "\n", text)) if getattr(peer, "LINE_ENDS_ARE_LF", False) else str
        mine, right = seen(got["text"]), seen(expect["text"])
        if mine == right:
            return "right" if says else "same"
        if getattr(peer, "FINAL_LINE_END_IS_APART", False) and mine.rstrip("\n") == right.rstrip("\n") and abs(len(mine) - len(right)) == 1:
            return "right*" if says else "same"
    return "WRONG" if says else "other"


def vectors_of(name):
    with open(os.path.join(asking.DATA, name), encoding="utf-8", newline="\n") as file:
        return [json.loads(line) for line in file.read().split("\n")[:-1]]


def ask(peer, is_named):
    """The word for each vector that a peer is asked, and what it answers."""
    found = {}
    for name in peer.FILES:
        vectors = [v for v in vectors_of(name) if "about" in v or not is_named and v["standard"] == "says"]
        for vector, got in zip(vectors, peer.answers(vectors)):
            found[vector["name"]] = (judge(peer, vector, got), got)
    return found


def print_table(rows):
    """Prints rows with their columns under each other."""
    widths = [max(map(len, column)) for column in zip(*rows)]
    for row in rows:
        print("  ".join(cell.ljust(width) for cell, width in zip(row, widths)).rstrip())


def group_of(vector):
    return vector["name"].split("/")[0]


def share(words):
    """Returns how many of the cases that were asked are right."""
    words = [word for word in words if word != "-"]
    return f"{sum(word.startswith('right') for word in words)}/{len(words)}" if words else "-"


HEAD = """\
What peers answer, written by peers/table.py --named on {day}. The files in peers/ say how each is asked. The named cases are nasty on
purpose: no share here is a rate of daily life.

Cases that LSP 3.17 decides, and how many of each group are right (all: of a didChange; edits: of a TextEdit[]):
"""
OPEN = """
Named cases that it leaves open, and what each peer of the table above does: s the same as this project chose, o other, r refuses, H hangs,
C ends, - not asked:
"""


def print_tables(words):
    """Prints what is decided, a row for each peer, and what is open, a column for each."""
    key = lambda title: (title.split()[0].lower(), list(map(int, re.findall(r"\d+", title))))
    peers = dict(sorted(words.items(), key=lambda item: key(item[0])))
    files = [[v for v in vectors_of(name) if any(v["name"] in found for found in peers.values())] for name in FILES]
    groups = {}
    for messages, vectors in zip((True, False), files):
        for vector in (v for v in vectors if v["standard"] == "says"):
            for group in [group_of(vector), "all"] if messages else [group_of(vector)]:
                groups.setdefault(group, []).append(vector["name"])
    groups["all"], groups["edits"] = (groups.pop(name, []) for name in ("all", "edits"))
    print(HEAD.format(day=datetime.date.today()))
    counts = lambda found: (share(found.get(name, "-") for name in names) for names in groups.values())
    rows = ((str(number), title, *counts(found)) for number, (title, found) in enumerate(peers.items(), 1))
    print_table([("", "peer", *groups), *rows])
    print(OPEN)
    is_open = [v for v in sum(files, []) if v["standard"] == "open"]
    chosen = {v["name"]: "refused" if "refused" in v["expect"] else "text" for v in is_open}
    rows = ((name, here, *(found.get(name, "-")[0] for found in peers.values())) for name, here in chosen.items())
    print_table([("case", "here", *(str(number) for number in range(1, len(peers) + 1))), *rows])


def found_peers(names):
    for name in names:
        try:
            yield importlib.import_module("peers." + name)
        except (ImportError, OSError, StopIteration, subprocess.SubprocessError) as why:
            print(f"{name} isn't asked: {why}", file=sys.stderr)


def main():
    parser = argparse.ArgumentParser(description=__doc__, formatter_class=argparse.RawDescriptionHelpFormatter, usage=argparse.SUPPRESS)
    for name in ("named", "why"):
        parser.add_argument("--" + name, action="store_true", help=argparse.SUPPRESS)
    parser.add_argument("--json", help=argparse.SUPPRESS)
    parser.add_argument("--with", dest="others", action="append", default=[], help=argparse.SUPPRESS)
    parser.add_argument("peers", nargs="*", help=argparse.SUPPRESS)
    asked = parser.parse_args()
    found = {peer.TITLE: ask(peer, asked.named) for peer in found_peers(asked.peers or PEERS)}
    words = {title: {name: word for name, (word, _) in answers.items()} for title, answers in found.items()}
    if asked.json:
        with open(asked.json, "w", encoding="utf-8") as file:
            json.dump(words, file, indent=1)
    for path in asked.others:
        with open(path, encoding="utf-8") as file:
            words.update(json.load(file))
    if not words:
        sys.exit("table.py: none of the peers is installed")
    print_tables(words)
    if asked.why:
        vectors = {v["name"]: v for name in FILES for v in vectors_of(name)}
        print("\nNamed cases that LSP 3.17 decides, and that a peer doesn't have right:\n")
        for title, name, word, got in ((title, name, *answer) for title, answers in found.items() for name, answer in answers.items()):
            if "about" in vectors[name] and vectors[name]["standard"] == "says" and word not in ("right", "-"):
                print(f"{title}: {name}: {word}: {got} for {vectors[name]['expect']['text']!r}")


if __name__ == "__main__":
    main()
