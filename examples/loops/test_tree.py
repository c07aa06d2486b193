#!/usr/bin/env python3
"""Tests tree.py over a stand-in for tree-sitter, by random changes: what no edit covers stays as it was, and points are those of the texts."""
import json
import random
import unittest

from laspidru import Server

import tree

URI, PIECES = "file:///a", ["", "x", "é", "😀y", "\n", "one\ntwo", "\n\n€"]


def point(data, offset):
    before = data[:offset]
    return before.count(b"\n"), offset - before.rfind(b"\n") - 1


class Tree:
    """Which byte of the old text each byte is; None for a new one."""

    def __init__(self, data):
        self.data, self.kept, self.edits = data, list(range(len(data))), []

    def edit(self, *, start_byte, old_end_byte, new_end_byte, **points):
        self.kept[start_byte:old_end_byte] = [None] * (new_end_byte - start_byte)
        self.edits.insert(0, (start_byte, old_end_byte, new_end_byte, points))


class Parser:
    """Parses by counting how often it began from nothing."""

    def __init__(self):
        self.anew = 0

    def parse(self, data, old=None):
        self.anew += old is None
        if old is not None:
            assert len(old.kept) == len(data) and all(at is None or old.data[at] == data[new] for new, at in enumerate(old.kept))
            moved = 0
            for start, old_end, new_end, points in old.edits:
                made = old.data[:start] + data[start + moved:new_end + moved]  # (the edits before it in the text come later)
                ends = point(old.data, start), point(old.data, old_end), point(made, new_end)
                assert ends == (points["start_point"], points["old_end_point"], points["new_end_point"]), (points, ends)
                moved += new_end - old_end
        return Tree(data)


def body(method, number=None, **params):
    return json.dumps({"jsonrpc": "2.0", **({} if number is None else {"id": number}), "method": method, "params": params}).encode()


def changed(version, *changes):
    return body("textDocument/didChange", textDocument={"uri": URI, "version": version}, contentChanges=list(changes))


def any_change(chance):
    start, end = sorted((chance.randrange(5), chance.randrange(0, 9, 2)) for _ in range(2))
    places = [{"line": line, "character": character} for line, character in (start, end)]
    return {"range": dict(zip(("start", "end"), places)), "text": chance.choice(PIECES)}


class TreeTest(unittest.TestCase):
    def setUp(self):
        self.server, self.trees, self.parser = Server(), {}, Parser()
        self.handle(body("initialize", 1, capabilities={}))

    def handle(self, data):
        return tree.handle(self.server, data, self.trees, self.parser.parse)

    def opened(self, text):
        self.handle(body("textDocument/didOpen", textDocument={"uri": URI, "languageId": "c", "version": 0, "text": text}))

    def test_random_changes(self):
        chance = random.Random(1)
        self.opened("one\n😀 two\nthree €\n")
        kinds = [self.handle(changed(version, *(any_change(chance) for _ in range(chance.randrange(4))))).kind for version in range(1, 1000)]
        self.assertGreater(kinds.count("changed"), 500)
        self.assertEqual((self.parser.anew, self.trees[URI].data), (1, self.server.text(URI).encode()))

    def test_what_is_no_change(self):
        self.opened("one")
        old = self.trees[URI]
        for refused in (changed(0, {"text": ""}), body("textDocument/didChange"), b"no JSON", b"[]"):
            self.handle(refused)
            self.assertIs(self.trees[URI], old)
        self.handle(body("textDocument/didClose", textDocument={"uri": URI}))
        self.assertEqual((self.parser.anew, self.trees), (1, {}))


unittest.main()
