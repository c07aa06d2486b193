#!/usr/bin/env python3
"""Writes the log of a made session to standard output, of about so many bytes. The same words give the same log.

Each log begins with initialize, initialized and the documents that are opened. Behind that comes, as its kind says:

  keystrokes   one character a message: mostly where the one before was typed, one in fifty elsewhere
  requests     the same, and a request for completion after each
  documents    keystrokes in many documents in turn
  batches      many changes a message, all over the document
  replace-all  many changes a message, a word of each line, from the last line to the first, as editors send it
  whole        the whole text of a document, with one character more in the middle
  opens        documents that are opened and closed again
  foreign      requests and notifications of 10 KB that aren't about texts, and one keystroke in twenty messages
  tiny         notifications of 30 bytes
"""
import argparse
import itertools
import json
import random
import sys

LINE = "    let answer = question.map(|x| x+1);\n"
OTHER_LINE = "    // Größe und Höhe, nicht mehr als 9 €\n"
LETTERS = [json.dumps(letter, ensure_ascii=False) for letter in "aeinorst lducmh (){};=.é"]
EMPTY = '""'
LINE_END = '"\\n"'
CHANGE = '{"range":{"start":{"line":%d,"character":%d},"end":{"line":%d,"character":%d}},"rangeLength":%d,"text":%s}'
DID_CHANGE = (
    '{"jsonrpc":"2.0","method":"textDocument/didChange","params":'
    '{"textDocument":{"uri":"%s","version":%d},"contentChanges":[%s]}}'
)
FOREIGN_BYTES = 10_000
MAIN = "file:///home/user/project/src/main.rs"


def frame(body):
    body = body.encode()
    return b"Content-Length: %d\r\n\r\n" % len(body) + body


def message(method, params, request_id=None):
    call = {"jsonrpc": "2.0", "method": method, "params": params}
    if request_id is not None:
        call["id"] = request_id
    return frame(json.dumps(call, separators=(",", ":"), ensure_ascii=False))


def text_of(lines):
    return "".join(OTHER_LINE if number % 8 == 3 else LINE for number in range(lines))


def text_of_bytes(size):
    return (LINE * (size // len(LINE) + 1))[:size]


def opened(uri, text):
    document = {"uri": uri, "languageId": "rust", "version": 1, "text": text}
    return message("textDocument/didOpen", {"textDocument": document})


class Typist:
    """Someone who types into a document, which keeps about the length that it has."""

    def __init__(self, chance, uri, lines):
        self.chance, self.uri, self.version = chance, uri, 1
        self.widths = [len(OTHER_LINE if number % 8 == 3 else LINE) - 1 for number in range(lines)]
        self.most = lines + lines // 100
        self.line = self.column = 0

    def open(self):
        return opened(self.uri, text_of(len(self.widths)))

    def jump(self):
        self.line = int(self.chance() * len(self.widths))
        self.column = int(self.chance() * (self.widths[self.line] + 1))

    def put(self, stop_line, stop_column, length, text):
        return CHANGE % (self.line, self.column, stop_line, stop_column, length, text)

    def change(self):
        """The next change: a letter put in, one taken away, or the end of a line put in or taken away."""
        draw = self.chance()
        if draw < 0.02:
            self.jump()
        width = self.widths[self.line]
        if width > 100:
            return self.cut_line(width)
        if draw > 0.97:
            return self.end_line(width)
        if draw > 0.89 and self.column > 0:
            self.column -= 1
            self.widths[self.line] = width - 1
            return self.put(self.line, self.column + 1, 1, EMPTY)
        change = self.put(self.line, self.column, 0, LETTERS[int(self.chance() * len(LETTERS))])
        self.column += 1
        self.widths[self.line] = width + 1
        return change

    def cut_line(self, width):
        self.column = min(self.column, 40)
        self.widths[self.line] = self.column
        return self.put(self.line, width, width - self.column, EMPTY)

    def end_line(self, width):
        if len(self.widths) < self.most or self.line + 1 == len(self.widths):
            change = self.put(self.line, self.column, 0, LINE_END)
            self.widths[self.line] = self.column
            self.widths.insert(self.line + 1, width - self.column)
            self.line, self.column = self.line + 1, 0
            return change
        self.column = width
        change = self.put(self.line + 1, 0, 1, EMPTY)
        self.widths[self.line] += self.widths.pop(self.line + 1)
        return change

    def message(self, changes):
        self.version += 1
        return frame(DID_CHANGE % (self.uri, self.version, changes))


def keystrokes(options, typist):
    while True:
        yield typist.message(typist.change())


def requests(options, typist):
    for number in itertools.count(2):
        yield typist.message(typist.change())
        place = {"line": typist.line, "character": typist.column}
        yield message("textDocument/completion", {"textDocument": {"uri": typist.uri}, "position": place}, number)


def documents(options, chance):
    typists = [Typist(chance, "file:///home/user/project/src/%d.rs" % n, options.lines) for n in range(options.documents)]
    for typist in typists:
        yield typist.open()
    while True:
        for typist in typists:
            yield typist.message(typist.change())


def batches(options, typist):
    while True:
        changes = []
        for _ in range(options.changes):
            typist.jump()
            changes.append(typist.change())
        yield typist.message(",".join(changes))


def replace_all(options, typist):
    words = [json.dumps("answer"), json.dumps("number")]
    while True:
        rows = range(min(options.changes, options.lines) - 1, -1, -1)
        yield typist.message(",".join(CHANGE % (row, 8, row, 14, 6, words[typist.version % 2]) for row in rows))


def whole(options, chance):
    text = text_of_bytes(options.text)
    yield opened(MAIN, text)
    for version in itertools.count(2):
        place = int(chance() * len(text))
        change = json.dumps(text[:place] + "é" + text[place:], ensure_ascii=False)
        yield frame(DID_CHANGE % (MAIN, version, '{"text":%s}' % change))


def opens(options, chance):
    text = text_of_bytes(options.text)
    for number in itertools.count(1):
        uri = "file:///home/user/project/src/%d.rs" % number
        yield opened(uri, text)
        yield message("textDocument/didClose", {"textDocument": {"uri": uri}})


def diagnostic(number):
    place = {"start": {"line": number, "character": 8}, "end": {"line": number, "character": 14}}
    said = "cannot find value `answer` in this scope"
    return {"range": place, "severity": 1, "code": "E0425", "source": "rustc", "message": said}


def file_event(number):
    return {"uri": "file:///home/user/project/target/debug/build/%d" % number, "type": 2}


def some(item):
    """As many items as 10 KB hold."""
    length = len(json.dumps(item(100), separators=(",", ":")))
    return [item(number) for number in range(FOREIGN_BYTES // length)]


def foreign_params(uri):
    """Params of 10 KB, each with its method, and whether it is a request."""
    document = {"uri": uri}
    prose = "Maps an `Option<T>` to `Option<U>` by applying a function to a \"contained\" value.\n\n"
    prose *= FOREIGN_BYTES // len(prose)
    place = {"line": 10, "character": 8}
    item = {"label": "map", "kind": 2, "documentation": {"kind": "markdown", "value": prose}, "sortText": "7fffffff"}
    settings = {"section%d" % n: {"enable": n % 2 == 0, "limit": n * 10, "paths": ["src", "tests"]} for n in range(FOREIGN_BYTES // 66)}
    context = {"diagnostics": some(diagnostic)}
    report = {"kind": "report", "message": prose, "percentage": 50}
    hover = {"textDocument": document, "position": place, "context": {"seen": prose}}
    return [
        ("textDocument/hover", hover, True),
        ("completionItem/resolve", item, True),
        ("textDocument/codeAction", {"textDocument": document, "range": {"start": place, "end": place}, "context": context}, True),
        ("workspace/didChangeConfiguration", {"settings": settings}, False),
        ("workspace/didChangeWatchedFiles", {"changes": some(file_event)}, False),
        ("$/progress", {"token": "indexing", "value": report}, False),
    ]


def foreign(options, typist):
    calls = foreign_params(typist.uri)
    for number in itertools.count(2):
        if typist.chance() < 0.05:
            yield typist.message(typist.change())
        method, params, is_request = calls[int(typist.chance() * len(calls))]
        yield message(method, params, number if is_request else None)


def tiny(options, chance):
    while True:
        yield frame('{"jsonrpc":"2.0","method":"a"}')


# Those that begin with one document, in which someone types, and the others
TYPING = {"keystrokes": keystrokes, "requests": requests, "batches": batches, "replace-all": replace_all, "foreign": foreign}
KINDS = {"documents": documents, "whole": whole, "opens": opens, "tiny": tiny}


def session(options):
    capabilities, chance = {"general": {"positionEncodings": ["utf-16"]}}, random.Random(options.seed).random
    yield message("initialize", {"processId": None, "rootUri": None, "capabilities": capabilities}, 1)
    yield message("initialized", {})
    if options.kind in KINDS:
        yield from KINDS[options.kind](options, chance)
    else:
        typist = Typist(chance, MAIN, options.lines)
        yield typist.open()
        yield from TYPING[options.kind](options, typist)


def number(text):
    """A number that may end in K, M or G."""
    powers = {"K": 1_000, "M": 1_000_000, "G": 1_000_000_000}
    if text[-1:] in powers:
        return int(float(text[:-1]) * powers[text[-1]])
    return int(text)


def parsed(words):
    parser = argparse.ArgumentParser(description=__doc__, formatter_class=argparse.RawDescriptionHelpFormatter)
    parser.add_argument("kind", choices=[*TYPING, *KINDS])
    parser.add_argument("--bytes", type=number, default=1_000_000, help="length of the log, at least (as 64M; 1M)")
    parser.add_argument("--lines", type=number, default=1_000, help="lines of each document (1,000)")
    parser.add_argument("--documents", type=number, default=1_000, help="how many documents (1,000)")
    parser.add_argument("--changes", type=number, default=10_000, help="changes of a batch (10,000)")
    parser.add_argument("--text", type=number, default=1_000_000, help="bytes of a whole text (1M)")
    parser.add_argument("--seed", type=number, default=1)
    return parser.parse_args(words)


def write(options, out):
    """Writes the log, some frames at a time. Answers how many messages it has."""
    held, size, written, messages = [], 0, 0, 0
    for part in session(options):
        held.append(part)
        size += len(part)
        messages += 1
        if written + size >= options.bytes:
            break
        if size >= 262_144:
            out.write(b"".join(held))
            written += size
            held, size = [], 0
    out.write(b"".join(held))
    return messages


if __name__ == "__main__":
    try:
        write(parsed(sys.argv[1:]), sys.stdout.buffer)
    except BrokenPipeError:
        sys.exit(1)
