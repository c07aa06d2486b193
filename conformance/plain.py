"""Text synchronisation as LSP 3.17 says it, in plain Python, and the mistakes that implementations make.

It was written from the standard's words and this project's choices, not from its code. `Plain()` answers each vector;
`Plain("code-points")` makes one mistake, which `test` expects a named case to find. MISTAKES has them all. It can be asked as a
program too: ask.py python3 plain.py [MISTAKE]"""
import json
import re
import sys

WIDTHS = {"utf-8": lambda c: len(c.encode("utf-8", "surrogatepass")), "utf-16": lambda c: 1 + (c > "\uffff"), "utf-32": lambda c: 1}

MISTAKES = {
    "code-points": "a character counts as one unit, whatever the encoding",
    "only-utf-16": "UTF-16 units are counted, whatever was negotiated",
    "graphemes": "a combining mark or a joiner counts as nothing",
    "bmp-end": "U+FFFF counts two units",
    "splitlines": "U+2028, U+2029, U+0085, VT, FF, FS, GS and RS end lines, as in Python's str.splitlines",
    "no-lone-cr": "a CR alone ends no line",
    "crlf-is-two": "a CRLF ends two lines",
    "crlf-split": "a character past the end of a CRLF line lies between CR and LF",
    "past-the-end": "a character past the line's end runs on into the next line",
    "refuse-past-the-end": "a character past the line's end is refused",
    "one-past-the-end": "a character past the line's end is clamped behind the line end",
    "no-final-line": "the empty line after the last line end doesn't count",
    "stale-lines": "the line table isn't computed anew where CR and LF meet",
    "short-characters": "a character is kept in 16 bits",
    "old-text": "all changes of a message count in the text before it",
    "last-change": "only the last change of a message is applied",
    "first-change": "only the first change of a message is applied",
    "backwards": "changes are applied from the last to the first",
    "whole-first": "a whole text ends a message: later changes are dropped",
    "whole-refused": "a whole text among ranges is refused",
    "range-length-refused": "a change with a rangeLength is refused",
    "drop-bom": "a byte order mark at the start of a text is dropped",
    "open-bom": "a byte order mark is dropped where a document is opened",
    "strip-inserted": "blanks around an inserted text are dropped",
    "no-controls": "control characters of an inserted text are dropped",
    "own-line-ends": "inserted line ends become the first one of the document",
    "template": "an inserted text is taken for a template of a replace function",
    "no-twins": "a change that is like the one before is dropped",
    "cut-at-nul": "a text ends at a NUL",
    "normalise": "CRLF and CR become LF",
    "final-line-end": "a text that ends in no line end gets one",
    "edits-in-order": "text edits are applied one after another, as changes are",
    "edits-ties": "insertions at one position come in the reverse order",
    "edits-unsorted": "text edits that come unsorted are refused",
    "edits-touch": "text edits that touch are refused as overlapping",
    "edits-as-words": "positions of text edits are sorted as words: 10 is before 2",
    "edits-unclamped": "text edits are sorted by their numbers, also past a line's end",
    "consecutive": "a version has to be the one after the current one",
    "keep-closed": "a document that is closed stays open",
    "one-document": "all documents share one text",
    "paths": "a document is known by the path of its URI",
    "old-version": "the version of a document stays the one that it was opened with",
    "no-zero": "the version 0 counts as a missing one",
    "versions-as-words": "versions are compared as words: 10 is less than 9",
    "short-versions": "versions are compared in 16 bits",
    "unsigned": "versions are compared as numbers without a sign",
    "idle-version": "a message without changes leaves the version",
    "versions-after-close": "a document that is opened again needs a greater version",
    "length-in-characters": "Content-Length counts characters of the body",
    "case-of-names": "header names are compared with their case",
    "one-header": "a header has one field",
    "trim-body": "blanks and line ends around a body are dropped",
    "length-anywhere": "the length is whatever follows Content-Length: somewhere in the header",
    "one-frame": "a read has one frame, and the rest of it is lost",
    "whole-reads": "a frame that comes in two reads is lost",
    "whole-headers": "a header that comes in two reads is lost",
    "two-reads": "a body's rest is in the next read",
    "texts-of-reads": "each read is decoded by itself, also where it ends inside a character",
    "small-buffer": "a body has at most 8,192 bytes",
}


class Refused(Exception):
    """A case has no result; `expect` is why."""

    def __init__(self, refused, **more):
        super().__init__(refused)
        self.expect = {"refused": refused, **more}


class Plain:
    def __init__(self, mistake=None):
        self.mistake = mistake

    # Texts

    def width(self, character, encoding):
        if self.mistake == "graphemes" and (character == "\u200d" or "\u0300" <= character <= "\u036f"):
            return 0
        if self.mistake == "code-points":
            return 1
        if self.mistake == "bmp-end" and character == "\uffff" and encoding == "utf-16":
            return 2
        return WIDTHS["utf-16" if self.mistake == "only-utf-16" else encoding](character)

    def lines(self, text):
        """The content of each line, from an index to an index."""
        ends = {"splitlines": "\r\n|[\r\n\v\f\x1c\x1d\x1e\x85\u2028\u2029]", "no-lone-cr": "\r?\n", "crlf-is-two": "\r|\n", "crlf-split": "\r\n|\r|\n"}
        found, start = [], 0
        for end in re.finditer(ends.get(self.mistake, "\r\n|\r|\n"), text):
            stop = {"crlf-split": max(end.start(), end.end() - 1), "one-past-the-end": end.end()}.get(self.mistake, end.start())
            found.append((start, stop))
            start = end.end()
        return found if self.mistake == "no-final-line" and start == len(text) and found else found + [(start, len(text))]

    def index(self, text, encoding, position, lines=None):
        """The index of a position; a number that is no uinteger, or one inside a character, has none."""
        line, character = position["line"], position["character"]
        for number in (line, character):
            if isinstance(number, bool) or not isinstance(number, int) or not 0 <= number < 2 ** 32:
                raise Refused("invalid-params")
        if self.mistake == "short-characters":
            character %= 65536
        lines = lines or self.lines(text)
        if line >= len(lines):
            return lines[-1][1] if self.mistake == "no-final-line" else len(text)
        start, stop = lines[line]
        if self.mistake == "past-the-end":
            stop = len(text)
        at, units = start, 0
        while at < stop and units < character:
            units += self.width(text[at], encoding)
            at += 1
        if units > character:
            raise Refused("inside-character")
        if units < character and self.mistake == "refuse-past-the-end":
            raise Refused("past-the-end")
        return at

    def ends(self, text, encoding, range_, number, noun="change", lines=None):
        found = []
        for end in ("start", "end"):
            try:
                found.append(self.index(text, encoding, range_[end], lines))
            except Refused as why:
                more = {noun: number, "end": end} if why.expect["refused"] == "inside-character" else {}
                raise Refused(why.expect["refused"], **more) from None
        if found[0] > found[1]:
            raise Refused("reversed-range", **{noun: number})
        return found

    def valid(self, changes):
        """Numbers are read before anything is applied."""
        for change in changes:
            for end in change.get("range") or {}:
                self.index("", "utf-32", change["range"][end]) if self.mistake != "refuse-past-the-end" else None

    def message(self, text, encoding, changes):
        """The text after the changes of a message, and for each of its characters the index in the old text, or None."""
        self.valid(changes)
        old, kept = text, list(range(len(text)))
        lines = self.lines(text) if self.mistake == "stale-lines" else None
        if self.mistake == "backwards":
            changes = changes[::-1]
        if self.mistake in ("last-change", "first-change"):
            changes = changes[-1:] if self.mistake == "last-change" else changes[:1]
        for number, change in enumerate(changes):
            if self.mistake == "no-twins" and number and change == changes[number - 1]:
                continue
            new, range_ = self.inserted(change["text"], text), change.get("range")
            if range_ is None:
                if self.mistake == "whole-refused" and len(changes) > 1:
                    raise Refused("whole")
                text, kept, lines = new, [None] * len(new), self.lines(new) if lines else None
                if self.mistake == "whole-first":
                    break
                continue
            start, end = self.ends(old if self.mistake == "old-text" else text, encoding, range_, number, lines=lines)
            if self.mistake == "range-length-refused" and "rangeLength" in change:
                raise Refused("range-length")
            lines = lines and self.patched(lines, start, end, new)
            text = text[:start] + new + text[end:]
            kept[start:end] = [None] * len(new)
        return self.stored(text), kept

    def patched(self, lines, start, end, new):
        """An array of line starts that is patched: what is before and after the change stays."""
        line = [sum(a <= at for a, _ in lines) - 1 for at in (start, end)]
        inner = [(start + a, start + b) for a, b in self.lines(new)]
        by = len(new) - (end - start)
        tail = [(a + by, b + by) for a, b in lines[line[1] + 1:]]
        first, last = lines[line[0]][0], lines[line[1]][1] + by
        inner[0] = (first, inner[0][1])
        inner[-1] = (inner[-1][0], last)
        return lines[:line[0]] + inner + tail

    def inserted(self, new, text):
        """What a change puts in."""
        if self.mistake == "strip-inserted":
            return new.strip(" ")
        if self.mistake == "no-controls":
            return "".join(c for c in new if c >= " " or c in "\t\r\n")
        if self.mistake == "own-line-ends" and (end := re.search("\r\n|\r|\n", text)):
            return re.sub("\r\n|\r|\n", end.group(), new)
        if self.mistake == "template":
            return re.sub("\\\\[1-9]|\\\\g<0>", "", new)
        return new

    def stored(self, text):
        if self.mistake == "drop-bom":
            return text.removeprefix("\ufeff")
        if self.mistake == "cut-at-nul":
            return text.split("\0")[0]
        if self.mistake == "normalise":
            return re.sub("\r\n|\r", "\n", text)
        if self.mistake == "final-line-end" and text and text[-1] not in "\r\n":
            return text + "\n"
        return text

    def position(self, text, encoding, index):
        """The exact position of an index."""
        for line, (start, stop) in reversed(list(enumerate(self.lines(text)))):
            if start <= index <= stop:
                return {"line": line, "character": sum(self.width(c, encoding) for c in text[start:index])}
        raise ValueError("an index inside a CRLF has no position")

    def canonical(self, old, encoding, text, kept):
        """One change for each changed gap between old characters that are kept, from the last to the first."""
        found, low, new = [], 0, ""
        for at, index in [*enumerate(kept), (None, len(old))]:
            if index is None:
                new += text[at]
                continue
            if low < index or new:
                ends = {"start": self.position(old, encoding, low), "end": self.position(old, encoding, index)}
                found.append({"range": ends, "text": new})
            low, new = index + 1, ""
        return found[::-1]

    def edited(self, text, encoding, edits):
        """The text after text edits, which all count in the old text, and what is kept as in `message`."""
        if self.mistake == "edits-in-order":
            return self.message(text, encoding, [{"range": e["range"], "text": e["newText"]} for e in edits])
        self.valid([{"range": e["range"]} for e in edits])
        placed = [(*self.ends(text, encoding, e["range"], n, "edit"), n, e["newText"]) for n, e in enumerate(edits)]
        as_words = lambda p: [str(edits[p[2]]["range"]["start"][part]) for part in ("line", "character")]
        in_order = lambda p: (p[0], -p[2] if self.mistake == "edits-ties" else p[2])
        as_numbers = lambda p: [edits[p[2]]["range"]["start"][part] for part in ("line", "character")]
        ordered = sorted(placed, key={"edits-as-words": as_words, "edits-unclamped": as_numbers}.get(self.mistake, in_order))
        if self.mistake == "edits-unsorted" and ordered != placed:
            raise Refused("unsorted")
        for (_, stop, first, _), (start, _, second, _) in zip(ordered, ordered[1:]):
            if start < stop or self.mistake == "edits-touch" and start == stop:
                raise Refused("overlap", edit=first, other=second)
        kept = list(range(len(text)))
        for start, end, _, new in reversed(ordered):
            text = text[:start] + new + text[end:]
            kept[start:end] = [None] * len(new)
        return self.stored(text), kept

    # Sessions: the answers, and the open documents

    def session(self, encoding, messages):
        documents, answers, self.closed = {}, [], {}
        for message in messages:
            try:
                self.take(documents, encoding, message["method"].split("/")[1], message["params"])
                answers.append("changed")
            except Refused as why:
                answers.append(why.expect["refused"])
        return {"answers": answers, "documents": [{"uri": u, "version": d[0], "text": d[1]} for u, d in documents.items()]}

    def take(self, documents, encoding, method, params):
        document = params["textDocument"]
        uri, version = "file:///all" if self.mistake == "one-document" else document["uri"], document.get("version")
        if self.mistake == "paths":
            uri = "file:///" + re.sub("^[a-z]+:/+|[?#].*", "", uri)
        if method != "didClose" and (isinstance(version, bool) or not isinstance(version, int) or not -2 ** 31 <= version < 2 ** 31):
            raise Refused("invalid-params")
        if method == "didOpen":
            if uri in documents and self.mistake != "keep-closed":
                raise Refused("already-open")
            if self.mistake == "versions-after-close" and uri in self.closed and version <= self.closed[uri]:
                raise Refused("stale-version")
            documents[uri] = (version, self.stored(document["text"].removeprefix("\ufeff" if self.mistake == "open-bom" else "")))
            return
        if method == "didChange":
            self.valid(params["contentChanges"])
        if uri not in documents:
            raise Refused("not-open")
        held, text = documents[uri]
        if method == "didClose":
            if self.mistake != "keep-closed":
                self.closed[uri] = documents.pop(uri)[0]
            return
        if self.mistake == "no-zero" and version == 0:
            version = held
        elif self.is_stale(version, held):
            raise Refused("stale-version")
        text = self.message(text, encoding, params["contentChanges"])[0]
        stays = self.mistake == "old-version" or self.mistake == "idle-version" and not params["contentChanges"]
        documents[uri] = (held if stays else version, text)

    def is_stale(self, version, held):
        """Whether a version isn't greater than the current one."""
        if self.mistake == "consecutive":
            return version != held + 1
        if self.mistake == "versions-as-words":
            return str(version) <= str(held)
        if self.mistake == "short-versions":
            return (version + 32768) % 65536 <= (held + 32768) % 65536
        if self.mistake == "unsigned":
            return version % 2 ** 32 <= held % 2 ** 32
        return version <= held

    # Frames of a stream, which comes in pieces. Its bytes are the characters U+0000 to U+00FF.

    def bodies(self, pieces):
        """The bodies of the frames of a stream, up to a header that is none. Why it is none isn't found."""
        data, found, reads = b"", [], 0
        for piece in pieces:
            data += self.read(piece)
            reads += 1
            while taken := self.frame(data, reads):
                body, data = taken
                found.append((body.strip() if self.mistake == "trim-body" else body).decode("latin-1"))
                reads = 1
                if self.mistake == "one-frame":
                    data = b""
            if self.mistake == "whole-reads" or self.mistake == "whole-headers" and b"\r\n\r\n" not in data:
                data = b""
            if b"\r\n\r\n" not in data:
                reads = 0
        return found

    def read(self, piece):
        data = piece.encode("latin-1")
        return data.decode("utf-8", "replace").encode() if self.mistake == "texts-of-reads" else data

    def frame(self, data, reads):
        """The body of the first frame, and what is after it; None where it isn't whole, or its header is none."""
        match = re.match(rb"((?:[!#-'*+\-.0-9A-Z^-z|~]+:[^\r\n]*\r\n)+)\r\n", data)
        length, rest = self.length(match.group(1)) if match and match.end() <= 8192 else None, data[match.end():] if match else b""
        if length is None:
            return None
        if self.mistake == "length-in-characters":
            length = len(rest.decode("utf-8", "replace")[:length].encode())
        if self.mistake == "small-buffer":
            length = min(length, 8192)
        if len(rest) < length and not (self.mistake == "two-reads" and reads > 1):
            return None
        return rest[:length], rest[length:]

    def length(self, header):
        """The length that the fields of a header give, or None."""
        fields = [line.split(b":", 1) for line in header.split(b"\r\n")[:-1]]
        if self.mistake == "one-header" and len(fields) > 1:
            return None
        if self.mistake == "length-anywhere":
            found = re.search(rb"Content-Length: *([0-9]+)", header, re.I)
            return int(found.group(1)) if found else None
        is_named = lambda field, name: field == name or self.mistake != "case-of-names" and field.lower() == name.lower()
        lengths, types = ([value.strip(b" \t") for field, value in fields if is_named(field, name)] for name in (b"Content-Length", b"Content-Type"))
        charset = re.search(rb"charset=\"?([^\";]*)", types[0], re.I) if types else None
        if len(lengths) != 1 or len(types) > 1 or not re.fullmatch(rb"[0-9]+", lengths[0]) or charset and charset.group(1).lower() not in (b"utf-8", b"utf8"):
            return None
        return int(lengths[0]) if int(lengths[0]) <= 16777216 else None

    # A vector

    def answer(self, case):
        """What the member `expect` of a vector is to be."""
        try:
            if "messages" in case:
                return self.session(case["encoding"], case["messages"])
            if "pieces" in case:
                return {"bodies": self.bodies(case["pieces"])}
            old, encoding = self.stored(case["text"]), case["encoding"]
            text, kept = self.edited(old, encoding, case["edits"]) if "edits" in case else self.message(old, encoding, case["changes"])
            return {"text": text} if self.mistake else {"text": text, "canonical": self.canonical(old, encoding, text, kept)}
        except Refused as why:
            return why.expect


if __name__ == "__main__":
    for line in sys.stdin.buffer:
        print(json.dumps(Plain(*sys.argv[1:2]).answer(json.loads(line))), flush=True)
