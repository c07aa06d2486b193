"""The test of the binding for Python."""
import io
import os
import re
import tempfile
import threading
import types
import unittest
import urllib.parse

import laspidru
from laspidru import Document, EditsFault, LaspidruError, LogFault, TextDocument, check, compare, convert, normalise, replay, trace

EXAMPLES = os.path.join(os.path.dirname(os.path.abspath(__file__)), "..", "..", "examples")


def example(name):
    with open(os.path.join(EXAMPLES, name + ".log"), "rb") as file:
        return file.read()


def at(line, character):
    return {"line": line, "character": character}


def change(start, end, text):
    return {"range": {"start": start, "end": end}, "text": text}


def edit(start, end, text):
    return {"range": {"start": start, "end": end}, "newText": text}


class Tests(unittest.TestCase):
    def test_change(self):
        document = Document("a\r\nb\U0001F600")
        document.change([change(at(1, 0), at(1, 1), "XY"), change(at(0, 0), at(0, 0), "Q")])
        self.assertEqual(document.text, "Qa\r\nXY\U0001F600")
        self.assertEqual(document.line_count, 2)

    def test_fault(self):
        document = Document("\U0001F600")
        with self.assertRaises(LaspidruError) as raised:
            document.change([change(at(0, 0), at(0, 0), "Z"), change(at(0, 1), at(0, 2), "")])
        self.assertEqual((raised.exception.code, raised.exception.change, raised.exception.at_end), ("INSIDE_CHARACTER", 1, True))
        self.assertEqual(document.text, "\U0001F600")

    def test_line(self):
        document = Document("a\r\nb\U0001F600\u2028\n")
        self.assertEqual([document.line(number) for number in range(3)], ["a", "b\U0001F600\u2028", ""])
        for number in (-1, 3, 2 ** 32):
            self.refuses("OUT_OF_RANGE", document.line, number)

    def refuses(self, code, call, *arguments, **named):
        with self.assertRaises(LaspidruError) as raised:
            call(*arguments, **named)
        self.assertEqual(raised.exception.code, code)
        return raised.exception

    def test_numbers(self):
        """Numbers that are none of the library's are refused, and don't wrap."""
        document = Document("ab\ncd")
        for number in (-1, 2 ** 32, 2 ** 64 + 5):
            for place in (at(number, 0), at(0, number)):
                self.refuses("OUT_OF_RANGE", document.byte_offset, place)
                for refusing, make in ((document.change, change), (document.canonical, change),
                                       (document.apply_edits, edit), (document.batch_of_edits, edit)):
                    for start, end in ((place, at(0, 0)), (at(0, 0), place)):
                        fault = self.refuses("OUT_OF_RANGE", refusing, [make(at(0, 0), at(0, 0), ""), make(start, end, "")])
                        self.assertEqual((fault.change, str(fault)), (1, "change at index 1: a number is out of its range"))
        for number in (-1, 2 ** 64, 2 ** 64 + 5):
            self.refuses("OUT_OF_RANGE", document.position, number)
            self.refuses("BAD_MAX_BODY", check, b"", max_body=number)
        for other in (0.0, "0", None):
            for refused in (lambda: document.line(other), lambda: document.position(other), lambda: document.byte_offset(at(0, other)),
                            lambda: document.change([change(at(other, 0), at(0, 0), "")]), lambda: check(b"", max_text=other)):
                self.assertRaises(TypeError, refused)
        self.assertEqual(document.text, "ab\ncd")

    def test_texts(self):
        document = Document("ab")
        self.refuses("NOT_UTF8", Document, "a\ud83d")
        fault = self.refuses("NOT_UTF8", document.change, [{"text": ""}, change(at(0, 0), at(0, 0), "\ude00")])
        self.assertEqual((fault.change, str(fault)), (1, "change at index 1: the text is not UTF-8"))
        self.refuses("NOT_UTF8", document.apply_edits, [edit(at(0, 0), at(0, 0), "\ude00")])
        for refused in (lambda: Document(b"a"), lambda: document.change([{"text": None}]), lambda: check(1),
                        lambda: document.apply_edits([{"newText": "all"}]), lambda: document.batch_of_edits([{"newText": ""}])):
            self.assertRaises(TypeError, refused)
        self.refuses("BAD_ENCODING", Document, "a", "utf-7")
        self.refuses("BAD_ENCODING", check, b"", encoding="utf-7")
        self.assertEqual(document.text, "ab")

    def test_closed(self):
        document = Document("a")
        document.close()
        with self.assertRaises(LaspidruError):
            document.change([])

    def test_canonical(self):
        document = Document("abc", "utf-8")
        changes = [change(at(0, 1), at(0, 1), "X"), change(at(0, 2), at(0, 2), "Y")]
        self.assertEqual(document.canonical(changes), [change(at(0, 1), at(0, 1), "XY")])
        self.assertEqual(document.text, "abc")

    def test_edits(self):
        document = Document("abc")
        edits = [edit(at(0, 0), at(0, 0), "1"), edit(at(0, 1), at(0, 2), "2")]
        self.assertEqual(document.batch_of_edits(edits), [change(at(0, 1), at(0, 2), "2"), change(at(0, 0), at(0, 0), "1")])
        document.apply_edits(edits)
        self.assertEqual(document.text, "1a2c")
        for overlapping in (document.apply_edits, document.batch_of_edits):
            with self.assertRaises(EditsFault) as raised:
                overlapping([edit(at(0, 1), at(0, 3), ""), edit(at(0, 0), at(0, 2), "")])
            fault = raised.exception
            self.assertEqual((fault.code, fault.edit, fault.other), ("OVERLAP", 1, 0))
            self.assertEqual(str(fault), "edits at the indexes 1 and 0: two edits overlap")
        self.assertEqual(document.text, "1a2c")

    def test_text_document(self):
        document = TextDocument("file:///a", "one\u2028two\r\nthree", version=1)
        self.assertEqual(document.lines, ["one\u2028two\r\n", "three"])
        self.assertEqual(document.word_at_position(at(1, 2)), "three")
        document.apply_change({"text": "\U0001F600x"})
        self.assertEqual((document.source, document.offset_at_position(at(0, 2))), ("\U0001F600x", 1))
        self.assertEqual((str(document), document.path, document.filename, document.version), ("file:///a", "/a", "a", 1))
        paths = {"file:///a%20b/c.py": "/a b/c.py", "file:///C%3A/a.py": "c:/a.py", "file://host/a.py": "//host/a.py"}
        self.assertEqual({uri: TextDocument(uri, "").path for uri in paths}, paths)
        self.assertEqual(TextDocument("untitled:1", "").filename, "1")

    def test_words(self):
        document = TextDocument("file:///a", "\U0001F600one two-3\r\n", encoding="utf-16")
        words = [document.word_at_position(at(0, character)) for character in (0, 2, 4, 5, 6, 9, 10, 99)]
        self.assertEqual(words, ["", "one", "one", "one", "two", "two", "3", "3"])
        self.assertEqual((document.word_at_position(at(1, 0)), document.word_at_position(at(2, 0))), ("", ""))
        self.assertEqual(document.word_at_position(at(0, 7), re.compile(r"[\w-]*$"), re.compile(r"^[\w-]*")), "two-3")

    def test_file(self):
        with tempfile.TemporaryDirectory() as folder:
            path = os.path.join(folder, "a b.txt")
            with open(path, "wb") as file:
                file.write("one\r\n\u00e9".encode())
            document = TextDocument("file://" + urllib.parse.quote(path))
            self.assertEqual((document.source, document.filename), ("one\r\n\u00e9", "a b.txt"))

    def test_file_is_read_late(self):
        """Once, at the first use: an editor may open a file that isn't there yet."""
        with tempfile.TemporaryDirectory() as folder:
            path = os.path.join(folder, "late.txt")
            document, missing = TextDocument("file://" + path), TextDocument("file://" + path + ".not")
            with open(path, "wb") as file:
                file.write(b"one")
            self.assertEqual((document.line_count, document.source), (1, "one"))
            self.assertRaises(FileNotFoundError, lambda: missing.source)
        self.assertEqual(document.source, "one")

    def test_names_of_subclasses(self):
        """A subclass may use any name, also that of a lock."""
        class Mine(TextDocument):
            def __init__(self, *arguments):
                self._lock = threading.RLock()
                self._handle = self._text = self._encoding = None
                super().__init__(*arguments)

            @property
            def source(self):
                with self._lock:
                    return super().source

        mine = Mine("file:///a", "one")
        mine.change([change(at(0, 0), at(0, 0), "X")])
        self.assertEqual((mine.source, mine._text), ("Xone", None))

    def test_whole_messages(self):
        document = TextDocument("file:///a", "ab", 1)
        with self.assertRaises(LaspidruError):
            document.apply_changes([change(at(0, 0), at(0, 0), "X"), change(at(0, 1), at(0, 0), "")], 2)
        self.assertEqual((document.source, document.version), ("ab", 1))
        document.apply_changes([change(at(0, 0), at(0, 0), "X"), change(at(0, 1), at(0, 2), "")], 2)
        self.assertEqual((document.source, document.version), ("Xb", 2))

    def test_other_encodings(self):
        document = Document("\U0001F600x\n\u00e9y", "utf-16")
        self.assertEqual(document.position_in(at(0, 2), "utf-32"), at(0, 1))
        self.assertEqual(document.position_in(at(1, 1), "utf-8"), at(1, 2))
        self.assertEqual(document.byte_offset(at(0, 1), "utf-32"), 4)
        self.assertEqual(document.position(4, "utf-8"), at(0, 4))
        self.refuses("BAD_ENCODING", document.position_in, at(0, 0), "utf-7")
        self.refuses("INSIDE_CHARACTER", document.position_in, at(0, 1), "utf-32")

    def test_position_codec(self):
        codec = types.SimpleNamespace(encoding="utf-32")
        document = TextDocument("file:///a", "\U0001F600x", None, None, True, 2, codec)
        self.assertEqual((document.offset_at_position(at(0, 1)), document.position_codec), (1, codec))

    def test_logs(self):
        stale = check(example("stale-version"))
        self.assertEqual(stale.output, b"1 reply\n2 changed\n3 refused S5\n4 refused S4\n5 changed\n")
        self.assertEqual((stale.status, stale.messages, stale.refused), (1, 5, 2))
        lenient = check(example("stale-version"), lenient=True)
        self.assertEqual(lenient.output, b"1 reply\n2 changed\n3 changed\n4 refused S4\n5 changed\n")
        report = replay(example("stale-version"))
        self.assertEqual(report.output, b'{"languageId":"plaintext","text":"aXc","uri":"file:///a","version":2}\n')
        self.assertEqual(convert(example("typing")).output, example("typing-with-replies"))
        saves = example("two-saves")
        once, squashed = normalise(saves).output, normalise(saves, squash=True).output
        self.assertEqual(normalise(once).output, once)
        self.assertEqual(normalise(squashed, squash=True).output, squashed)
        self.assertLess(check(squashed).messages, check(once).messages)
        self.assertEqual({replay(log).output for log in (once, squashed)}, {replay(saves).output})

    def test_log_options(self):
        """What lspsync has beside the limits, on bytes, files and streams."""
        path = os.path.join(EXAMPLES, "stale-version.log")
        explained, lines = check(path, explain=True).output, check(path).output.splitlines()
        self.assertEqual((explained.startswith(b"1 reply\n2 changed\n3 refused S5 "), len(explained.splitlines()) > len(lines)), (True, True))
        brief, listed = check(path, brief=True), check(path, all=True)
        self.assertEqual((brief.output.startswith(b"3 refused S5 of "), listed.output.startswith(explained[:40])), (True, True))
        with open(path, "rb") as stream:
            records = trace(stream, bodies=True).records
        self.assertEqual([(it["number"], "body" in it) for it in records], [(number, True) for number in range(1, 6)])
        self.assertEqual(trace(path).records[1].get("text"), None)
        self.assertIsNotNone(trace(path, texts=True).records[1].get("text"))
        whole, = replay(path).records
        self.assertEqual(replay(path, uri=whole["uri"]).output.decode(), whole["text"])
        self.assertNotEqual(replay(path, at=2).records[0]["text"], whole["text"])
        self.refuses("OUT_OF_RANGE", replay, path, at=99)
        self.refuses("OUT_OF_RANGE", replay, path, at=0)
        self.refuses("NOT_OPEN", replay, path, uri="file:///none")
        self.assertLessEqual(len(normalise(example("two-saves"), documents=True).output), len(normalise(example("two-saves")).output))
        self.assertRaises(TypeError, check, path, texts=True, no_such=True)
        self.assertRaises(TypeError, check, 7)

    def test_compare(self):
        """The text of stale-version.log is "aXc", which message 5 made."""
        path = os.path.join(EXAMPLES, "stale-version.log")
        same, other = compare(path, b"aXc"), compare(path, io.BytesIO(b"abc"), uri="/a")
        self.assertEqual((same.status, same.output), (0, b'"file:///a" after message 5: the text is the file\'s\n'))
        self.assertEqual((other.status, b'line 1 (made by message 5): "aXc"' in other.output, other.refused), (1, True, 2))
        with tempfile.TemporaryDirectory() as folder:
            saved = os.path.join(folder, "a")
            with open(saved, "wb") as file:
                file.write(b"aXc")
            self.refuses("NOT_OPEN", compare, path, saved)
            self.assertEqual(compare(path, saved, uri="a"), same)
        self.refuses("NOT_UTF8", compare, path, b"\xff")
        self.assertRaises(TypeError, compare, path, 7)

    def test_version_and_texts(self):
        self.assertEqual(laspidru.__version__, "0.1.0")
        self.assertEqual(laspidru.WHY["STALE_VERSION"], "the version is not greater than the current one")
        with self.assertRaises(LaspidruError) as raised:
            laspidru.Server(max_docs=0)
        self.assertEqual(str(raised.exception), "max_docs is out of its range, 1 to 65,536 documents")
        self.assertRaises(TypeError, Document("a").change, [{"range": None}])

    def test_log_faults(self):
        cut = example("cut-short")
        with self.assertRaises(LogFault) as raised:
            check(cut)
        fault = raised.exception
        self.assertEqual((fault.code, fault.offset, fault.frame, fault.output), ("CUT", 505, 0, b"1 reply\n2 changed\n"))
        self.assertEqual(str(fault), "the log ends inside a record at 505")
        with self.assertRaises(LogFault) as raised:
            normalise(b"Content-Length 2")
        self.assertEqual((raised.exception.code, raised.exception.frame, raised.exception.offset), ("BAD_FRAME", 1, 14))
        with self.assertRaises(LogFault) as raised:
            convert(b"lsp-session-log 2\n")
        self.assertEqual((raised.exception.code, raised.exception.offset, raised.exception.output), ("BAD_LOG", 0, b""))
        with self.assertRaises(LaspidruError) as raised:
            check(b"", max_body=1)
        self.assertEqual((raised.exception.code, str(raised.exception)), ("BAD_MAX_BODY", laspidru.WHY["BAD_MAX_BODY"]))
        self.assertEqual(replay(b"").output, b"")


if __name__ == "__main__":
    unittest.main()
