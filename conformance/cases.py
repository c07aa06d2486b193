#!/usr/bin/env python3
"""Writes the cases of the vectors, without what they mean: cases.py vectors | edits | sessions | frames

The named cases are below, each with a sentence on what it tests, the section of LSP 3.17 that it is about, and whether the standard
"says" what it means or leaves it "open". The random ones are the same on each run.

After a change of these, `python3 conformance/cases.py edits | bin/launch lsp_vectors > edits.jsonl` makes a file of vectors anew, and so for
the others. They are in crates/lsp_vectors/data/."""
import json
import sys

from plain import Plain, Refused

POSITION, KIND, EOL = "Position", "PositionEncodingKind", "Text Documents, EOL"
EVENT, CHANGE, EDITS = "TextDocumentContentChangeEvent", "DidChangeTextDocumentParams", "TextEdit[]"
OPEN, CLOSE, VERSION = "DidOpenTextDocument Notification", "DidCloseTextDocument Notification", "VersionedTextDocumentIdentifier"
HEADER = "Base Protocol, Header Part"
FOUND = []


def put(name, about, section, standard, **members):
    FOUND.append({"name": name, "about": about, "section": section, "standard": standard, **members})


def at(line, start, end=None, last=None):
    """The range from a character of a line to one of the same line or of the line `last`."""
    return {"start": {"line": line, "character": start}, "end": {"line": line if last is None else last, "character": start if end is None else end}}


def ch(text, *range_, **more):
    return {**({"range": at(*range_)} if range_ else {}), **more, "text": text}


def one(name, about, section, text, *changes, standard="says", encoding="utf-16"):
    put(name, about, section, standard, encoding=encoding, text=text, changes=list(changes))


def messages():
    # What a character counts
    for name, text, change, about in [
        ("ascii", "abc", ch("X", 0, 1, 2), "An ASCII character is one unit."),
        ("after-astral", "x😀y", ch("", 0, 3, 4), "A character outside the Basic Multilingual Plane is two UTF-16 units, so y is character 3."),
        ("replace-astral", "x😀y", ch("z", 0, 1, 3), "The two units of such a character are replaced together."),
        ("two-astral", "😀😀y", ch("!", 0, 4), "Two such characters are four units."),
        ("between-astral", "😀😀", ch("-", 0, 2), "Between two such characters is character 2."),
        ("astral-on-earlier-line", "😀\nab", ch("X", 1, 1), "Units are counted from the start of the line alone."),
        ("astral-deleted-then-typed", "😀b", ch("", 0, 0, 2), "A deletion of the two units leaves what is after them."),
        ("last-of-bmp", "\uffffb", ch("X", 0, 1), "U+FFFF is the last character of one unit."),
        ("after-bmp", "\ue000\uffffab", ch("X", 0, 3), "U+E000 and U+FFFF are one unit each, so a is character 2."),
        ("first-astral", "\U00010000b", ch("X", 0, 2), "U+10000 is the first character of two units."),
        ("last-astral", "\U0010ffffb", ch("X", 0, 2), "U+10FFFF, the last character, is two units."),
        ("wide", "漢字b", ch("X", 0, 2), "A wide character of the Basic Multilingual Plane is one unit."),
        ("two-bytes", "ééb", ch("X", 0, 2), "A character of two bytes in UTF-8 is one UTF-16 unit."),
        ("combining", "e\u0301b", ch("X", 0, 2), "A combining mark is a unit of its own."),
        ("inside-cluster", "e\u0301b", ch("X", 0, 1), "A position between a letter and its combining mark is a position."),
        ("joined", "👩\u200d💻b", ch("X", 0, 5), "A joined emoji is as many units as its parts and the joiner."),
        ("flag", "🇫🇷b", ch("X", 0, 4), "A flag is two characters of two units each."),
        ("tab", "\tab", ch("X", 0, 2), "A tab is one unit, not the columns that it fills."),
        ("astral-inserted", "ab", ch("😀", 0, 1), "An inserted character may be of two units."),
    ]:
        one("units/" + name, about, POSITION, text, change)
    for name, encoding, text, change, about in [
        ("utf8-two", "utf-8", "éb", ch("X", 0, 2), "In UTF-8 a character counts its bytes: é is two."),
        ("utf8-three", "utf-8", "漢b", ch("X", 0, 3), "A character of three bytes."),
        ("utf8-four", "utf-8", "😀b", ch("X", 0, 4), "A character of four bytes."),
        ("utf8-replace", "utf-8", "x😀y", ch("z", 0, 1, 5), "The four bytes of a character are replaced together."),
        ("utf8-borders", "utf-8", "\x7f\x80\u07ff\u0800ab", ch("X", 0, 9), "The first and last characters of one, two and three bytes."),
        ("utf8-last-three", "utf-8", "\uffffab", ch("X", 0, 4), "U+FFFF is the last character of three bytes."),
        ("utf8-first-four", "utf-8", "\U00010000ab", ch("X", 0, 5), "U+10000 is the first character of four bytes."),
        ("utf32-astral", "utf-32", "😀b", ch("X", 0, 1), "In UTF-32 each character is one unit."),
        ("utf32-joined", "utf-32", "👩\u200d💻b", ch("X", 0, 3), "Also in UTF-32 a joined emoji is as many units as it has characters."),
        ("utf32-mixed", "utf-32", "aé漢😀b", ch("", 0, 3, 4), "Characters of one to four bytes are one unit each."),
    ]:
        one("units/" + name, about, KIND, text, change, encoding=encoding)

    # Positions inside a character: no meaning is given
    for name, encoding, text, change, about in [
        ("surrogate-insert", "utf-16", "x😀y", ch("z", 0, 2), "Character 2 lies between the two units of the emoji."),
        ("surrogate-start", "utf-16", "x😀y", ch("", 0, 2, 3), "The range starts between two units."),
        ("surrogate-end", "utf-16", "x😀y", ch("", 0, 1, 2), "The range ends between two units."),
        ("surrogate-both", "utf-16", "😀😀", ch("", 0, 1, 3), "Both ends lie inside a character; the start is reported."),
        ("surrogate-last", "utf-16", "a\n😀", ch("z", 1, 1), "The character is the last one of the text."),
        ("utf8-two", "utf-8", "é", ch("z", 0, 1), "Between the two bytes of a character."),
        ("utf8-three", "utf-8", "漢", ch("z", 0, 2), "Between the second and third byte of a character."),
        ("utf8-four", "utf-8", "😀", ch("", 0, 0, 3), "The range ends before the fourth byte of a character."),
    ]:
        one("inside/" + name, about, POSITION, text, change, standard="open", encoding=encoding)

    # A character past the line's end
    for name, text, change, about in [
        ("insert", "ab\ncd", ch("X", 0, 9), "A character greater than the line's length means the line's length."),
        ("one-past", "ab\ncd", ch("X", 0, 3), "One character past the end is the end, not the start of the next line."),
        ("delete-to", "abc\nde", ch("", 0, 1, 99), "A deletion to a character past the end keeps the line end."),
        ("start", "ab\ncd", ch("X", 0, 9, 1, 1), "A range that starts past the end of its line joins that line with what is left."),
        ("both", "ab\ncd", ch("X", 0, 7, 9), "A range both of whose ends lie past the end is empty."),
        ("lines", "abc\ndef\nghi", ch("X", 0, 1, 99, 1), "A range over lines to a character past the end keeps the last line end."),
        ("last-line", "ab\ncd", ch("X", 1, 9), "Past the end of the last line is the end of the text."),
        ("empty-line", "a\n\nb", ch("X", 1, 5), "Each character of an empty line is its start."),
        ("empty-text", "", ch("X", 0, 5), "The one line of an empty text is empty."),
        ("crlf", "ab\r\ncd", ch("X", 0, 9), "Past the end of a line that a CRLF ends lies before the CR."),
        ("crlf-one-past", "ab\r\ncd", ch("X", 0, 3), "One character past that end is the end, and not between CR and LF."),
        ("crlf-delete-to", "ab\r\ncd", ch("", 0, 1, 3), "A deletion to there keeps the CRLF whole."),
        ("lone-cr", "ab\rcd", ch("X", 0, 9), "Past the end of a line that a CR ends lies before the CR."),
        ("non-ascii", "éé\nx", ch("X", 0, 3), "Lengths are counted in units also where bytes are more."),
        ("astral-last", "a😀\nb", ch("X", 0, 4), "The length of a line counts both units of its last character."),
        ("greatest", "ab\ncd", ch("X", 0, 2147483647), "The greatest uinteger is past each line's end."),
        ("word-then-past", "one two\nx", ch("", 0, 3, 1000), "Editors send so when they delete to the end of a line."),
    ]:
        one("past-line-end/" + name, about, POSITION, text, change)
    one("past-line-end/utf8", "Past the end counts in the negotiated units: é is two.", POSITION, "é\nx", ch("X", 0, 3), encoding="utf-8")
    one("past-line-end/utf32", "Past the end counts in the negotiated units: the emoji is one.", POSITION, "😀\nx", ch("X", 0, 2), encoding="utf-32")

    # A line past the last
    for name, text, change, about in [
        ("next", "ab", ch("X", 1, 0), "The line after the last one doesn't exist."),
        ("next-after-line-end", "ab\n", ch("X", 2, 0), "After a final line end there is one empty line, and no more."),
        ("far", "ab\ncd", ch("X", 99, 0), "A line far past the last."),
        ("far-character", "ab\ncd", ch("X", 99, 7), "A character of a line that doesn't exist."),
        ("delete-to", "ab\ncd", ch("", 1, 1, 0, 2), "A range that ends on the line after the last, as editors send to delete the last line."),
        ("all", "ab\ncd", ch("X", 0, 0, 0, 2), "A range from the start to the line after the last."),
        ("empty-text", "", ch("X", 1, 0), "Line 1 of an empty text."),
        ("greatest", "ab", ch("X", 2147483647, 2147483647), "The greatest line and character."),
    ]:
        one("past-last-line/" + name, about, POSITION, text, change, standard="open")

    # What ends a line
    for name, text, change, about in [
        ("lf", "a\nb\nc", ch("X", 1, 0, 1), "LF ends a line."),
        ("crlf", "a\r\nb\r\nc", ch("X", 1, 0, 1), "CRLF ends one line, not two."),
        ("cr", "a\rb\rc", ch("X", 1, 0, 1), "CR alone ends a line."),
        ("mixed", "a\nb\r\nc\rd", ch("X", 3, 0), "All three in one text: d is on line 3."),
        ("lf-cr", "a\n\rb", ch("X", 2, 0), "LF and then CR are two line ends."),
        ("cr-cr-lf", "a\r\r\nb", ch("X", 2, 0), "CR and then CRLF are two line ends."),
        ("crlf-lf", "a\r\n\nb", ch("X", 2, 0), "CRLF and then LF are two line ends."),
        ("cr-last", "a\r", ch("X", 1, 0), "A CR at the end of a text ends a line, and an empty one follows."),
        ("lf-last", "a\n", ch("X", 1, 0), "After a final LF there is one more line, which is empty."),
        ("crlf-last", "a\r\n", ch("X", 1, 0), "After a final CRLF there is one more line, which is empty."),
        ("only-lf", "\n", ch("X", 1, 0), "A text of one LF has two empty lines."),
        ("empty", "", ch("X", 0, 0), "An empty text has one empty line."),
        ("blank-lines", "\n\n\n", ch("X", 2, 0), "Blank lines count."),
        ("delete-lf", "a\nb", ch("", 0, 1, 0, 1), "A line end is deleted by a range to the start of the next line."),
        ("delete-crlf", "a\r\nb", ch("", 0, 1, 0, 1), "A CRLF is deleted whole by a range to the start of the next line."),
        ("delete-line", "a\nb\nc", ch("", 1, 0, 0, 2), "A whole line with its line end."),
        ("multi-line", "abc\ndef\nghi", ch("X", 0, 1, 2, 2), "A range over several lines."),
        ("insert-lines", "ab", ch("1\n2\n3", 0, 1), "An inserted text may have line ends."),
        ("delete-all", "a\nb\n", ch("", 0, 0, 0, 2), "The whole text is deleted with its last line end by a range to the empty line after that."),
        ("replace-crlf-by-lf", "a\r\nb", ch("\n", 0, 1, 0, 1), "Line ends are kept as they were sent, of each kind."),
    ]:
        one("line-ends/" + name, about, EOL, text, change)
    for name, mark, about in [("u2028", "\u2028", "U+2028, LINE SEPARATOR"), ("u2029", "\u2029", "U+2029, PARAGRAPH SEPARATOR"), ("u0085", "\x85", "U+0085, NEXT LINE"),
                              ("vt", "\v", "A vertical tab"), ("ff", "\f", "A form feed"), ("fs", "\x1c", "U+001C"), ("gs", "\x1d", "U+001D"), ("rs", "\x1e", "U+001E")]:
        one("line-ends/" + name, about + " ends no line of LSP: only LF, CRLF and CR do.", EOL, f"a{mark}b\nc", ch("X", 1, 0))
    one("line-ends/u2028-counts", "A separator that ends no line is a unit of its line.", EOL, "a\u2028b\nc", ch("X", 0, 3))
    one("line-ends/cr-then-lf", "A CR that is inserted before an LF makes a CRLF of it: one line end, not two.", EOL, "a\nb\nc", ch("\r", 0, 1), ch("X", 1, 0))
    one("line-ends/lf-after-cr", "An LF that is inserted after a CR makes a CRLF of it.", EOL, "a\rb\rc", ch("\n", 1, 0), ch("X", 1, 0))
    one("line-ends/cr-meets-lf", "A deletion between a CR and an LF lets them meet in one line end.", EOL, "a\rb\nc\nd", ch("", 1, 0, 1), ch("X", 1, 0))
    one("line-ends/insert-after-crlf-made", "The line after such a CRLF is found again by later changes.", EOL, "\n\nb", ch("\r", 0, 0), ch("X", 2, 1))
    one("line-ends/text-ends-in-cr", "A replaced range whose new text ends in CR, right before an LF.", EOL, "ax\nb\nc", ch("\r", 0, 1, 2), ch("X", 1, 0))
    one("line-ends/text-starts-with-lf", "A replaced range whose new text starts with LF, right after a CR.", EOL, "a\rxb\nc", ch("\n", 1, 0, 1), ch("X", 1, 0))

    # What a text may have
    for name, text, change, about in [
        ("bom", "\ufeffab", ch("X", 0, 2), "A byte order mark in a text is a character like others."),
        ("bom-inserted", "ab", ch("\ufeff", 0, 0), "It may be inserted, and it stays."),
        ("nul", "a\0b", ch("X", 0, 2), "NUL is a character like others."),
        ("control", "a\x01\x1b\x7fb", ch("X", 0, 4), "So are control characters."),
        ("control-inserted", "ab", ch("\t\x01\x1b\x7f", 0, 1), "They may be inserted, and they stay."),
        ("quotes", 'a"\\b', ch('"\\', 0, 3), "Quotes and backslashes are escaped in JSON, and are one unit each."),
        ("noncharacter", "\ufdd0ab", ch("X", 0, 2), "A noncharacter of Unicode is kept."),
        ("bidi", "\u202eabc", ch("X", 0, 2), "Marks of direction don't reorder positions."),
        ("no-final-line-end", "a\nb", ch("X", 0, 1), "A text that ends in no line end doesn't get one."),
        ("kept-crlf", "a\r\nb\r\n", ch("X", 0, 1), "Line ends outside the range stay as they are."),
        ("composed", "é", ch("e\u0301", 0, 0), "Texts aren't normalised: composed and decomposed letters stay as sent."),
        ("blanks", "a\nb", ch("  ", 0, 1), "Inserted blanks stay, also at a line's end."),
        ("crlf-inserted", "a\nb", ch("\r\n", 0, 1), "A CRLF that is inserted among LFs stays as it was sent."),
        ("lf-inserted", "a\r\nb", ch("\n", 1, 1), "So does an LF among CRLFs."),
        ("final-line-ends", "a\n\n\n", ch("X", 0, 1), "Line ends at the end of a text stay."),
        ("patterns", "ab", ch("$& $1 \\1 \\g<0> %s {0}", 0, 1), "What a function that replaces or formats takes for a pattern is text."),
        ("escapes", "ab", ch("\\n\\u0041&amp;%41", 0, 1), "What looks like an escape, once JSON is read, is text."),
    ]:
        one("contents/" + name, about, EVENT, text, change)

    # Several changes
    for name, text, changes, about in [
        ("in-order", "abc", [ch("X", 0, 0), ch("Y", 0, 1)], "The second change counts in the text that the first one left."),
        ("as-changes", "abc", [ch("1", 0, 0), ch("2", 0, 1, 2)], "Changes aren't text edits: the second replaces what is character 1 by then."),
        ("descending", "abc", [ch("3", 0, 2, 3), ch("1", 0, 0, 1)], "Changes from the last to the first, as many editors send them."),
        ("undo", "abc", [ch("", 0, 1, 2), ch("b", 0, 1)], "A change and its undoing in one message."),
        ("same-place", "ab", [ch("1", 0, 1), ch("2", 0, 2), ch("3", 0, 3)], "Typing in one message."),
        ("twice", "ab", [ch("X", 0, 1), ch("X", 0, 1)], "Two changes that are alike are two changes."),
        ("grow-lines", "a", [ch("\n\n", 0, 1), ch("X", 2, 0)], "A line that the first change made is there for the second."),
        ("longer-line-before", "a\nb\nc", [ch("xyz", 0, 1), ch("X", 2, 0)], "What the first change put on a line moves those after it."),
        ("shrink-lines", "a\nb\nc", [ch("", 0, 1, 1, 1), ch("X", 1, 0)], "A line that the first change took away isn't counted any more."),
        ("longer-line", "ab", [ch("cdef", 0, 2), ch("X", 0, 6)], "The length of a line is that of the current text."),
        ("none", "abc", [], "A message without changes leaves the text."),
        ("empty-change", "abc", [ch("", 0, 1)], "An empty text for an empty range changes nothing."),
        ("replace-by-same", "abc", [ch("b", 0, 1, 2)], "A text may be replaced by itself."),
        ("astral-then-after", "a", [ch("😀", 0, 1), ch("X", 0, 3)], "Units of what the first change inserted count for the second."),
        ("eleven", "", [ch(str(n % 10), 0, n) for n in range(11)], "Eleven insertions, each after the one before."),
    ]:
        one("batch/" + name, about, CHANGE, text, *changes)
    for name, text, changes, about in [
        ("whole", "abc", [ch("xyz\n")], "A change without a range is the whole text."),
        ("whole-empty", "abc", [ch("")], "The whole text may be empty."),
        ("whole-then-range", "abc", [ch("xyz"), ch("!", 0, 1)], "A range after a whole text counts in that text."),
        ("range-then-whole", "abc", [ch("!", 0, 1), ch("xyz")], "A whole text after a range replaces all."),
        ("range-whole-range", "abc", [ch("!", 0, 1), ch("x\ny"), ch("", 1, 0, 1)], "A whole text between two ranges."),
        ("two-wholes", "abc", [ch("1"), ch("2")], "Of two whole texts the last one is left."),
    ]:
        one("whole/" + name, about, EVENT, text, *changes)
    one("whole/null-range", "A range that is null, as some editors send with a whole text.", EVENT, "abc", {"range": None, "text": "xyz"}, standard="open")
    one("batch/second-inside", "The second change lies inside a character: the first one isn't applied either.", CHANGE, "x😀y", ch("1", 0, 0), ch("2", 0, 3), standard="open")
    one("batch/second-reversed", "The second change is reversed.", CHANGE, "abc", ch("1", 0, 0), ch("2", 0, 2, 1), standard="open")
    one("batch/inside-only-then", "A position that is inside a character only in the text that the first change left.", CHANGE, "xy", ch("😀", 0, 0, 1), ch("!", 0, 1), standard="open")

    # rangeLength is deprecated
    one("range-length/right", "A rangeLength that is right.", EVENT, "abcd", ch("X", 0, 1, 3, rangeLength=2))
    for name, text, change, about in [("zero", "abcd", ch("X", 0, 1, 3, rangeLength=0), "A rangeLength of 0 for a range that isn't empty: the range counts."),
                                      ("wrong", "abcd", ch("X", 0, 1, 3, rangeLength=99), "A rangeLength that is too great: the range counts."),
                                      ("code-points", "a😀b", ch("X", 0, 1, 3, rangeLength=1), "A rangeLength in code points, as eglot 1.9 sends: the range counts.")]:
        one("range-length/" + name, about, EVENT, text, change, standard="open")

    # Reversed ranges, and numbers that are no uinteger
    for name, text, change, about in [("one-line", "abc", ch("X", 0, 2, 1), "The range starts after its end."),
                                      ("two-lines", "ab\ncd", ch("X", 1, 1, 0, 0), "The range starts on a later line."),
                                      ("past-the-end", "ab\ncd", ch("X", 0, 9, 7), "Both ends are past the line's end, and so mean the same place.")]:
        one("reversed/" + name, about, POSITION, text, change, standard="open")
    for name, change, about in [("negative-character", ch("X", 0, -1), "A negative character."), ("negative-line", ch("X", -1, 0), "A negative line."),
                                ("over-uinteger", ch("X", 0, 2147483648), "One more than the greatest uinteger, 2147483647: still read as past the end."),
                                ("most-of-32-bits", ch("X", 0, 4294967295), "The greatest character of 32 bits: still read as past the end."),
                                ("over-32-bits", ch("X", 0, 4294967296), "A character of more than 32 bits."),
                                ("line-most-of-32-bits", ch("X", 4294967295, 0), "The greatest line of 32 bits: still read as past the last."),
                                ("line-over-32-bits", ch("X", 4294967296, 0), "A line of more than 32 bits.")]:
        one("numbers/" + name, about, "uinteger", "ab", change, standard="open")


def text_edits():
    def edits(name, about, text, *rows, standard="says", encoding="utf-16"):
        put("edits/" + name, about, EDITS, standard, encoding=encoding, text=text, edits=[{"range": at(*row[1:]), "newText": row[0]} for row in rows])
    edits("one", "One edit is one replacement.", "abc", ("X", 0, 1, 2))
    edits("none", "No edits change nothing.", "abc")
    edits("old-text", "All ranges count in the text before the edits.", "abc", ("1", 0, 0), ("2", 0, 1, 2))
    edits("unsorted", "Edits come in any order.", "abcd", ("4", 0, 3, 4), ("1", 0, 0, 1), ("2", 0, 1, 2))
    edits("insertions", "Insertions at one position keep the order of the list.", "ab", ("2", 0, 1), ("3", 0, 1), ("1", 0, 1))
    edits("insert-before-replace", "An insertion at the start of a later replacement comes before it.", "abc", ("1", 0, 1), ("2", 0, 1, 2))
    edits("insert-at-end", "An insertion at the end of a replacement comes after it.", "abc", ("1", 0, 1, 2), ("2", 0, 2))
    edits("touch", "Edits that touch don't overlap.", "abcd", ("1", 0, 0, 2), ("2", 0, 2, 4))
    edits("insertion-after", "An insertion at the end of a replacement comes after it, wherever it is in the list.", "abc", ("Y", 0, 2), ("X", 0, 1, 2))
    edits("clamped-ties", "Two insertions past a line's end are at one place, and keep their order.", "ab\ncd", ("1", 0, 9), ("2", 0, 2), ("3", 0, 5))
    edits("clamped-touch", "A deletion to past the line's end and an insertion there touch.", "ab\ncd", ("", 0, 1, 9), ("X", 0, 5))
    edits("lines", "Line ends that an edit inserts don't move the others.", "a\nb\nc", ("1\n\n", 0, 0), ("X", 2, 0, 1))
    edits("delete-lines", "Nor do those that an edit deletes.", "a\nb\nc", ("", 0, 0, 0, 1), ("X", 2, 0, 1))
    edits("astral", "Positions count units of the old text.", "😀b😀d", ("", 0, 0, 2), ("X", 0, 3, 5))
    edits("past-line-end", "A character past the line's end is the line's end.", "ab\ncd", ("X", 0, 9), ("Y", 1, 0, 99))
    edits("crlf", "A CRLF is deleted whole.", "a\r\nb\r\nc", (" ", 0, 1, 0, 1), (" ", 1, 1, 0, 2))
    edits("indent", "A formatter's edits: each line gets a blank.", "a\nb\nc\n", ("  ", 0, 0), ("  ", 1, 0), ("  ", 2, 0))
    edits("trailing", "A formatter's edits: trailing blanks go.", "a \nb  \n", ("", 0, 1, 2), ("", 1, 1, 3))
    edits("import", "A code action's edits: an import on top, and a use below.", "x\ny\n", ("import z\n", 0, 0), ("z.y", 1, 0, 1))
    edits("utf8", "Positions in bytes.", "éa", ("X", 0, 2, 3), ("Y", 0, 0), encoding="utf-8")
    edits("utf32", "Positions in characters.", "😀a", ("X", 0, 1, 2), ("Y", 0, 0), encoding="utf-32")
    edits("line-ten", "Lines are compared as numbers: 10 is after 2.", "".join(f"{line}\n" for line in range(12)), ("X\n", 2, 0), ("Y", 10, 0))
    edits("character-ten", "So are characters.", "abcdefghijkl", ("XX", 0, 2), ("Y", 0, 10))
    edits("overlap", "Edits that overlap are against the standard: both are named here.", "abcd", ("1", 0, 0, 2), ("2", 0, 1, 3), standard="open")
    edits("overlap-unsorted", "The one with the lower start is named first.", "abcd", ("1", 0, 1, 3), ("2", 0, 0, 2), standard="open")
    edits("inside-another", "An insertion inside a replaced range overlaps it.", "abcd", ("1", 0, 0, 3), ("2", 0, 1), standard="open")
    edits("insert-after-replace", "An insertion at the start of a replacement that comes before it in the list.", "abc", ("1", 0, 1, 2), ("2", 0, 1), standard="open")
    edits("inside", "An edit inside a character.", "a😀", ("1", 0, 0), ("2", 0, 2), standard="open")
    edits("reversed", "A reversed range.", "abc", ("1", 0, 2, 1), standard="open")


def sessions():
    def session(name, about, section, *rows, standard="says", encoding="utf-16"):
        put("session/" + name, about, section, standard, encoding=encoding, messages=[{"method": "textDocument/" + m, "params": p} for m, p in rows])
    opened = lambda text, version=1, uri="a", scheme="file:///": (
        "didOpen", {"textDocument": {"uri": scheme + uri, "languageId": "plaintext", "version": version, "text": text}})
    changed = lambda version, *changes, uri="a", scheme="file:///": (
        "didChange", {"textDocument": {"uri": scheme + uri, "version": version}, "contentChanges": list(changes)})
    closed = lambda uri="a": ("didClose", {"textDocument": {"uri": "file:///" + uri}})
    session("open", "An opened document has the text and the version that came.", OPEN, opened("a\nb", 7))
    session("typing", "Each message counts in the text that the one before left.", CHANGE, opened(""), changed(2, ch("a", 0, 0)), changed(3, ch("b", 0, 1)), changed(4, ch("\n", 0, 2)), changed(5, ch("c", 1, 0)))
    session("skip", "Versions increase, and needn't be consecutive.", VERSION, opened("a"), changed(5, ch("b", 0, 1)), changed(9, ch("c", 0, 2)))
    session("from-zero", "A version may be 0.", VERSION, opened("a", 0), changed(1, ch("b", 0, 1)))
    session("negative", "Versions are integers, also negative ones.", VERSION, opened("a", -3), changed(-2, ch("b", 0, 1)))
    session("zero", "An opened document may have the version 0.", VERSION, opened("a", 0))
    session("to-zero", "A change may have the version 0.", VERSION, opened("a", -1), changed(0, ch("b", 0, 1)))
    session("ten", "Versions are compared as numbers: 10 is greater than 9.", VERSION, opened("a", 9), changed(10, ch("b", 0, 1)))
    session("greatest", "The greatest integer is a version.", VERSION, opened("a", 2147483646), changed(2147483647, ch("b", 0, 1)))
    session("least", "So is the least one.", VERSION, opened("a", -2147483648), changed(-2147483647, ch("b", 0, 1)))
    session("widths", "Versions have 32 bits.", VERSION, opened("a", 127), *(changed(version, ch("b", 0, 1)) for near in (7, 8, 15, 16, 24) for version in (2 ** near, 2 ** near + 1)))
    session("no-changes", "A message without changes sets the version.", CHANGE, opened("a"), changed(2), changed(3, ch("b", 0, 1)))
    session("no-changes-last", "So it does where no other message follows.", CHANGE, opened("a"), changed(2))
    session("two", "Documents are apart.", OPEN, opened("a"), opened("x", uri="b"), changed(2, ch("b", 0, 1)), changed(2, ch("y", 0, 1), uri="b"))
    session("alternate", "So are their lines, where changes alternate.", OPEN, opened("a\nb"), opened("x", uri="b"), changed(2, ch("c", 1, 1)), changed(2, ch("y", 0, 1), uri="b"), changed(3, ch("d", 1, 2)))
    session("bom", "A byte order mark of an opened text is a character of it.", OPEN, opened("\ufeffab"), changed(2, ch("X", 0, 1)))
    session("bom-whole", "So is one of a whole text.", EVENT, opened("a"), changed(2, ch("\ufeffab")), changed(3, ch("X", 0, 2)))
    session("line-ends", "Line ends of an opened text stay as they came.", OPEN, opened("a\r\nb\rc\n"), changed(2, ch("X", 2, 0)))
    session("far", "A character may be greater than 65,535, and a line than 255.", POSITION, opened(66000 * "a"), changed(2, ch("X", 0, 65990)),
            changed(3, ch("", 0, 0, 65980)), opened(300 * "\n", uri="b"), changed(2, ch("X", 299, 0), uri="b"), changed(3, ch("", 0, 0, 0, 290), uri="b"))
    session("close", "A closed document isn't open any more.", CLOSE, opened("a"), opened("x", uri="b"), closed())
    session("schemes", "URIs of other schemes, queries and fragments name other documents.", OPEN, opened("a"), opened("b", scheme="git:/", uri="a?1"),
            opened("c", scheme="git:/", uri="a?2"), opened("d", scheme="cell:/", uri="a#1"), changed(2, ch("X", 0, 1), scheme="git:/", uri="a?1"), closed())
    session("open-again", "A document may be opened again, with a lower version.", OPEN, opened("a", 5), closed(), opened("b", 1), changed(2, ch("c", 0, 1)))
    session("cr-lf-later", "A CR and an LF that come in two messages end one line.", EOL, opened("a"), changed(2, ch("\r", 0, 1)), changed(3, ch("\n", 1, 0)), changed(4, ch("b", 1, 0)))
    session("whole-then-range", "A whole text, and then a range in it.", CHANGE, opened("a\nb"), changed(2, ch("x\ny\nz")), changed(3, ch("!", 2, 1)))
    session("utf8", "The encoding holds for the whole session.", KIND, opened("é"), changed(2, ch("a", 0, 2)), changed(3, ch("b", 0, 3)), encoding="utf-8")
    session("utf32", "The encoding holds for the whole session.", KIND, opened("😀"), changed(2, ch("a", 0, 1)), changed(3, ch("b", 0, 2)), encoding="utf-32")
    session("uri-as-sent", "URIs that differ in their bytes name two documents.", OPEN, opened("a", uri="x%3Ay"), opened("b", uri="x:y"), standard="open")
    session("uri-case", "So do those that differ in a drive's letter, or in a last slash.", OPEN, opened("a", uri="C:/x"), opened("b", uri="c:/x"), opened("c", uri="c:/x/"),
            standard="open")
    session("equal-version", "The version of the document again.", VERSION, opened("a"), changed(1, ch("b", 0, 1)), standard="open")
    session("lower-version", "A version below the current one.", VERSION, opened("a", 5), changed(4, ch("b", 0, 1)), changed(6, ch("c", 0, 1)), standard="open")
    session("zero-after-one", "The version 0, which is below the current one.", VERSION, opened("a"), changed(0, ch("b", 0, 1)), standard="open")
    session("refused-then-whole", "After a refused message a whole text mends the copy.", CHANGE, opened("😀"), changed(2, ch("b", 0, 1)), changed(3, ch("c")), standard="open")
    session("refused-keeps-version", "A refused message leaves the version too.", CHANGE, opened("😀"), changed(3, ch("b", 0, 1)), changed(2, ch("c", 0, 2)), standard="open")
    session("open-twice", "An open document is opened again.", OPEN, opened("a"), opened("b", 2), standard="open")
    session("change-closed", "A document that isn't open is changed.", OPEN, opened("a"), closed(), changed(2, ch("b", 0, 1)), standard="open")
    session("close-twice", "A document that isn't open is closed.", CLOSE, opened("a"), closed(), closed(), standard="open")
    session("null-version", "A version that is null.", VERSION, opened("a"), changed(None, ch("b", 0, 1)), standard="open")
    session("over-greatest", "A version that is one over the greatest integer.", VERSION, opened("a"), changed(2147483648, ch("b", 0, 1)), standard="open")
    session("under-least", "A version that is one under the least integer.", VERSION, opened("a", -2147483649), opened("b", -2147483648), standard="open")


def frames():
    def frame(name, about, stream, standard="says"):
        put("frame/" + name, about, HEADER, standard, bytes=stream.encode().decode("latin-1"))
    body = '{"jsonrpc":"2.0","method":"exit"}'
    head = lambda text: f"Content-Length: {len(text.encode())}\r\n"
    framed = lambda text: head(text) + "\r\n" + text
    padded = lambda size: head("{}") + "X: " + (size - len(head("{}")) - 7) * "x" + "\r\n\r\n{}"
    frame("one", "A header with a length, an empty line, and so many bytes.", framed(body))
    frame("two", "Frames follow each other without anything between them.", framed(body) + framed("{}"))
    frame("nothing", "An empty stream has no frame.", "")
    frame("empty-body", "A body without bytes.", "Content-Length: 0\r\n\r\n" + framed("{}"), "open")
    frame("bytes", "The length counts bytes, not characters.", framed('{"a":"é漢😀"}') + framed("{}"))
    frame("line-ends-in-body", "Line ends in and around a body are part of it.", framed("\r\n{}\r\n\r\n") + framed("{}"))
    frame("header-in-body", "What looks like a header inside a body is none.", framed("Content-Length: 5\r\n\r\n") + framed("{}"))
    frame("type", "Content-Type may name the charset.", head("{}") + "Content-Type: application/vscode-jsonrpc; charset=utf-8\r\n\r\n{}")
    frame("type-utf8", "utf8 is taken for utf-8, for old implementations.", head("{}") + "Content-Type: application/vscode-jsonrpc; charset=utf8\r\n\r\n{}", "open")
    frame("type-first", "The header fields come in any order.", "Content-Type: application/vscode-jsonrpc; charset=utf-8\r\n" + head("{}") + "\r\n{}")
    frame("length-in-type", "A parameter of the type isn't the length, whatever it looks like.", 'Content-Type: application/vscode-jsonrpc; charset=utf-8; note="Content-Length: 1"\r\n' + head("{}") + "\r\n{}")
    frame("type-word", "A parameter of the type may lack a value.", head("{}") + "Content-Type: application/vscode-jsonrpc; strict; charset=utf-8\r\n\r\n{}", "open")
    frame("names", "Names of header fields have no case.", "content-length: 2\r\n\r\n{}CONTENT-LENGTH: 2\r\n\r\n[]")
    frame("cut-header", "A part of a header at the end of the stream is no frame yet.", framed("{}") + "Content-Le")
    frame("cut-body", "A part of a body at the end of the stream is no frame yet.", framed("{}") + "Content-Length: 9\r\n\r\n{}")
    frame("hundred", "A hundred frames.", framed("[1]") * 100)
    frame("long", "A body may be longer than what is read at once.", framed('"' + 10000 * "x" + '"') + framed("{}"))
    frame("no-blank", "No blank after the colon.", "Content-Length:2\r\n\r\n{}", "open")
    frame("blanks", "A tab before a length, and a blank after it.", "Content-Length:\t2 \r\n\r\n{}", "open")
    frame("zeroes", "A length with leading zeroes.", 'Content-Length: 0010\r\n\r\n"tenbytes"', "open")
    frame("lf", "Lines that end in LF alone.", "Content-Length: 2\n\n{}", "open")
    frame("no-length", "A header without a length.", "Content-Type: application/vscode-jsonrpc\r\n\r\n{}", "open")
    frame("empty-header", "A header without fields.", framed("{}") + "\r\n" + framed("[]"), "open")
    frame("twice", "Two lengths that are equal.", "Content-Length: 2\r\nContent-Length: 2\r\n\r\n{}", "open")
    frame("two-lengths", "Two lengths that differ.", "Content-Length: 2\r\nContent-Length: 4\r\n\r\n{}[]", "open")
    frame("negative", "A negative length.", "Content-Length: -2\r\n\r\n{}", "open")
    frame("words", "A length that isn't only a number.", "Content-Length: 2 bytes\r\n\r\n{}", "open")
    frame("no-digits", "A length without a value.", "Content-Length: \r\n\r\n" + framed("{}"), "open")
    frame("no-value", "Nothing at all after the colon.", "Content-Length:\r\n\r\n" + framed("{}"), "open")
    frame("longest-header", "A header of 8,192 bytes, the most that is read.", padded(8192) + framed("[]"), "open")
    frame("header-too-long", "A header of one byte more.", framed("{}") + padded(8193), "open")
    frame("longest", "A length of just the default limit of 16 MiB, of which the body is still to come.", "Content-Length: 16777216\r\n\r\n{}", "open")
    frame("too-long", "A length above the default limit of 16 MiB.", "Content-Length: 16777217\r\n\r\n{}", "open")
    frame("charset", "Another charset.", head("{}") + "Content-Type: application/vscode-jsonrpc; charset=latin-1\r\n\r\n{}", "open")
    frame("charset-quoted", "The charset in quotes.", head("{}") + 'Content-Type: application/vscode-jsonrpc; charset="utf-8"\r\n\r\n{}', "open")
    frame("other-field", "Fields that the protocol doesn't name, one without a value.", "X-Trace: 1\r\nX-Empty:\r\n" + head("{}") + "\r\n{}", "open")
    frame("almost-length", "Fields whose names end, or begin, as that of the length.", "X-Content-Length: 9\r\n" + head("{}") + "Content-Length-X: 7\r\n\r\n{}", "open")
    frame("log-line", "Text of a log among the frames.", framed("{}") + "starting up\r\n" + framed("{}"), "open")


# Random cases, by a generator that is the same everywhere

class Random:
    def __init__(self, seed):
        self.state = seed

    def below(self, count):
        self.state = (self.state * 6364136223846793005 + 1442695040888963407) % 2 ** 64
        return (self.state >> 33) % count

    def pick(self, items):
        return items[self.below(len(items))]


PIECES = ["a", "b", " ", "\n", "\n", "\r\n", "\r", "é", "漢", "😀", "\U0010ffff", "\u2028", "e\u0301", "\t", "xyz"]
EVERYDAY = ["a", "b", " ", "\n", "word", "é", "😀", "()", "    "]


def some_text(random, most, pieces):
    return "".join(random.pick(pieces) for _ in range(random.below(most + 1)))


def some_position(random, text, encoding, everyday):
    """An exact position, or else sometimes one past a line's end, past the last line or inside a character."""
    plain = Plain()
    lines = plain.lines(text)
    line = random.below(len(lines))
    start, stop = lines[line]
    index = start + random.below(stop - start + 1)
    position = plain.position(text, encoding, index)
    odd = random.below(12)
    if everyday or odd > 2:
        return position
    more = [9, 1, 0][odd] if odd < 2 else 0
    return {"line": line + (1 + len(lines) if odd == 2 and random.below(4) == 0 else 0), "character": position["character"] + more}


def ends_in_order(a, b):
    return (a["line"], a["character"]) <= (b["line"], b["character"])


def some_range(random, text, encoding, everyday):
    ends = [some_position(random, text, encoding, everyday) for _ in range(2)]
    if random.below(2):
        ends[1] = ends[0]
    if not ends_in_order(*ends) and random.below(20):
        ends.reverse()
    return {"start": ends[0], "end": ends[1]}


def is_open(text, encoding, range_):
    """Whether the standard leaves a range open: a line past the last, a reversed range, or an end inside a character."""
    plain = Plain()
    if not ends_in_order(range_["start"], range_["end"]) or any(range_[end]["line"] >= len(plain.lines(text)) for end in range_):
        return True
    try:
        plain.ends(text, encoding, range_, 0)
        return False
    except Refused:
        return True


def some_changes(random, text, encoding, everyday, most):
    """Some changes, whether the standard leaves them open, and the text after them (or the one where they end)."""
    changes, opens, plain = [], False, Plain()
    for _ in range(1 + random.below(most)):
        if not everyday and random.below(25) == 0:
            changes.append({"text": some_text(random, 6, PIECES)})
        else:
            range_ = some_range(random, text, encoding, everyday)
            changes.append({"range": range_, "text": some_text(random, 3, EVERYDAY if everyday else PIECES)})
            opens = opens or is_open(text, encoding, range_)
        try:
            text = plain.message(text, encoding, changes[-1:])[0]
        except Refused:
            break
    return changes, opens, text


def random_messages(count):
    random = Random(317)
    for number in range(count):
        everyday, encoding = number % 4 == 0, random.pick(["utf-16", "utf-16", "utf-16", "utf-8", "utf-32"])
        text = some_text(random, 14, EVERYDAY if everyday else PIECES)
        changes, opens, _ = some_changes(random, text, encoding, everyday, 3)
        FOUND.append({"name": f"{'everyday' if everyday else 'random'}/{number}", "standard": "open" if opens else "says", "encoding": encoding, "text": text, "changes": changes})


def random_edits(count):
    random, plain = Random(318), Plain()
    for number in range(count):
        encoding, text = random.pick(["utf-16", "utf-16", "utf-8", "utf-32"]), some_text(random, 14, PIECES)
        edits = [{"range": some_range(random, text, encoding, False), "newText": some_text(random, 2, PIECES)} for _ in range(random.below(5))]
        opens = any(is_open(text, encoding, edit["range"]) for edit in edits)
        try:
            plain.edited(text, encoding, edits)
        except Refused:
            opens = True
        FOUND.append({"name": f"random-edits/{number}", "standard": "open" if opens else "says", "encoding": encoding, "text": text, "edits": edits})


def random_sessions(count):
    random = Random(319)
    for number in range(count):
        encoding, texts, opens = random.pick(["utf-16", "utf-8", "utf-32"]), {}, False
        rows = []
        for version in range(1, 3 + random.below(8)):
            uri = random.pick(["file:///a", "file:///b"])
            if uri not in texts:
                texts[uri] = some_text(random, 8, PIECES)
                rows.append(("didOpen", {"textDocument": {"uri": uri, "languageId": "plaintext", "version": version, "text": texts[uri]}}))
            elif random.below(9) == 0:
                del texts[uri]
                rows.append(("didClose", {"textDocument": {"uri": uri}}))
            else:
                changes, some, text = some_changes(random, texts[uri], encoding, True, 2)
                opens, texts[uri] = opens or some, text
                rows.append(("didChange", {"textDocument": {"uri": uri, "version": version}, "contentChanges": changes}))
        messages = [{"method": "textDocument/" + method, "params": params} for method, params in rows]
        FOUND.append({"name": f"random-session/{number}", "standard": "open" if opens else "says", "encoding": encoding, "messages": messages})


KINDS = {"vectors": (messages, lambda: random_messages(1500)), "edits": (text_edits, lambda: random_edits(400)),
         "sessions": (sessions, lambda: random_sessions(100)), "frames": (frames,)}

if __name__ == "__main__":
    for part in KINDS[sys.argv[1]]:
        part()
    names = [case["name"] for case in FOUND]
    assert len(names) == len(set(names)), "two cases have one name"
    for case in FOUND:
        print(json.dumps(case, ensure_ascii=False, separators=(",", ":")))
