"""Documents, alone and as pygls has them."""
from __future__ import annotations

import io
import os
import re
import threading
import urllib.parse
from ctypes import addressof, byref, c_size_t, create_string_buffer
from typing import Any, Callable, Dict, List, Optional, Pattern, Sequence, Tuple

from ._library import (FAST, LIBRARY, Fault, Handle, Length, Line, Passed, Place, TextEditsFault, batch, batch_of_edits, changes_of,
                       copy_out, demand, demand_change, demand_edits, encoding_number, number, place_of, utf8)

# The methods of `Document` keep their state in names of the class alone (`__lock`), so that a subclass may use any name.


class Document:
    """A text with its lines. Positions count units of `encoding`: "utf-8", "utf-16" or "utf-32"."""

    def __init__(self, text: str, encoding: str = "utf-16") -> None:
        self.__begin(encoding)
        self.__open(text)

    def __begin(self, encoding: str, load: Optional[Callable[[], str]] = None) -> None:
        self.__handle, self.__lock = Handle(), threading.Lock()
        self.__address = addressof(self.__handle)
        self.__text: Optional[str] = None
        self.__lines: Optional[List[str]] = None
        self.__encoding, self.__load = encoding_number(encoding), load

    def __open(self, text: str) -> None:
        data = utf8(text)
        demand(LIBRARY.laspidru_document_new(byref(self.__handle), data, len(data)))

    def __full(self) -> Any:
        """The handle, once the text was read that is to be read late. The lock is held."""
        if self.__load is not None:
            self.__open(self.__load())
            self.__load = None
        return byref(self.__handle)

    def __changed(self) -> None:
        self.__text = self.__lines = None

    def close(self) -> None:
        """Frees the text. Each later call raises LaspidruError."""
        with self.__lock:
            self.__load = None
            self.__changed()
            LIBRARY.laspidru_handle_free(byref(self.__handle))

    def __del__(self) -> None:
        if hasattr(self, "_Document__lock"):
            self.close()

    @property
    def line_count(self) -> int:
        length = Length()
        with self.__lock:
            demand(LIBRARY.laspidru_document_size(self.__full(), byref(length)))
        return length.lines

    def line(self, line: int) -> str:
        """A line, counted from 0, without its line end. The rest of the text is not read."""
        count, found, copied = number(line, 32), Line(), c_size_t()
        with self.__lock:
            handle = self.__full()
            demand(LIBRARY.laspidru_document_line(handle, count, byref(found)))
            room = found.end - found.start
            out = create_string_buffer(max(room, 1))
            demand(LIBRARY.laspidru_document_copy(handle, found.start, out, room, byref(copied)))
        return out.raw[:copied.value].decode()

    def __whole(self) -> str:
        handle = self.__full()
        if self.__text is None:
            length = Length()
            demand(LIBRARY.laspidru_document_size(handle, byref(length)))
            self.__text = copy_out(LIBRARY.laspidru_document_copy, length.bytes, handle).decode()
        return self.__text

    @property
    def text(self) -> str:
        """The text. The first use after a change copies it out of the library."""
        with self.__lock:
            return self.__whole()

    @property
    def lines(self) -> List[str]:
        """The lines, each with its line end, as LSP counts them: CR, LF and CRLF end a line and nothing else does."""
        with self.__lock:
            text = self.__whole()
            if self.__lines is None:
                self.__lines = _lines(text)
            return list(self.__lines)

    def change(self, changes: Sequence[Any]) -> None:
        """Makes the changes of a didChange, in order, or raises and makes none of them."""
        if FAST is not None and self.__change_fast(FAST.read(changes)):
            return
        fault = Fault()
        demand_change(self.__make(LIBRARY.laspidru_document_change, batch(changes), fault), fault)

    def __make(self, function: Any, passed: Passed, fault: Any) -> int:
        """Makes changes or text edits by a function of the library, or none of them."""
        edits, count, texts = passed
        with self.__lock:
            code = int(function(self.__full(), self.__encoding, edits, count, texts, len(texts), byref(fault)))
            if code == 0:
                self.__changed()
        return code

    def __batch(self, function: Any, passed: Passed, fault: Any) -> Tuple[int, Any]:
        """The batch that a function of the library has of changes or text edits."""
        (edits, count, texts), found = passed, Handle()
        with self.__lock:
            code = function(self.__full(), self.__encoding, edits, count, texts, len(texts), byref(found), byref(fault))
        return code, found

    def __change_fast(self, read: Any) -> bool:
        """Makes changes that the extension has read, if it has. Else nothing has changed."""
        if read is None:
            return False
        with self.__lock:
            self.__full()
            is_done = FAST.change(self.__address, self.__encoding, *read)
            if is_done:
                self.__changed()
        return is_done

    def canonical(self, changes: Sequence[Any]) -> List[Dict[str, Any]]:
        """The one canonical batch that means the same on the text: a list of changes as LSP writes them."""
        fault = Fault()
        code, found = self.__batch(LIBRARY.laspidru_document_canonical, batch(changes), fault)
        demand_change(code, fault)
        return changes_of(found)

    def apply_edits(self, edits: Sequence[Any]) -> None:
        """Makes text edits, as a formatter returns them, or raises EditsFault and makes none of them. All count in the text as it is."""
        fault = TextEditsFault()
        demand_edits(self.__make(LIBRARY.laspidru_document_apply_edits, batch_of_edits(edits), fault), fault)

    def batch_of_edits(self, edits: Sequence[Any]) -> List[Dict[str, Any]]:
        """The canonical batch of what text edits mean on the text: the changes of the didChange that reports them."""
        fault = TextEditsFault()
        code, found = self.__batch(LIBRARY.laspidru_document_batch_of_edits, batch_of_edits(edits), fault)
        demand_edits(code, fault)
        return changes_of(found)

    def byte_offset(self, position: Any, encoding: Optional[str] = None) -> int:
        """The byte offset of a position. One after the line's end is the line's end. Positions count units of the document's
        encoding, or of this one."""
        place, offset = place_of(position), c_size_t()
        units = self.__encoding if encoding is None else encoding_number(encoding)
        with self.__lock:
            demand(LIBRARY.laspidru_document_offset(self.__full(), units, place, byref(offset)))
        return offset.value

    def position(self, byte_offset: int, encoding: Optional[str] = None) -> Dict[str, int]:
        """The exact position of a byte offset, as LSP writes it, in the document's encoding or in this one."""
        byte_offset, place = number(byte_offset, 64), Place()
        units = self.__encoding if encoding is None else encoding_number(encoding)
        with self.__lock:
            demand(LIBRARY.laspidru_document_position(self.__full(), units, byte_offset, byref(place)))
        return {"line": place.line, "character": place.character}

    def position_in(self, position: Any, encoding: str) -> Dict[str, int]:
        """A position of the document's encoding in another one, as in "utf-32" for jedi, which counts code points."""
        return self.position(self.byte_offset(position), encoding)


# What else ends lines for `str.splitlines`, which is the faster way where there is none of these.
_NO_LINE_ENDS = "\v\f\x1c\x1d\x1e\x85\u2028\u2029"


def _lines(text: str) -> List[str]:
    if any(letter in text for letter in _NO_LINE_ENDS):
        return list(io.StringIO(text, newline=""))
    return text.splitlines(True)


WORD_START, WORD_END = re.compile("[A-Za-z_0-9]*$"), re.compile("^[A-Za-z_0-9]*")


def _path(uri: str) -> str:
    """The path of a file's URI, as pygls has it: `c:/a` for `file:///C:/a`, on Windows with backslashes."""
    parts = urllib.parse.urlsplit(uri)
    path = urllib.parse.unquote(parts.path)
    if parts.scheme == "file" and parts.netloc and path:
        path = f"//{parts.netloc}{path}"
    elif re.match("/[A-Za-z]:", path):
        path = path[1].lower() + path[2:]
    return path.replace("/", os.sep)


def _file_text(path: str) -> str:
    with open(path, encoding="utf-8", newline="") as file:
        return file.read()


class TextDocument(Document):
    """A document with the members and parameters of pygls' TextDocument (1.3 and 2.0); docs/python.md says what differs.

    With no `source` it is the file of the URI, which is read once, at the first use of the text. Positions count units of
    `encoding`, or else of `position_codec.encoding`, or else of "utf-16". `local` and `sync_kind` are ignored: each change says
    whether it has a range."""

    def __init__(self, uri: str, source: Optional[str] = None, version: Optional[int] = None, language_id: Optional[str] = None,
                 local: bool = True, sync_kind: Any = None, position_codec: Any = None, *, encoding: Optional[str] = None) -> None:
        self.uri, self.version, self.language_id = uri, version, language_id
        self.path = _path(uri)
        self.filename = os.path.basename(self.path)
        self.position_codec = position_codec
        units = encoding or getattr(position_codec, "encoding", "utf-16")
        if source is None:
            path = self.path
            self._Document__begin(units, lambda: _file_text(path))  # type: ignore[attr-defined]
        else:
            super().__init__(source, units)

    def __str__(self) -> str:
        return str(self.uri)

    @property
    def source(self) -> str:
        return self.text

    def apply_change(self, change: Any) -> None:
        """Makes one change. For a whole message take `apply_changes`, which makes all of its changes or none."""
        self.change([change])

    def apply_changes(self, changes: Sequence[Any], version: Optional[int] = None) -> None:
        """Makes the changes of a didChange, in order, and takes its version; or raises, and all stays as it is."""
        self.change(changes)
        if version is not None:
            self.version = version

    def offset_at_position(self, position: Any) -> int:
        """The index in `source` of a position."""
        return len(self.text.encode()[:self.byte_offset(position)].decode())

    def word_at_position(self, position: Any, re_start_word: Pattern[str] = WORD_START,
                         re_end_word: Pattern[str] = WORD_END) -> str:
        """The word at a position: the first match of `re_start_word` in what its line has before it, then the last match of
        `re_end_word` in the rest of that line."""
        line = place_of(position).line
        if line >= self.line_count:
            return ""
        data = self.line(line).encode()
        at = self.byte_offset(position) - self.byte_offset({"line": line, "character": 0})
        return re_start_word.findall(data[:at].decode())[0] + re_end_word.findall(data[at:].decode())[-1]
