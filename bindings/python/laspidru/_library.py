"""The shared library: how it is found and called, and what each of its codes raises."""
from __future__ import annotations

import ctypes
import glob
import operator
import os
import platform
import re
import struct
from ctypes import byref, c_size_t, c_void_p, create_string_buffer
from typing import Any, Dict, Iterator, List, Optional, Sequence, Tuple

from ._declared import DECLARED, NUMBERS

UTF16 = NUMBERS["UTF16"]
ENCODINGS = {"utf-8": NUMBERS["UTF8"], "utf-16": UTF16, "utf-32": NUMBERS["UTF32"]}
OK, OUT_OF_MEMORY = NUMBERS["OK"], NUMBERS["OUT_OF_MEMORY"]
_KINDS: Dict[str, Any] = {"size_t": c_size_t, "uint64_t": ctypes.c_uint64, "uint32_t": ctypes.c_uint32, "int32_t": ctypes.c_int32,
                          "bool": ctypes.c_bool, "void": None}


def _structures() -> Iterator[Any]:
    """A class for each struct of laspidru.h, in its order."""
    for body, name in re.findall(r"typedef struct {(.*?)} (\w+);", DECLARED, re.S):
        fields: List[Any] = []
        for kind, members in (it.split(None, 1) for it in body.split(";")[:-1]):
            fields += [(it.strip(" *"), c_void_p if "*" in it else _KINDS[kind]) for it in members.replace("\n", "").split(", ")]
        _KINDS[name] = type(name, (ctypes.Structure,), {"_fields_": fields})
        yield _KINDS[name]


(Handle, Place, Edit, Fault, TextEditsFault, Line, Length, Settings, Answer, Taken, ClientSettings, State, Opened, LogSettings,
 Ending) = _structures()


NAME = {"Windows": "laspidru.dll", "Darwin": "liblaspidru.dylib"}.get(platform.system(), "liblaspidru.so.0")
IN_THE_REPOSITORY = os.path.join("bindings", "python", "laspidru")
# The systems that the library is built for, each with its processors
BUILT = {"Linux": ("x86_64", "aarch64"), "Windows": ("AMD64",), "Darwin": ("x86_64", "arm64")}


def _path() -> str:
    """The library that LASPIDRU_LIBRARY names, else the one beside this file, as a wheel has it, else the one that `make library` made
    here, the proved one if it is there, else the installed one."""
    folder = os.path.dirname(os.path.abspath(__file__))
    found = glob.glob(os.path.join(folder, NAME))
    if folder.endswith(IN_THE_REPOSITORY):
        build = os.path.join(folder[:-len(IN_THE_REPOSITORY)], "build")
        found += [it for at in (build, os.path.join(build, "unproved")) for it in glob.glob(os.path.join(at, "liblaspidru.so.*.*.*"))]
    return os.environ.get("LASPIDRU_LIBRARY") or (found[0] if found else NAME)


def _why(problem: str) -> str:
    """Why the library can't be loaded, in a sentence. `problem` is what the loader says."""
    system, machine, bits = platform.system(), platform.machine(), 8 * struct.calcsize("P")
    if machine not in BUILT.get(system, ()) or bits != 64:
        built = "; ".join(f"{name} on {' and '.join(them)}" for name, them in BUILT.items())
        return f"laspidru's library is for {built}, with 64 bits, and this Python is for {system} on {machine} with {bits} bits"
    needed, (libc, version) = re.search(r"GLIBC_([0-9.]+)' not found", problem), platform.libc_ver()
    if needed:
        return f"laspidru's library needs glibc {needed.group(1)} or newer, and this is glibc {version}"
    if system == "Linux" and libc != "glibc":
        return "laspidru's library needs the C library glibc, and this Python has another one"
    return f"laspidru's library can't be loaded ({problem}); LASPIDRU_LIBRARY names it if it is elsewhere"


def _library() -> ctypes.CDLL:
    try:
        library = ctypes.CDLL(_path())
    except OSError as error:
        raise ImportError(_why(str(error))) from error
    for result, name, given in re.findall(r"^(\w+) (laspidru_\w+)\((.*?)\);", DECLARED, re.S | re.M):
        function, passed = getattr(library, name), [it.split() for it in given.split(",") if it != "void"]
        function.argtypes = [c_void_p if "*" in it[-1] else _KINDS[it[0]] for it in passed]
        function.restype = _KINDS[result]
    return library


LIBRARY = _library()


def copy_out(function: Any, room: int, *arguments: Any) -> bytes:
    """What one of the functions that copy has from 0 on, whose last arguments are the start, the room, its length and the count."""
    out, copied = create_string_buffer(max(room, 1)), c_size_t()
    demand(function(*arguments, 0, out, room, byref(copied)))
    return ctypes.string_at(out, copied.value)


def _texts() -> Iterator[List[str]]:
    """The name of each code, and what it means, as the library says it."""
    out, copied = create_string_buffer(120), c_size_t()
    for code in range(256):
        if LIBRARY.laspidru_code_text(code, 0, out, 120, byref(copied)) != OK:
            return
        yield out.raw[:copied.value].decode().split(": ", 1)


NAMES, _WHYS = zip(*_texts())
WHY = dict(zip(NAMES, _WHYS))
VERSION = "{}.{}.{}".format(*(LIBRARY.laspidru_version() // of % 100 for of in (10000, 100, 1)))


def _fast() -> Any:
    """The extension that makes changes without ctypes, where it was built (docs/python.md)."""
    try:
        from . import _fast as fast
    except ImportError:
        return None
    fast.bind(ctypes.cast(LIBRARY.laspidru_document_change, c_void_p).value)
    return fast


class LaspidruError(ValueError):
    """A refused call, which changed nothing: the name of its code, and for a faulty change its index and which end is faulty."""

    def __init__(self, code: str, change: Optional[int] = None, at_end: Optional[bool] = None) -> None:
        super().__init__(("" if change is None else f"change at index {change}: ") + WHY[code])
        self.code, self.change, self.at_end = code, change, at_end


class EditsFault(LaspidruError):
    """A fault of text edits: its code, the index of the faulty edit, which end is faulty, and for two that overlap the other's."""

    def __init__(self, code: str, edit: int, other: Optional[int], at_end: bool) -> None:
        super().__init__(code)
        self.edit, self.other, self.at_end = edit, other, at_end

    def __str__(self) -> str:
        which = f"edits at the indexes {self.edit} and {self.other}" if self.other is not None else f"edit at index {self.edit}"
        return f"{which}: {super().__str__()}"


class LogFault(LaspidruError):
    """A fault of a log: its code, its byte offset, which of F1 to F7 a faulty frame has, else 0, and the output up to it."""

    def __init__(self, code: str, offset: int, frame: int, output: bytes) -> None:
        super().__init__(code)
        self.offset, self.frame, self.output = offset, frame, output

    def __str__(self) -> str:
        return f"{super().__str__()} at {self.offset}"


class FrameFault(LaspidruError):
    """A fault of a stream: which of F1 to F7, and the byte offset in the stream on which it was decided. No more of the stream is
    taken. `events` has what `receive` had before it: a framer's bodies, or the events of an end."""

    def __init__(self, offset: int, frame: int, events: List[Any]) -> None:
        super().__init__("BAD_FRAME")
        self.offset, self.frame, self.events = offset, frame, events

    def __str__(self) -> str:
        return f"{super().__str__()}: F{self.frame} at {self.offset}"


def demand(code: int) -> None:
    if code == OUT_OF_MEMORY:
        raise MemoryError
    if code:
        raise LaspidruError(NAMES[code])


def demand_change(code: int, fault: Any) -> None:
    if NAMES[code] in ("INSIDE_CHARACTER", "REVERSED_RANGE"):
        raise LaspidruError(NAMES[code], fault.change, fault.at_end)
    demand(code)


def demand_edits(code: int, fault: Any) -> None:
    if NAMES[code] in ("INSIDE_CHARACTER", "REVERSED_RANGE", "OVERLAP"):
        raise EditsFault(NAMES[code], fault.edit, fault.other if NAMES[code] == "OVERLAP" else None, fault.at_end)
    demand(code)


FAST = _fast()


def number(value: Any, bits: int, code: str = "OUT_OF_RANGE") -> int:
    """An integer of at least 0 that has so many bits. ctypes would take any, and drop bits."""
    value = operator.index(value)
    if not 0 <= value < 1 << bits:
        raise LaspidruError(code)
    return value


def version_number(value: Any) -> int:
    """A version of a document, which has 32 bits and a sign."""
    value = operator.index(value)
    if not -(1 << 31) <= value < 1 << 31:
        raise LaspidruError("OUT_OF_RANGE")
    return value


def utf8(text: Any) -> bytes:
    """The bytes of a text. A lone surrogate has none."""
    if not isinstance(text, str):
        raise TypeError("a text is a str")
    try:
        return text.encode()
    except UnicodeEncodeError as error:
        raise LaspidruError("NOT_UTF8") from error


def some_bytes(data: Any, what: str) -> bytes:
    if not isinstance(data, (bytes, bytearray, memoryview)):
        raise TypeError(f"{what} is bytes")
    return bytes(data)


def encoding_number(name: Any) -> int:
    if name not in ENCODINGS:
        raise LaspidruError("BAD_ENCODING")
    return ENCODINGS[name]


def encoding_name(code: int) -> Optional[str]:
    return next((name for name, it in ENCODINGS.items() if it == code), None)


def limits(max_body: Any, max_text: Any, max_docs: Any, max_changes: Any) -> Tuple[int, ...]:
    given = {"BODY": max_body, "TEXT": max_text, "DOCS": max_docs, "CHANGES": max_changes}
    return tuple(number(limit, 64, f"BAD_MAX_{name}") for name, limit in given.items())


def place_of(position: Any) -> Any:
    """A position as LSP writes it, or as an object with its members."""
    if isinstance(position, dict):
        line, character = position["line"], position["character"]
    else:
        line, character = position.line, position.character
    return Place(number(line, 32), number(character, 32))


def _parts(change: Any) -> Tuple[Any, Any]:
    """The range of a change or a text edit, if it has one, and its text."""
    if isinstance(change, dict):
        range_, text = change.get("range"), change.get("newText", change.get("text"))
    else:
        range_, text = getattr(change, "range", None), getattr(change, "new_text", getattr(change, "text", None))
    if text is None:
        raise TypeError("a change has no text")
    return range_, text


def _ends(range_: Any) -> Tuple[Any, Any]:
    if isinstance(range_, dict):
        return place_of(range_["start"]), place_of(range_["end"])
    return place_of(range_.start), place_of(range_.end)


# A batch as the library takes it: the edits, how many they are, and their texts.
Passed = Tuple[Any, int, bytes]


def batch(changes: Sequence[Any]) -> Passed:
    """The changes of a didChange as the library takes them."""
    read = None if FAST is None else FAST.read(changes)
    if read is not None:
        return read[0], len(read[0]) // ctypes.sizeof(Edit), read[1]
    edits, texts = (Edit * len(changes))(), []
    for count, (edit, change) in enumerate(zip(edits, changes)):
        range_, text = _parts(change)
        try:
            texts.append(utf8(text))
            edit.len, edit.is_whole = len(texts[-1]), range_ is None
            if range_ is not None:
                edit.start, edit.end = _ends(range_)
        except LaspidruError as error:
            raise LaspidruError(error.code, count) from error
    return edits, len(edits), b"".join(texts)


def batch_of_edits(edits: Sequence[Any]) -> Passed:
    """Text edits as the library takes them."""
    if any(_parts(edit)[0] is None for edit in edits):
        raise TypeError("a text edit has a range")
    return batch(edits)


def changes_of(batch_: Any) -> List[Dict[str, Any]]:
    """The changes of a batch, which is closed."""
    count = c_size_t()
    try:
        demand(LIBRARY.laspidru_batch_len(byref(batch_), byref(count)))
        return [_change_at(batch_, index) for index in range(count.value)]
    finally:
        LIBRARY.laspidru_handle_free(byref(batch_))


def _change_at(batch_: Any, index: int) -> Dict[str, Any]:
    edit, copied = Edit(), c_size_t()
    demand(LIBRARY.laspidru_batch_edit(byref(batch_), index, byref(edit), create_string_buffer(1), 0, byref(copied)))
    out = create_string_buffer(max(edit.len, 1))
    demand(LIBRARY.laspidru_batch_edit(byref(batch_), index, byref(edit), out, edit.len, byref(copied)))
    change: Dict[str, Any] = {"text": out.raw[:copied.value].decode()}
    if not edit.is_whole:
        change["range"] = {"start": {"line": edit.start.line, "character": edit.start.character},
                           "end": {"line": edit.end.line, "character": edit.end.character}}
    return change
