"""The commands of lspsync on logs."""
from __future__ import annotations

import json
import os
from ctypes import byref
from typing import Any, Dict, List, NamedTuple, Optional

from ._library import (LIBRARY, NAMES, NUMBERS, Ending, Handle, LaspidruError, LogFault, LogSettings, copy_out, demand, encoding_number,
                       limits, number, some_bytes, utf8)


class LogOutput(NamedTuple):
    """What a command on a log wrote; its status, which is 1 where something was refused, or of `compare` where texts
    differ; how many messages there were, and how many of them were refused."""
    output: bytes
    status: int
    messages: int
    refused: int

    @property
    def records(self) -> List[Dict[str, Any]]:
        """What `trace` and `replay` wrote, an object for each line."""
        return [json.loads(line) for line in self.output.splitlines()]


def _bytes_of(log: Any, what: str = "a log") -> bytes:
    """The bytes of a log: they themselves, or of a file of this path or of a stream what is left to read."""
    if isinstance(log, (str, os.PathLike)):
        with open(log, "rb") as file:
            return file.read()
    return some_bytes(log.read() if hasattr(log, "read") else log, what)


def _run(name: str, log: Any, saved: Optional[bytes] = None, /, *, at: Optional[int] = None, uri: Optional[str] = None,
         encoding: str = "utf-16", max_body: int = 16777216, max_text: int = 16777216, max_docs: int = 1024,
         max_changes: int = 65536, lenient: bool = False, squash: bool = False, documents: bool = False,
         texts: bool = False, bodies: bool = False, brief: bool = False, all: bool = False) -> LogOutput:
    data, named = _bytes_of(log), utf8(uri or "")
    if at is not None and at < 1:
        raise LaspidruError("OUT_OF_RANGE")
    settings = LogSettings(*limits(max_body, max_text, max_docs, max_changes), number(at or 0, 64),
                           encoding_number(encoding), lenient, squash, documents, texts, bodies, uri is not None, brief, all)
    handle, ending = Handle(), Ending()
    read = byref(settings), named, len(named)
    if saved is None:
        code = LIBRARY.laspidru_log_run(byref(handle), NUMBERS[name], *read, data, len(data), byref(ending))
    else:
        code = LIBRARY.laspidru_log_compare(byref(handle), *read, saved, len(saved), data, len(data), byref(ending))
    try:
        if not handle.is_full:
            demand(code)
        output = copy_out(LIBRARY.laspidru_output_copy, ending.output_len, byref(handle))
    finally:
        LIBRARY.laspidru_handle_free(byref(handle))
    if code:
        raise LogFault(NAMES[code], ending.offset, ending.frame, output)
    if ending.missing:
        raise LaspidruError(NAMES[ending.missing])
    return LogOutput(output, ending.status, ending.messages, ending.refused)


# Each takes the bytes of a log, the path of a file, or a binary stream. `options` are lspsync's: encoding, max_body, max_text, max_docs,
# max_changes and lenient.


def check(log: Any, *, explain: bool = False, brief: bool = False, all: bool = False, **options: Any) -> LogOutput:
    """What a server answers to each record of a log, a line for each; with `explain` why, and what is suspicious; with
    `brief` only lines that have that, with `all` each note on its line. Both mean `explain` too."""
    return _run("EXPLAIN" if explain or brief or all else "CHECK", log, brief=brief, all=all, **options)


def trace(log: Any, *, texts: bool = False, bodies: bool = False, **options: Any) -> LogOutput:
    """All that is known of each record of a log, a line of JSON for each (`records`), also with the texts and the bodies."""
    return _run("TRACE", log, texts=texts, bodies=bodies, **options)


def replay(log: Any, *, at: Optional[int] = None, uri: Optional[str] = None, **options: Any) -> LogOutput:
    """The documents that are open at the end of a log, or after the record `at`, a line of JSON for each (`records`); with `uri` the
    text of that document. LaspidruError says that there is no such record, or that the document was never open."""
    return _run("REPLAY", log, at=at, uri=uri, **options)


def compare(log: Any, saved: Any, *, uri: Optional[str] = None, **options: Any) -> LogOutput:
    """Whether the last text of a document is `saved`, what its editor saved (bytes, the path of a file, or a stream),
    and else which message made each line that differs. The document is the one whose URI ends as `uri`; without it as
    the path, or else the only one. LaspidruError says that no document's URI ends so."""
    if uri is None and isinstance(saved, (str, os.PathLike)):
        uri = os.fspath(saved)
    return _run("COMPARE", log, _bytes_of(saved, "a saved text"), uri=uri, **options)


def normalise(log: Any, *, squash: bool = False, documents: bool = False, **options: Any) -> LogOutput:
    """The log with each accepted change as its canonical message; with `squash` each run of changes of one document as one, with
    `documents` without the records that are neither about the session nor about a text."""
    return _run("NORMALISE", log, squash=squash, documents=documents, **options)


def convert(log: Any, **options: Any) -> LogOutput:
    """A log of version 1 in version 2, with the replies that a server gives."""
    return _run("CONVERT", log, **options)
