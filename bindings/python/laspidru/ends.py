"""Both ends of a session, without input and output of their own: bytes that were read go in by `receive`, or by `messages`, which
return what happened, and each call returns the bytes to send."""
from __future__ import annotations

import ctypes
import threading
from ctypes import byref, c_bool, c_size_t, create_string_buffer
from typing import Any, Dict, Iterator, List, NamedTuple, Optional, Sequence, Tuple

from ._library import (LIBRARY, NAMES, NUMBERS, OK, OUT_OF_MEMORY, UTF16, WHY, Answer, ClientSettings, Fault, FrameFault, Handle,
                       LaspidruError, Line, Opened, Place, Settings, State, Taken, TextEditsFault, batch, batch_of_edits, changes_of,
                       copy_out, demand, demand_change, demand_edits, encoding_name, encoding_number, limits, number, place_of,
                       some_bytes, utf8, version_number)

PHASES = ("new", "asked", "ready", "closing", "closed", "done", "failed")


class _Received:
    """What was received of a stream and isn't taken yet."""

    def __init__(self) -> None:
        self._data, self._at = b"", 0

    def add(self, data: bytes) -> None:
        self._data, self._at = self._data[self._at:] + some_bytes(data, "what is received"), 0

    def is_empty(self) -> bool:
        return self._at == len(self._data)

    def take(self, function: Any, *arguments: Any) -> Optional[int]:
        """Hands what is left to a function that takes bytes up to the end of one message: how many bytes its body has, once it is
        whole."""
        taken, start = Taken(), ctypes.cast(self._data, ctypes.c_void_p).value or 0
        handle, *outputs = arguments
        code = function(handle, start + self._at, len(self._data) - self._at, byref(taken), *outputs)
        self._at += taken.bytes
        if code not in (OK, OUT_OF_MEMORY):
            # No more of this stream is taken.
            self._data, self._at = b"", 0
        if code == NUMBERS["BAD_FRAME"]:
            raise FrameFault(taken.offset, taken.frame, [])
        demand(code)
        return taken.body_len if taken.is_whole else None


class Framer:
    """Takes a stream apart into the bodies of its messages, in whatever pieces it comes (LSP 3.17, Base Protocol)."""

    def __init__(self, max_body: int = 16777216) -> None:
        self.__handle, self.__lock, self.__received = Handle(), threading.Lock(), _Received()
        demand(LIBRARY.laspidru_framer_new(byref(self.__handle), number(max_body, 64, "BAD_MAX_BODY")))

    def __del__(self) -> None:
        if hasattr(self, "_Framer__lock"):
            LIBRARY.laspidru_handle_free(byref(self.__handle))

    def receive(self, data: bytes) -> List[bytes]:
        """The bodies of the messages that end in these bytes. A faulty frame raises FrameFault, whose `events` are the bodies before
        it. Where memory runs out after some bodies they are returned, else MemoryError is raised; `receive(b"")` continues."""
        bodies: List[bytes] = []
        with self.__lock:
            self.__received.add(data)
            try:
                while True:
                    body = self.__next_body()
                    if body is None:
                        return bodies
                    bodies.append(body)
            except MemoryError:
                if bodies:
                    return bodies
                raise
            except FrameFault as fault:
                fault.events = bodies
                raise

    @property
    def at_rest(self) -> bool:
        """Whether the stream may end here: all was taken, no byte of a message is buffered, and there was no fault."""
        found = c_bool()
        with self.__lock:
            demand(LIBRARY.laspidru_framer_at_rest(byref(self.__handle), byref(found)))
            return found.value and self.__received.is_empty()

    def __next_body(self) -> Optional[bytes]:
        handle = byref(self.__handle)
        length = self.__received.take(LIBRARY.laspidru_framer_feed, handle)
        if length is None:
            return None
        body = copy_out(LIBRARY.laspidru_framer_body, length, handle)
        demand(LIBRARY.laspidru_framer_next(handle))
        return body


def _is_open(code: int) -> bool:
    """Whether a call found its document open. Another refusal raises."""
    if code != NUMBERS["NOT_OPEN"]:
        demand(code)
    return code != NUMBERS["NOT_OPEN"]


class Event(NamedTuple):
    """What an end did with a message.

    `kind` is of a server "replied", "changed", "dropped", "ignored", "refused" or "exited", and of a client "send", "noted", for the
    response to `shutdown`, "ignored", for a notification, or "bad-server", where the session can't continue. `body` is the message.
    `frame` is what is to be sent where it replied or sends, and `error` is then the number of an error reply, or 0. A request that
    the server doesn't handle has -32601: it is yours, and your answer goes in place of `frame`. `reason` is the name of the code for
    why a notification was refused, or the session can't continue, and `why` says it; `status` is what the process is to end with."""
    kind: str
    body: bytes
    frame: bytes = b""
    error: int = 0
    reason: Optional[str] = None
    status: Optional[int] = None

    @property
    def why(self) -> Optional[str]:
        return None if self.reason is None else WHY[self.reason]

    @property
    def uri(self) -> Optional[str]:
        """The document that the message opens, changes or closes, where it does one of these and its params are valid."""
        room, copied = len(self.body), c_size_t()
        out = create_string_buffer(max(room, 1))
        code = LIBRARY.laspidru_message_uri(self.body, room, 0, out, room, byref(copied))
        if code == NUMBERS["NO_DOCUMENT"]:
            return None
        demand(code)
        return out.raw[:copied.value].decode()


class _End:
    """What both ends have: open documents, and a stream of messages."""

    _kinds: Dict[int, str] = {}

    def __init__(self) -> None:
        # (`_receive` takes the lock around steps that take it too)
        self._handle, self._lock, self._received = Handle(), threading.RLock(), _Received()
        # The answer to a message that isn't reported yet, and how many bytes its body has.
        self._answered: Optional[Tuple[Any, int]] = None

    def __del__(self) -> None:
        if hasattr(self, "_lock"):
            LIBRARY.laspidru_handle_free(byref(self._handle))

    def _event(self, answer: Any, body: bytes) -> Event:
        """What is reported of an answer to a message."""
        kind = self._kinds[answer.kind]
        return Event(kind, body, self._frame(answer.reply_len) if answer.kind == NUMBERS["REPLIED"] else b"", answer.error,
                     NAMES[answer.reason] if answer.reason else None, answer.status if kind == "exited" else None)

    def _frame(self, length: int) -> bytes:
        return copy_out(LIBRARY.laspidru_session_frame, length, byref(self._handle))

    def _next_event(self) -> Any:
        """What the end did with the next message that is whole; None where the rest of it is to come."""
        handle = byref(self._handle)
        if self._answered is None:
            answer = Answer()
            length = self._received.take(LIBRARY.laspidru_session_feed, handle, byref(answer))
            if length is None:
                return None
            self._answered = answer, length
        answer, length = self._answered
        event = self._event(answer, copy_out(LIBRARY.laspidru_session_body, length, handle))
        self._answered = None
        return event

    def _handle_body(self, body: bytes) -> Event:
        data, answer = some_bytes(body, "a body"), Answer()
        with self._lock:
            demand(LIBRARY.laspidru_session_deliver(byref(self._handle), data, len(data), byref(answer)))
            return self._event(answer, data)

    def _messages(self, data: bytes) -> Iterator[Event]:
        """Takes bytes at once. Each step then handles one of the messages that end in them."""
        with self._lock:
            self._received.add(data)
            return self._steps(self._received.is_empty())

    def _steps(self, may_have_ended: bool) -> Iterator[Event]:
        while True:
            try:
                with self._lock:
                    event = self._next_event()
            except LaspidruError as error:
                # An end that listens no more has no use for what follows.
                if may_have_ended and error.code in ("ENDED", "WRONG_PHASE"):
                    return
                raise
            if event is None:
                return
            may_have_ended = True
            yield event

    def _receive(self, data: bytes) -> List[Event]:
        events: List[Event] = []
        with self._lock:
            try:
                for event in self._messages(data):
                    events.append(event)
            except MemoryError:
                if not events:
                    raise
            except FrameFault as fault:
                fault.events = events
                raise
        return events

    def _opened(self, uri: str) -> Optional[Any]:
        data, opened = utf8(uri), Opened()
        code = LIBRARY.laspidru_session_document_state(byref(self._handle), data, len(data), byref(opened))
        return opened if _is_open(code) else None

    def version(self, uri: str) -> Optional[int]:
        """The version of the open document of a URI, which is compared byte for byte; None where none is open."""
        with self._lock:
            opened = self._opened(uri)
        return None if opened is None else opened.version

    def text(self, uri: str) -> Optional[str]:
        """A copy of the text of the open document of a URI, which is compared byte for byte; None where none is open."""
        with self._lock:
            opened = self._opened(uri)
            if opened is None:
                return None
            data = utf8(uri)
            return copy_out(LIBRARY.laspidru_session_document_text, opened.bytes, byref(self._handle), data, len(data)).decode()

    def _state(self) -> Any:
        state = State()
        with self._lock:
            demand(LIBRARY.laspidru_session_state(byref(self._handle), byref(state)))
        return state

    @property
    def phase(self) -> str:
        """The phase of the session: "new", "asked", "ready", "closing", "closed", "done" or "failed"; of a server "new", "ready", "closed"
        or "done"."""
        return PHASES[self._state().phase]

    @property
    def encoding(self) -> Optional[str]:
        """The encoding of positions that both ends agreed on; None before."""
        return encoding_name(self._state().encoding)

    @property
    def document_count(self) -> int:
        return int(self._state().documents)

    def _units(self, encoding: Optional[str]) -> int:
        """The number of an encoding, or else of the session's; of UTF-16 before one is agreed on."""
        return encoding_number(encoding) if encoding is not None else self._state().encoding or UTF16

    def byte_offset(self, uri: str, position: Any, encoding: Optional[str] = None) -> Optional[int]:
        """The byte offset of a position in the open document of a URI; None where none is open. A position after the line's end is
        the line's end. Positions count units of the session's encoding, or of this one."""
        name, place, units, offset = utf8(uri), place_of(position), self._units(encoding), c_size_t()
        with self._lock:
            code = LIBRARY.laspidru_session_document_offset(byref(self._handle), name, len(name), units, place, byref(offset))
        return offset.value if _is_open(code) else None

    def position(self, uri: str, byte_offset: int, encoding: Optional[str] = None) -> Optional[Dict[str, int]]:
        """The exact position of a byte offset in the open document of a URI, as LSP writes it, in the session's encoding or in this
        one; None where none is open."""
        name, units, place = utf8(uri), self._units(encoding), Place()
        byte_offset = number(byte_offset, 64)
        with self._lock:
            code = LIBRARY.laspidru_session_document_position(byref(self._handle), name, len(name), units, byte_offset, byref(place))
        return {"line": place.line, "character": place.character} if _is_open(code) else None

    def position_in(self, uri: str, position: Any, encoding: str) -> Optional[Dict[str, int]]:
        """A position of the session's encoding in another one; None where no document of the URI is open. In "utf-32" its character
        is an index in `line(uri, ..)`."""
        byte_offset = self.byte_offset(uri, position)
        return None if byte_offset is None else self.position(uri, byte_offset, encoding)

    def line(self, uri: str, line: int) -> Optional[str]:
        """A line, counted from 0, of the open document of a URI, without its line end; None where none is open. The rest of the text
        is not read."""
        name, count, found, copied = utf8(uri), number(line, 32), Line(), c_size_t()
        with self._lock:
            if not _is_open(LIBRARY.laspidru_session_document_line(byref(self._handle), name, len(name), count, byref(found))):
                return None
            room = found.end - found.start
            out = create_string_buffer(max(room, 1))
            demand(LIBRARY.laspidru_session_document_text(byref(self._handle), name, len(name), found.start, out, room, byref(copied)))
        return out.raw[:copied.value].decode()

    def batch_of_edits(self, uri: str, edits: Sequence[Any]) -> List[Dict[str, Any]]:
        """The canonical batch of what text edits mean on the open document of a URI: the changes of the didChange that reports
        them. All count in the text as it is, which stays. Positions count units of `encoding`."""
        name, (passed, count, texts) = utf8(uri), batch_of_edits(edits)
        found, fault = Handle(), TextEditsFault()
        with self._lock:
            code = LIBRARY.laspidru_session_document_batch_of_edits(
                byref(self._handle), name, len(name), self._units(None), passed, count, texts, len(texts), byref(found),
                byref(fault))
        demand_edits(code, fault)
        return changes_of(found)

    def canonical_message(self, uri: str, version: int, changes: Sequence[Any]) -> bytes:
        """The frame of the one canonical `textDocument/didChange` that means the same as these changes of the open document of a
        URI, under a version greater than its own. Positions count units of `encoding`. The document stays as it is."""
        name, (edits, count, texts) = utf8(uri), batch(changes)
        output, fault, length = Handle(), Fault(), c_size_t()
        with self._lock:
            code = LIBRARY.laspidru_session_document_canonical_message(
                byref(self._handle), name, len(name), version_number(version), self._units(None), edits, count, texts,
                len(texts), byref(output), byref(fault), byref(length))
        demand_change(code, fault)
        try:
            return copy_out(LIBRARY.laspidru_output_copy, length.value, byref(output))
        finally:
            LIBRARY.laspidru_handle_free(byref(output))


class Server(_End):
    """A server's end of a session: bytes or bodies go in, and it keeps the open documents. The defaults are those of
    `lspsync serve`. `encoding` is taken where the client offers it, else UTF-16; with `is_fixed` it is taken whatever is offered. LSP
    3.17 allows one that was offered, or UTF-16: fix another only for logs, or where you write the editor too. `whole_texts` asks for
    whole texts. With `lenient` a change of any version is taken, and an open document may be opened again."""

    _kinds = {NUMBERS[it.upper()]: it for it in ("replied", "changed", "dropped", "ignored", "refused", "exited")}

    def __init__(self, encoding: str = "utf-16", *, is_fixed: bool = False, whole_texts: bool = False, max_body: int = 16777216,
                 max_text: int = 16777216, max_docs: int = 1024, max_changes: int = 65536, lenient: bool = False) -> None:
        numbers = limits(max_body, max_text, max_docs, max_changes)
        settings = Settings(*numbers, encoding_number(encoding), is_fixed, whole_texts, lenient)
        super().__init__()
        demand(LIBRARY.laspidru_server_new(byref(self._handle), byref(settings)))

    def messages(self, data: bytes) -> Iterator[Event]:
        """What the server does with each message that ends in these bytes. Each is handled at its own step: until the next one the
        documents are those that a request speaks of. A faulty frame raises FrameFault at its step, with no `events`; out of memory
        raises MemoryError, and `messages(b"")` continues. A loop that ends early leaves the rest to the next call. After `exit`
        nothing more is handled."""
        return self._messages(data)

    def receive(self, data: bytes) -> List[Event]:
        """The same as a list, once all of these messages are handled: the documents are then those after the last one. So answer
        requests by `messages`. A faulty frame raises FrameFault, whose `events` came before it. Where memory runs out after some
        events they are returned, else MemoryError is raised; `receive(b"")` continues."""
        return self._receive(data)

    def handle(self, body: bytes) -> Event:
        """What the server does with the body of a message: the bytes after its header."""
        return self._handle_body(body)


class Client(_End):
    """A client's end of a session: it keeps an editor's documents, and each call returns the bytes to send. UTF-16 is always
    offered, after UTF-8 and before UTF-32, an order that LSP reads as a preference. `lenient` is as for a Server."""

    _kinds = {NUMBERS["REPLIED"]: "send", NUMBERS["IGNORED"]: "ignored", NUMBERS["NOTED"]: "noted", NUMBERS["BAD_SERVER"]: "bad-server"}

    def __init__(self, *, utf8: bool = False, utf32: bool = False, max_body: int = 16777216, max_text: int = 16777216,
                 max_docs: int = 1024, max_changes: int = 65536, lenient: bool = False) -> None:
        settings = ClientSettings(*limits(max_body, max_text, max_docs, max_changes), utf8, utf32, lenient)
        super().__init__()
        demand(LIBRARY.laspidru_client_new(byref(self._handle), byref(settings)))

    def __call(self, name: str, *arguments: Any) -> bytes:
        length = c_size_t()
        with self._lock:
            demand(getattr(LIBRARY, f"laspidru_client_{name}")(byref(self._handle), *arguments, byref(length)))
            return self._frame(length.value)

    def start(self) -> bytes:
        """Begins the session: `initialize`."""
        return self.__call("start")

    def open(self, uri: str, language: str, version: int, text: str) -> bytes:
        """Opens a document: `textDocument/didOpen`."""
        name, kind, data = utf8(uri), utf8(language), utf8(text)
        return self.__call("did_open", name, len(name), kind, len(kind), version_number(version), data, len(data))

    def edit(self, uri: str, version: int, changes: Sequence[Any]) -> bytes:
        """Changes a document: one `textDocument/didChange`, with the canonical batch, or where the server asked for it with the
        whole text. Positions count units of `encoding`."""
        name, length, fault = utf8(uri), c_size_t(), Fault()
        edits, count, texts = batch(changes)
        with self._lock:
            code = LIBRARY.laspidru_client_did_change(byref(self._handle), name, len(name), version_number(version), edits, count,
                                                      texts, len(texts), byref(fault), byref(length))
            demand_change(code, fault)
            return self._frame(length.value)

    def close(self, uri: str) -> bytes:
        """Closes a document: `textDocument/didClose`."""
        name = utf8(uri)
        return self.__call("did_close", name, len(name))

    def shutdown(self) -> bytes:
        """Asks the server to shut down."""
        return self.__call("shutdown")

    def exit(self) -> bytes:
        """Ends the session, once the response to `shutdown` came."""
        return self.__call("exit")

    def receive(self, data: bytes) -> List[Event]:
        """What the client does with the messages that end in these bytes, once all are handled. They change no document: the client's
        own calls do. A faulty frame raises FrameFault, whose `events` came before it. Where memory runs out after some events they
        are returned, else MemoryError is raised; `receive(b"")` continues."""
        return self._receive(data)

    def deliver(self, body: bytes) -> Event:
        """What the client does with the body of a message: the bytes after its header."""
        return self._handle_body(body)
