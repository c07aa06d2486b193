"""Texts that are kept as LSP 3.17 says, and both ends of a session, by a library that is proved (docs/python.md).

    document = Document("abc\\n")
    document.change([{"range": {"start": {"line": 0, "character": 1}, "end": {"line": 0, "character": 2}}, "text": "X"}])
    document.text                      # "aXc\\n"
    server = Server()
    for event in server.messages(data): # the bytes that were read
        output.write(event.frame)
    check(log).output                  # what a server answers to each record of a log, as bytes

The shared library is the one that LASPIDRU_LIBRARY names, or that `make library` made here, or liblaspidru.so.0 where the loader finds
it."""
from ._library import VERSION as __version__
from ._library import ENCODINGS, WHY, EditsFault, FrameFault, LaspidruError, LogFault
from .documents import Document, TextDocument
from .ends import Client, Event, Framer, Server
from .logs import LogOutput, check, compare, convert, normalise, replay, trace

__all__ = ["ENCODINGS", "WHY", "Client", "Document", "EditsFault", "Event", "FrameFault", "Framer", "LaspidruError", "LogFault",
           "LogOutput", "Server", "TextDocument", "__version__", "check", "compare", "convert", "normalise",
           "replay", "trace"]
