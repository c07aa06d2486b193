"""The test of both ends in Python."""
import json
import threading
import unittest

import laspidru
from laspidru import Client, Document, FrameFault, Framer, LaspidruError, Server
from test_laspidru import at, change


def frame(body):
    return b"Content-Length: %d\r\n\r\n%s" % (len(body), body)


def opened_server(text):
    """A server with this text open under version 1."""
    client, server = Client(), Server()
    client.receive(server.receive(client.start())[0].frame)
    server.receive(client.open("a", "c", 1, text))
    return server


def text_edit(start, end, text):
    return {"range": {"start": at(0, start), "end": at(0, end)}, "newText": text}


def outcome(call, *arguments):
    """What a call returns, or the code of its refusal."""
    try:
        return call(*arguments)
    except LaspidruError as error:
        return error.code


class Tests(unittest.TestCase):
    def refuses(self, code, call, *arguments):
        with self.assertRaises(LaspidruError) as raised:
            call(*arguments)
        self.assertEqual(raised.exception.code, code)
        return raised.exception

    def ready(self):
        client = Client(utf8=True)
        client.start()
        body = b'{"jsonrpc":"2.0","id":1,"result":{"capabilities":{"positionEncoding":"utf-8","textDocumentSync":2}}}'
        event = client.deliver(body)
        self.assertEqual((event.kind, event.frame), ("send", frame(b'{"jsonrpc":"2.0","method":"initialized","params":{}}')))
        return client

    def test_client(self):
        client = Client()
        self.assertEqual((client.phase, client.encoding), ("new", None))
        self.refuses("WRONG_PHASE", client.open, "a", "c", 1, "")
        client = self.ready()
        self.assertEqual((client.phase, client.encoding), ("ready", "utf-8"))
        self.refuses("NOT_OPEN", client.edit, "a", 1, [])
        client.open("a", "c", 1, "\u00e9")
        self.refuses("ALREADY_OPEN", client.open, "a", "c", 1, "")
        self.refuses("STALE_VERSION", client.edit, "a", 1, [])
        fault = self.refuses("INSIDE_CHARACTER", client.edit, "a", 2, [change(at(0, 0), at(0, 1), "")])
        self.assertEqual((fault.change, fault.at_end), (0, True))
        self.refuses("OUT_OF_RANGE", client.open, "b", "c", 2 ** 31, "")
        self.refuses("NOT_UTF8", client.open, "b", "c", 1, "\ud800")
        self.assertRaises(TypeError, client.open, b"b", "c", 1, "")
        self.assertRaises(TypeError, client.deliver, "text")
        self.assertEqual((client.version("a"), client.text("a"), client.version("b")), (1, "\u00e9", None))
        event = client.deliver(b"{")
        self.assertEqual((event.kind, event.reason, client.phase), ("bad-server", "NOT_AN_ANSWER", "failed"))
        self.refuses("WRONG_PHASE", client.deliver, b"{}")
        self.assertEqual(client.text("a"), "\u00e9")
        self.assertRaises(LaspidruError, Client, max_body=1)

    def test_server(self):
        server = Server()
        event, = server.receive(frame(b'{"jsonrpc":"2.0","id":1,"method":"initialize","params":{"capabilities":{}}}'))
        self.assertEqual((event.kind, event.error), ("replied", 0))
        event, other = server.receive(frame(b'{"jsonrpc":"2.0","id":2,"method":"a/b"}') + frame(b'{"jsonrpc":"2.0","method":"c"}'))
        self.assertEqual((event.kind, event.error, event.body), ("replied", -32601, b'{"jsonrpc":"2.0","id":2,"method":"a/b"}'))
        self.assertEqual((other.kind, other.body, other.frame, other.uri), ("ignored", b'{"jsonrpc":"2.0","method":"c"}', b"", None))
        refused = server.handle(b'{"jsonrpc":"2.0","method":"textDocument/didClose","params":{"textDocument":{"uri":"a"}}}')
        self.assertEqual((refused.kind, refused.reason), ("refused", "NOT_OPEN"))
        exits = frame(b'{"jsonrpc":"2.0","method":"exit"}')
        event, = server.receive(exits + exits)
        self.assertEqual((event.kind, event.status), ("exited", 1))
        self.refuses("ENDED", server.receive, exits)
        self.assertRaises(TypeError, server.receive, "text")
        self.refuses("BAD_ENCODING", Server, "utf-7")

    def test_messages(self):
        """Each message is handled at its own step."""
        client, server = Client(), Server()
        client.receive(server.receive(client.start())[0].frame)
        asks = frame(b'{"jsonrpc":"2.0","id":"x","method":"a/b"}')
        opens, edits = client.open("a", "c", 1, "x"), client.edit("a", 2, [change(at(0, 0), at(0, 0), "y")])
        stream = opens + asks + edits + asks + client.close("a") + asks
        self.assertEqual([server.text("a") for event in server.messages(stream) if event.kind == "replied"], ["x", "yx", None])
        # The bytes are taken by the call itself. A loop that ends early leaves the rest to the next call.
        steps = server.messages(opens + asks + edits[:50])
        self.assertEqual((next(steps).kind, server.text("a")), ("changed", "x"))
        self.assertEqual([event.kind for event in server.messages(edits[50:])], ["replied", "changed"])
        self.assertEqual((list(steps), list(server.messages(b"")), server.text("a")), ([], [], "yx"))
        steps = server.messages(asks + b"Content-Length 2")
        self.assertEqual(next(steps).kind, "replied")
        with self.assertRaises(FrameFault) as raised:
            next(steps)
        self.assertEqual((raised.exception.frame, raised.exception.events), (1, []))
        self.refuses("FAILED", list, server.messages(asks))
        self.assertRaises(TypeError, server.messages, "text")
        server, exits = Server(), frame(b'{"jsonrpc":"2.0","method":"exit"}')
        self.assertEqual([event.kind for event in server.messages(exits + exits)], ["exited"])
        self.refuses("ENDED", list, server.messages(exits))
        self.assertEqual(list(server.messages(b"")), [])

    def test_lenient(self):
        server, client = Server(lenient=True), Client(lenient=True)
        for event in server.receive(client.start()):
            client.receive(event.frame)
        server.receive(client.open("a", "c", 1, "x") + client.edit("a", 1, [change(at(0, 0), at(0, 0), "y")]))
        self.assertEqual((server.text("a"), server.version("a")), ("yx", 1))
        server.receive(client.open("a", "c", 0, "z"))
        for end in (server, client):
            self.assertEqual((end.text("a"), end.version("a"), end.document_count), ("z", 0, 1))

    def test_text_edits(self):
        server = opened_server("abc")
        self.assertEqual(server.batch_of_edits("a", [text_edit(0, 0, "1"), text_edit(1, 2, "2")]),
                         [change(at(0, 1), at(0, 2), "2"), change(at(0, 0), at(0, 0), "1")])
        fault = self.refuses("OVERLAP", server.batch_of_edits, "a", [text_edit(0, 2, ""), text_edit(1, 3, "")])
        self.assertEqual((fault.edit, fault.other), (0, 1))
        self.refuses("NOT_OPEN", server.batch_of_edits, "b", [])
        self.assertRaises(TypeError, server.batch_of_edits, "a", [{"newText": ""}])
        self.assertEqual((server.version("a"), server.text("a")), (1, "abc"))

    def test_positions(self):
        """Both ends have what a document of the same text has, in each encoding."""
        text = "a\r\nb\U0001F600"
        for encoding in laspidru.ENCODINGS:
            client, server, document = Client(utf8=True, utf32=True), Server(encoding), Document(text, encoding)
            client.receive(server.receive(client.start())[0].frame)
            server.receive(client.open("a", "c", 1, text))
            for end in (client, server):
                self.assertEqual(end.encoding, encoding)
                for place in [at(line, character) for line in range(4) for character in range(8)]:
                    self.assertEqual(outcome(end.line, "a", place["line"]), outcome(document.line, place["line"]))
                    self.assertEqual(outcome(end.byte_offset, "a", place), outcome(document.byte_offset, place))
                    self.assertEqual(outcome(end.position_in, "a", place, "utf-32"), outcome(document.position_in, place, "utf-32"))
                for offset in range(11):
                    for units in (None, "utf-8", "utf-16"):
                        self.assertEqual(outcome(end.position, "a", offset, units), outcome(document.position, offset, units))

    def test_refused_positions(self):
        server = opened_server("a\r\nb\U0001F600")
        self.assertEqual(server.byte_offset("a", at(1, 3)), 8)
        self.assertEqual(server.byte_offset("a", at(1, 2), "utf-32"), 8)
        self.refuses("INSIDE_CHARACTER", server.byte_offset, "a", at(1, 2))
        self.refuses("INSIDE_CHARACTER", server.position, "a", 2)
        self.refuses("OUT_OF_RANGE", server.line, "a", 2)
        self.refuses("OUT_OF_RANGE", server.line, "a", -1)
        self.refuses("OUT_OF_RANGE", server.position, "a", -1)
        self.refuses("BAD_ENCODING", server.position, "a", 0, "utf-7")
        self.refuses("BAD_ENCODING", server.position, "a", 0, "")
        self.refuses("NOT_UTF8", server.line, "\ud800", 0)
        for found in (server.line("b", 0), server.byte_offset("b", at(0, 0)), server.position("b", 0),
                      server.position_in("b", at(0, 0), "utf-8"), Client().line("a", 0), Client().position("a", 0)):
            self.assertIsNone(found)

    def test_canonical_message(self):
        server = opened_server("abc")
        self.refuses("NOT_OPEN", server.canonical_message, "b", 2, [])
        self.refuses("STALE_VERSION", server.canonical_message, "a", 1, [])
        fault = self.refuses("REVERSED_RANGE", server.canonical_message, "a", 2, [change(at(0, 1), at(0, 0), "")])
        self.assertEqual((fault.change, fault.at_end), (0, False))
        message = server.canonical_message("a", 2, [change(at(0, 0), at(0, 1), "x"), change(at(0, 1), at(0, 1), "y")])
        params = {"contentChanges": [change(at(0, 0), at(0, 1), "xy")], "textDocument": {"uri": "a", "version": 2}}
        body = message[message.index(b"\r\n\r\n") + 4:]
        self.assertEqual(json.loads(body), {"jsonrpc": "2.0", "method": "textDocument/didChange", "params": params})
        self.assertEqual(server.text("a"), "abc")
        event, = server.receive(message)
        self.assertEqual((event.kind, event.body, server.version("a"), server.text("a")), ("changed", body, 2, "xybc"))
        self.assertEqual((event.uri, event.reason, event.why), ("a", None, None))
        refused, = server.receive(message)
        self.assertEqual((refused.uri, refused.reason, refused.why), ("a", "STALE_VERSION", laspidru.WHY["STALE_VERSION"]))

    def test_encoding(self):
        server = Server("utf-8")
        self.assertEqual((server.encoding, server.phase), (None, "new"))
        client = Client(utf8=True)
        server.receive(client.start())
        self.assertEqual((server.encoding, server.phase), ("utf-8", "ready"))

    def test_an_end_takes_no_more(self):
        server = Server()
        self.assertEqual(server.receive(frame(b'{"jsonrpc":"2.0","method":"exit"}') + b"Content-Length: 0\r")[0].status, 1)
        self.refuses("ENDED", server.receive, b"\n\r\n")
        self.assertEqual(server.receive(b""), [])
        with self.assertRaises(laspidru.FrameFault) as caught:
            Server().receive(b"Content-Length 2")
        self.assertEqual((caught.exception.frame, caught.exception.events), (1, []))

    def test_framer(self):
        framer = Framer(4096)
        self.assertEqual((framer.receive(frame(b"x") + frame(b"") + b"Content-Le"), framer.at_rest), ([b"x", b""], False))
        with self.assertRaises(FrameFault) as raised:
            framer.receive(memoryview(b"ngth: 1\r\n\r\nyContent-Length 2"))
        fault = raised.exception
        self.assertEqual((fault.events, fault.frame, fault.offset), ([b"y"], 1, 43 + 22 + 14))
        self.assertEqual(str(fault), "the header of a frame is faulty: F1 at 79")
        self.refuses("FAILED", framer.receive, b"")
        self.refuses("BAD_MAX_BODY", Framer, 1)
        self.assertTrue(Framer().at_rest)

    def test_threads(self):
        """One end in many threads at once: each call is made alone."""
        client, errors = self.ready(), []

        def run(number):
            try:
                uri = f"file:///{number}"
                client.open(uri, "c", 0, "")
                for version in range(1, 100):
                    client.edit(uri, version, [change(at(0, 0), at(0, 0), "x")])
                if client.text(uri) != "x" * 99:
                    errors.append(uri)
            except Exception as error:
                errors.append(error)

        threads = [threading.Thread(target=run, args=(number,)) for number in range(8)]
        for thread in threads:
            thread.start()
        for thread in threads:
            thread.join()
        self.assertEqual((errors, client.document_count), ([], 8))


if __name__ == "__main__":
    unittest.main()
