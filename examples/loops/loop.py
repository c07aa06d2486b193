#!/usr/bin/env python3
"""A language server over standard input, by asyncio. Hover shows the document as the server has it."""
import asyncio
import json
import sys

from laspidru import Server


def frame(message):
    body = json.dumps(message).encode()
    return b"Content-Length: %d\r\n\r\n%s" % (len(body), body)


def reply(server, event):
    """What is sent: laspidru's reply, or in its place our own."""
    if event.error not in (0, -32601):
        return event.frame
    request = json.loads(event.body)
    if request["method"] == "initialize":
        answer = json.loads(event.frame.partition(b"\r\n\r\n")[2])
        answer["result"]["capabilities"]["hoverProvider"] = True
        return frame(answer)
    if request["method"] == "textDocument/hover":
        text = server.text(request["params"]["textDocument"]["uri"])
        return frame({"jsonrpc": "2.0", "id": request["id"], "result": None if text is None else {"contents": [text]}})
    return event.frame


async def serve(server, loop):
    reader = asyncio.StreamReader()
    await loop.connect_read_pipe(lambda: asyncio.StreamReaderProtocol(reader), sys.stdin)
    pipe, protocol = await loop.connect_write_pipe(asyncio.streams.FlowControlMixin, sys.stdout)
    pipe.set_write_buffer_limits(0)  # so drain waits until all is written
    writer = asyncio.StreamWriter(pipe, protocol, reader, loop)
    while True:
        data = await reader.read(65536)
        if not data:
            return 1
        for event in server.messages(data):
            if event.kind == "exited":
                return event.status
            if event.kind == "refused":
                print(event.uri, "refused:", event.why, file=sys.stderr)
            if event.kind == "replied" and event.error in (-32700, -32600):  # a change may be lost with it
                print("faulty:", event.error, event.body[:200], file=sys.stderr)
            if event.kind == "replied":
                writer.write(reply(server, event))
                await writer.drain()


event_loop = asyncio.new_event_loop()
sys.exit(event_loop.run_until_complete(serve(Server("utf-8"), event_loop)))
