"""Both ends of sessions by the binding, as `bindings/sessions` asks for them."""
import sys

from laspidru import ENCODINGS, Client, LaspidruError, Server
from laspidru._library import NUMBERS

NAMES = {number: name for name, number in ENCODINGS.items()}
KINDS = {"replied": 0, "changed": 1, "dropped": 2, "ignored": 3, "refused": 4, "exited": 5, "send": 0, "noted": 6, "bad-server": 7}
URIS = ("file:///a", "file:///b", "file:///c")


def plain(text):
    return "\\".join(part.replace("\\n", "\n").replace("\\r", "\r") for part in text.split("\\\\"))


def escaped(text):
    return text.replace("\\", "\\\\").replace("\n", "\\n").replace("\r", "\\r")


class Session:
    def __init__(self, utf8, utf32, preferred, full, max_text, max_docs, max_changes):
        limits = {"max_text": max_text, "max_docs": max_docs, "max_changes": max_changes}
        self.client = Client(utf8=bool(utf8), utf32=bool(utf32), **limits)
        self.server = Server(NAMES[preferred], whole_texts=bool(full), **limits)
        self.to_server, self.to_client = [], []

    def call(self, word, *arguments):
        try:
            self.to_server.append(getattr(self.client, word)(*arguments))
            return "sent"
        except LaspidruError as error:
            return f"refused {NUMBERS[error.code]}"

    def deliver(self, end, frames, replies):
        """The first message, in two pieces."""
        if not frames:
            return None
        frame = frames.pop(0)
        cut = len(frame) * 2 // 3
        event, = end.receive(frame[:cut]) + end.receive(frame[cut:])
        if event.frame:
            replies.append(event.frame)
        return event

    def serve(self):
        event = self.deliver(self.server, self.to_server, self.to_client)
        return event and f"server {KINDS[event.kind]} {NUMBERS.get(event.reason, 0)} {event.status or 0} {event.error}" or "nothing"

    def hear(self):
        event = self.deliver(self.client, self.to_client, self.to_server)
        return event and f"client {KINDS[event.kind]} {NUMBERS.get(event.reason, 0)}" or "nothing"

    def end(self):
        found = [f"waiting {len(self.to_server)} {len(self.to_client)}"]
        for uri in URIS:
            for name, end in (("client", self.client), ("server", self.server)):
                if end.version(uri) is not None:
                    found.append(f"{name} {uri} {end.version(uri)} {escaped(end.text(uri))}")
        return "\n".join(found)


def change(line):
    word, *ends, text = line.split(" ", 5)
    start_line, start, end_line, end = map(int, ends)
    found = {"text": plain(text)}
    if word == "change":
        found["range"] = {"start": {"line": start_line, "character": start}, "end": {"line": end_line, "character": end}}
    return found


def main():
    sys.stdin.reconfigure(encoding="utf-8", newline="\n")
    sys.stdout.reconfigure(encoding="utf-8", newline="\n")
    lines = (line[:-1] for line in sys.stdin)
    for line in lines:
        word, *rest = line.split(" ", 3)
        if word == "session":
            session = Session(*map(int, line.split(" ")[1:]))
        elif word == "open":
            print(session.call("open", rest[0], "c", int(rest[1]), plain(rest[2])))
        elif word == "edit":
            changes = [change(next(lines)) for _ in range(int(rest[2]))]
            print(session.call("edit", rest[0], int(rest[1]), changes))
        elif word in ("toServer", "toClient", "end"):
            print({"toServer": session.serve, "toClient": session.hear, "end": session.end}[word]())
        else:
            print(session.call(word, *rest))


if __name__ == "__main__":
    main()
