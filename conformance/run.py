"""Answers the vectors by laspidru, for ask.py: a vector on each line of standard input, and a line of JSON for it.

Copy this file, and replace `answer` by what asks your library. LASPIDRU_LIBRARY names the shared library that `make library` builds."""
import argparse
import json
import os
import sys

sys.path.insert(0, os.path.join(os.path.dirname(os.path.realpath(__file__)), "..", "bindings", "python"))
try:
    import laspidru
except ImportError as why:
    print(f"run.py asks laspidru until you replace `answer` and this import: {why}", file=sys.stderr)
    sys.exit(2)

REFUSALS = {"INSIDE_CHARACTER": "inside-character", "REVERSED_RANGE": "reversed-range", "OVERLAP": "overlap",
            "OUT_OF_RANGE": "invalid-params"}
WORDS = {"M4": "invalid-params", "S1": "already-open", "S4": "not-open", "S5": "stale-version", "E1": "inside-character", "E2": "reversed-range"}
FAULTS = ("bad-header", "header-too-long", "missing-length", "repeated-header", "bad-length", "body-too-long", "bad-charset")


def refused(fault):
    """A refusal of the library, and no other error."""
    if fault.code not in REFUSALS:
        raise fault
    found = {"refused": REFUSALS[fault.code]}
    for name in ("change", "edit", "other"):
        if getattr(fault, name, None) is not None:
            found[name] = getattr(fault, name)
    if fault.code == "INSIDE_CHARACTER":
        found["end"] = "end" if fault.at_end else "start"
    return found


def text_left(vector):
    document = laspidru.Document(vector["text"], vector["encoding"])
    try:
        if "edits" in vector:
            canonical = document.batch_of_edits(vector["edits"])
            document.apply_edits(vector["edits"])
        else:
            canonical = document.canonical(vector["changes"])
            document.change(vector["changes"])
    except laspidru.LaspidruError as fault:
        return refused(fault)
    return {"text": document.text, "canonical": canonical}


def framed(value):
    body = json.dumps({"jsonrpc": "2.0", **value}).encode()
    return b"Content-Length: %d\r\n\r\n%s" % (len(body), body)


def session(encoding, messages):
    log = framed({"id": 1, "method": "initialize", "params": {"capabilities": {}}}) + b"".join(map(framed, messages))
    answers = [line.split(" ")[-1] for line in laspidru.check(log, encoding=encoding).output.decode().splitlines()[1:]]
    documents = map(json.loads, laspidru.replay(log, encoding=encoding).output.decode().split("\n")[:-1])
    return {"answers": [WORDS.get(word, word) for word in answers],
            "documents": [{name: document[name] for name in ("text", "uri", "version")} for document in documents]}


def frames(pieces):
    framer, bodies, fault = laspidru.Framer(), [], None
    for piece in pieces:
        try:
            bodies += framer.receive(piece.encode("latin-1"))
        except laspidru.FrameFault as found:
            bodies += found.events
            fault = {"offset": found.offset, "why": FAULTS[found.frame - 1]}
            break
    return {"bodies": [body.decode("latin-1") for body in bodies], "fault": fault}


def answer(vector):
    if "messages" in vector:
        return session(vector["encoding"], vector["messages"])
    return frames(vector["pieces"]) if "pieces" in vector else text_left(vector)


def main():
    argparse.ArgumentParser(description=__doc__).parse_args()
    for line in sys.stdin:
        try:
            found = answer(json.loads(line))
        except Exception as fault:
            found = {"error": repr(fault)}
        print(json.dumps(found), flush=True)


if __name__ == "__main__":
    main()
