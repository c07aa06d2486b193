"""A didChange as edits of tree-sitter: for a language server in Python that keeps a tree of each open document."""
import json
import re


def edits_of(server, body):
    """The keywords of `Tree.edit` for each gap in which a didChange changes its document, in order; None where this isn't one that can be
    made. The server hasn't handled the body yet: all ranges count in the text as it is, the last first."""
    try:
        message = json.loads(body)
        uri, version = (message["params"]["textDocument"][name] for name in ("uri", "version"))
        frame = server.canonical_message(uri, version, message["params"]["contentChanges"])
    except (KeyError, TypeError, ValueError):  # (LaspidruError is a ValueError)
        return None
    edits = []
    for change in json.loads(frame.partition(b"\r\n\r\n")[2])["params"]["contentChanges"]:
        places = [change["range"][name] for name in ("start", "end")]
        start, end = (server.byte_offset(uri, place) for place in places)
        start_point, end_point = (tuple(server.position_in(uri, place, "utf-8")[name] for name in ("line", "character")) for place in places)
        lines = [line.encode() for line in re.split("\r\n|\r|\n", change["text"])]
        row, column = start_point
        new_end_point = (row + len(lines) - 1, len(lines[-1]) + (column if len(lines) == 1 else 0))
        edits.append({"start_byte": start, "old_end_byte": end, "new_end_byte": start + len(change["text"].encode()),
                      "start_point": start_point, "old_end_point": end_point, "new_end_point": new_end_point})
    return edits


def handle(server, body, trees, parse):
    """Handles a body, and keeps the tree of each open document in `trees`, by its URI. `parse` is that of a tree-sitter Parser."""
    edits = edits_of(server, body)
    event = server.handle(body)
    if event.kind == "changed":
        text, tree = server.text(event.uri), trees.pop(event.uri, None)
        for edit in edits or []:
            tree.edit(**edit)
        if text is not None:
            trees[event.uri] = parse(text.encode()) if edits is None else parse(text.encode(), tree)
    return event
