"""The conformance vectors, by the definitions. Each kind of case has a function, which returns what the member `expect` is to be."""
import collections
import json

from .library import json_read
from .logs import ENCODINGS, Frames, run_log
from .values import CannotRun, codes_of, list_of, record, text_of

# What the cause of a refusal is called in a vector, and by `check`; and that of a fault of a frame
CAUSES = {"E1": "inside-character", "E2": "reversed-range", "S1": "already-open", "S4": "not-open", "S5": "stale-version",
          "M4": "invalid-params"}
FAULTS = {"F1": "bad-header", "F2": "header-too-long", "F3": "missing-length", "F4": "repeated-header", "F5": "bad-length",
          "F6": "body-too-long", "F7": "bad-charset"}
ENDS = {"InsideStart": "start", "InsideStop": "end"}


def json_option(value):
    """A value of Python as the definitions see a member of a body that is there."""
    return json_read(json.dumps(value).encode())


def refusal(name, number, why):
    cause = {"refused": "inside-character", "end": ENDS[why.tag]} if why.tag in ENDS else {"refused": "reversed-range"}
    return {**cause, name: number}


def left_by(run, units, old, items):
    """The text, and the canonical batch as a message has it. That does the same in each encoding, or it isn't returned."""
    for name, encoding in ENCODINGS.items():
        other = run("units_in", encoding)
        again = run("meaning", other, old, run("Canonical::canonical", other, old, items))
        if again.tag == "Err" or not run("DoTheSame", again.args[0], items):
            return {"canonical": f"does something else in {name}"}
    body = run("body_of", run("change_message", codes_of("file:///a"), 2, run("Canonical::canonical", units, old, items)))
    return {"text": text_of(run("Items::text_of", old, items)), "canonical": json.loads(bytes(body))["params"]["contentChanges"]}


def of_changes(run, vector):
    """The changes are read as those of a `textDocument/didChange`."""
    units, old = run("units_in", ENCODINGS[vector["encoding"]]), codes_of(vector["text"])
    params = {"textDocument": {"uri": "file:///a", "version": 1}, "contentChanges": vector["changes"]}
    read = run("Params::change_of", json_option(params))
    if not read.args:
        return {"refused": "invalid-params"}
    meant = run("meaning", units, old, list_of(run("content_change_from_data", it) for it in read.args[0].x_changes))
    return refusal("change", *meant.args[0]) if meant.tag == "Err" else left_by(run, units, old, meant.args[0])


def of_edits(run, vector):
    """Which edits overlap a relation says: here it is decided for each two. Any two of these may be named."""
    units, old = run("units_in", ENCODINGS[vector["encoding"]]), codes_of(vector["text"])
    ranges = [run("range_in", json_option(it["range"])) for it in vector["edits"]]
    if not all(it.args for it in ranges):
        return {"refused": "invalid-params"}
    edits = [record(range=ends.args[0], new_text=list_of(it["newText"].encode())) for ends, it in zip(ranges, vector["edits"])]
    located = run("located", units, old, 0, list_of(edits))
    if located.tag == "Err":
        return refusal("edit", *located.args[0])
    each = {it.x_number: it for it in located.args[0]}
    before = {(one, two) for one in each for two in each if run("ComesBefore", each[one], each[two])}
    pairs = [(one, two) for one, two in sorted(before) if each[two].x_start < each[one].x_stop
             and not any((one, it) in before and (it, two) in before for it in each)]
    if pairs:
        named = vector["expect"].get("edit"), vector["expect"].get("other")
        edit, other = named if named in pairs else pairs[0]
        return {"refused": "overlap", "edit": edit, "other": other}
    return left_by(run, units, old, run("items_left", located.args[0], len(old)))


def framed(value):
    body = json.dumps({"jsonrpc": "2.0", **value}).encode()
    return b"Content-Length: %d\r\n\r\n%s" % (len(body), body)


def of_session(run, vector):
    log = b"".join(map(framed, [{"id": 1, "method": "initialize", "params": {"capabilities": {}}}, *vector["messages"]]))
    words, documents = (run_log(run, [command, "--encoding", vector["encoding"]], log).out.decode().split("\n")[:-1]
                        for command in ("check", "replay"))
    words, documents = [it.split(" ")[-1] for it in words[1:]], map(json.loads, documents)
    documents = [{name: it[name] for name in ("text", "uri", "version")} for it in documents]
    return {"answers": [CAUSES.get(it, it) for it in words], "documents": documents}


def of_frames(run, vector):
    frames = Frames(run, vector["bytes"].encode("latin-1"), run("default_limits").x_max_body)
    bodies = [bytes(body).decode("latin-1") for _, body in frames.all_from(0)]
    fault = frames.fault and {"why": FAULTS[bytes(run("frame_fault_code", frames.fault)).decode()], "offset": frames.fault.args[0]}
    return {"bodies": bodies, "fault": fault}


KINDS = {"vectors": of_changes, "edits": of_edits, "sessions": of_session, "frames": of_frames}


def vectors_of(top, kinds=KINDS):
    """Yields the kind and the vector of each line of the files."""
    for kind in kinds:
        with open(f"{top}/crates/lsp_vectors/data/{kind}.jsonl", encoding="utf-8", newline="\n") as file:
            yield from ((kind, json.loads(line)) for line in file)


def answer(run, kind, vector):
    """What the definitions say of a case; or why they can't be run."""
    run.forget()
    try:
        return KINDS[kind](run, vector)
    except CannotRun as why:
        return str(why)


def print_vectors(run, top, kinds):
    """Prints what the definitions don't say as the vectors do, and returns the status."""
    kinds, counts = kinds or list(KINDS), collections.Counter()
    if not KINDS.keys() >= set(kinds):
        raise CannotRun(f"the kinds of vectors are {', '.join(KINDS)}")
    for kind, vector in vectors_of(top, kinds):
        said = answer(run, kind, vector)
        counts[kind, said == vector["expect"]] += 1
        if said != vector["expect"]:
            print(f"{vector['name']}: {said} where the vector has {vector['expect']}")
    for kind in kinds:
        print(f"{kind}: {counts[kind, True]} as the definitions say, {counts[kind, False]} not")
    return 1 if any(counts[kind, False] for kind in kinds) else 0
