"""Compares what the definitions say of logs and events with what the programs write: each byte, the status, and the line on a fault."""
import json
import multiprocessing
import os
import pathlib
import subprocess
import tempfile

from .logs import ENCODINGS, run_log
from .pair import run_events
from .values import CannotRun, case, some, utf8

COMMANDS = """
check, check --lenient, check --explain, check --brief, check --all, check --explain --lenient, check --explain --encoding utf-8,
check --all --max-text 6 --max-docs 1 --max-changes 2, check --live, check --brief --live, trace, trace --texts --bodies,
trace --live --max-body 4096 --encoding utf-8, replay, replay --at 4, replay --uri a, replay --uri /a, replay --at 4 --uri file:///a,
replay --encoding utf-32, normalise, normalise --squash, normalise --squash --max-changes 1 --max-body 4096, normalise --documents,
normalise --max-body 4096 --live, normalise --whole, normalise --whole --documents --live, normalise --whole --max-body 4096,
normalise --documents --squash, normalise --squash --whole, normalise --squash --live, convert, convert --max-body 4096, compare,
compare --lenient, serve, serve --stdio --sync full --encoding utf-8
"""
SIMULATIONS = """
, --utf-8 --utf-32 --prefer utf-8, --utf-32 --prefer utf-32 --sync full, --fixed utf-16 --lenient --max-text 6 --max-docs 1,
--fixed utf-8, --server-max-changes 1, --utf-8 --prefer utf-8 --max-changes 1, --max-body 4096
"""


def texts_beside(text):
    """A text, and others that a saved file may have instead."""
    middle, lines = len(text) // 2, text.split("\n")
    texts = [text, text[:middle] + "X" + text[middle + 1:], text.replace("\n", "\r\n"), "\n".join(lines[1:] + lines[:1]), f"a\n{text}\na",
             text.replace("\r\n", "\n"), text.replace("\r", "\r\n"), text + "\n", "\ufeff" + text]
    return [it.encode() for it in texts]


def document_in(run, data):
    """How the URI ends of the first document that a log speaks of."""
    rows = map(json.loads, run_log(run, ["trace"], data).out.decode().split("\n")[:-1])
    return next((row["uri"][-1:] for row in rows if row.get("uri")), "a")


def inputs_of(run, path, data):
    """Yields what is tried on a file: the words of a command, and for `compare` the text of a saved file."""
    simulations = [["lsp_simulate", *it.split()] for it in SIMULATIONS.split(",")]
    for words in simulations if path.endswith(".events") else map(str.split, COMMANDS.split(",")):
        if words[0] == "compare":
            document = document_in(run, data)
            texts = texts_beside(run_log(run, ["replay", "--uri", document], data).out.decode())
            yield from (([*words, "--uri", document], it) for it in (texts[:2] if "--lenient" in words else texts))
        else:
            yield words, None


def said_of(run, words, path, data, saved):
    """What the definitions say that a program writes: of events, of a stream, or of a log that is named."""
    if words[0] == "lsp_simulate":
        return run_events(run, words[1:], data)
    return run_log(run, words, data, saved, None if words[0] == "serve" else path)


def written_by(program, words, path, saved):
    """What it writes. `program` returns where a program is."""
    name, *words = words if words[0] == "lsp_simulate" else ["lspsync", *words]
    reads_input = name == "lsp_simulate" or words[0] == "serve"
    with open(path if reads_input else os.devnull, "rb") as file, tempfile.NamedTemporaryFile() as text:
        text.write(saved or b"")
        text.flush()
        words = words if reads_input else [*words, *([] if saved is None else [text.name]), path]
        return subprocess.run([program(name), *words], stdin=file, capture_output=True)


def difference(run, program, path, data, words, saved):
    try:
        said = said_of(run, words, path, data, saved)
    except CannotRun as why:
        return f"the definitions can't be run: {why}"
    ran = written_by(program, words, path, saved)
    if said.out != ran.stdout:
        at = len(os.path.commonprefix([said.out, ran.stdout]))
        return f"at byte {at} {said.out[at:at + 60]!r} where the program writes {ran.stdout[at:at + 60]!r}"
    is_same = said.status == ran.returncode and ran.stderr.startswith(said.error)
    if is_same and may_follow(run, words, path, data, saved, said, ran.stderr[len(said.error):]):
        return None
    return f"status {said.status} and {said.error!r} where the program has {ran.returncode} and {ran.stderr!r}"


def may_follow(run, words, path, data, saved, said, line):
    """Whether the definitions admit a line after those on standard error, of which they say only that it may be there."""
    if said.status == 5:  # a hint, of which they say nothing
        return line.count(b"\n") <= 1
    if words[0] != "compare" or said.status != 1 or not line:
        return not line
    settings = {("--encoding", name): case("Encoding", encoding) for name, encoding in ENCODINGS.items()} | {("--lenient",): case("Lenient")}
    return any(line == bytes(run("error_line", some(utf8(path)), run("equal_text", setting)))
               and said_of(run, [*words, *more], path, data, saved).status == 0 for more, setting in settings.items())


GIVEN = []  # to each process


def compared(path):
    """Each command, with how what a program writes differs from what the definitions say, if it does."""
    (run, program), data = GIVEN, pathlib.Path(path).read_bytes()
    run.forget()
    return [(words, difference(run, program, path, data, words, saved)) for words, saved in inputs_of(run, path, data)]


def compare(run, program, paths):
    """Prints where a program differs, and sums; returns the status. Each processor takes some of the files."""
    same = different = 0
    with multiprocessing.get_context("fork").Pool(len(os.sched_getaffinity(0)), GIVEN.extend, [(run, program)]) as processes:
        for path, found in zip(paths, processes.imap(compared, paths)):
            lines = [f"{' '.join(words)} {path}: {what}\n" for words, what in found if what]
            different += len(lines)
            same += len(found) - len(lines)
            print("".join(lines), end="", flush=True)
    print(f"{same} the same, {different} not")
    return 1 if different else 0
