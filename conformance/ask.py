#!/usr/bin/env python3
"""Asks a program the vectors of LSP 3.17's text synchronisation, and reports what it gets wrong.

    ask.py node run.js
    ask.py --only line-ends --junit line-ends.xml ./my-runner

The program reads a vector from each line of its standard input, without `expect`, and writes a line of JSON for it. A stream comes as
`pieces`: in one, byte by byte, and in two, cut at each of its first 300 places. The answer has the members of `expect` that the program
knows: "text" of a message or of text edits, "documents" of a session, "bodies" of a stream; {"refused": WHY} where the library refuses,
WHY being the word of `expect` or true; {"error": TEXT} where something else went wrong; null where it can't be asked.

An answer is "right", "WRONG" where LSP 3.17 decides, and "other" where it leaves the case open. It is an "ERROR" if the program ends, is
silent for 10 seconds, or writes something else: that is no refusal. The status is 1 where something is WRONG or an ERROR or nothing is
right, and 2 where nothing can be asked."""
import argparse
import collections
import json
import os
import select
import subprocess
import sys
import time
from xml.etree import ElementTree

HERE = os.path.dirname(os.path.realpath(__file__))
# The program that computes the vectors reads them there
DATA = os.path.join(os.path.dirname(HERE), "crates", "lsp_vectors", "data")
FILES = [os.path.join(DATA, name) for name in ("vectors.jsonl", "edits.jsonl", "sessions.jsonl", "frames.jsonl")]
RIGHT, OTHER, WRONG, ERROR, SKIPPED = WORDS = ("right", "other", "WRONG", "ERROR", "not asked")
RESULTS = {"text", "documents", "bodies"}
SECONDS, CUTS, DEATHS, SHOWN = 10, 300, 10, 2000

Result = collections.namedtuple("Result", "vector word asked got")


class Unusable(Exception):
    """Why nothing can be asked."""


class Failure(Exception):
    """Why there is no answer."""


class Program:
    """A program that is asked. It is started again after it gave no answer."""

    def __init__(self, command, errors=None):
        self.command, self.errors, self.process, self.deaths = command, errors, None, 0

    def __call__(self, question):
        if self.process is None:
            try:
                self.process = subprocess.Popen(self.command, stdin=subprocess.PIPE, stdout=subprocess.PIPE, stderr=self.errors)
            except OSError as why:
                raise Unusable(f"{self.command[0]}: {why.strerror}") from None
        try:
            self.process.stdin.write(json.dumps(question).encode() + b"\n")
            self.process.stdin.flush()
        except BrokenPipeError:
            pass  # what is read says that it ended
        line, latest = b"", time.monotonic() + SECONDS
        while not line.endswith(b"\n"):
            is_ready = select.select([self.process.stdout], [], [], max(0, latest - time.monotonic()))[0]
            piece = os.read(self.process.stdout.fileno(), 1 << 16) if is_ready else b""
            if not is_ready:
                self.process.kill()
                raise self._failure(f"no answer in {SECONDS} seconds")
            if not piece:
                raise self._failure(f"the program ended with status {self.close()}")
            line += piece
        try:
            found = json.loads(line)
        except ValueError:
            raise self._failure(f"no line of JSON: {line[:SHOWN]!r}") from None
        self.deaths = 0
        return found

    def _failure(self, why):
        """Ends the program, whose next line may be of this question too, and returns the error."""
        self.close()
        self.deaths += 1
        if self.deaths == DEATHS:
            return Unusable(f"{self.command[0]}: {DEATHS} times without an answer, at last: {why}")
        return Failure(why)

    def close(self):
        """Ends the program, and returns its status: 0 too where there is none."""
        process, self.process = self.process, None
        if process is None:
            return 0
        try:
            process.communicate(timeout=SECONDS)
        except subprocess.TimeoutExpired:
            process.kill()
            process.communicate()
        return process.returncode


def vectors_of(paths, only=()):
    """The vectors of files, of all groups or of those that are named, or single ones."""
    for path in paths:
        try:
            with open(path, encoding="utf-8", newline="\n") as file:
                found = [json.loads(line) for line in file]
        except OSError as why:
            raise Unusable(f"{path}: {why.strerror}") from None
        except ValueError:
            raise Unusable(f"{path}: a line is no JSON") from None
        for vector in found:
            if not isinstance(vector, dict) or not {"name", "standard", "expect"} <= vector.keys():
                raise Unusable(f"{path}: a line is no vector")
            if not only or vector["name"] in only or vector["name"].split("/")[0] in only:
                yield vector


def questions(vector):
    """What is asked of a vector."""
    asked = {name: vector[name] for name in ("name", "encoding", "text", "changes", "edits", "messages") if name in vector}
    if "bytes" not in vector:
        return [asked]
    stream = vector["bytes"]
    cuts = [[stream[:at], stream[at:]] for at in range(1, min(len(stream), CUTS))]
    return [{**asked, "pieces": pieces} for pieces in ([stream], list(stream), *cuts)]


def has_what(want, got):
    """Whether an object has nothing else under the names that it shares with another one."""
    return all(want[name] == got[name] for name in want.keys() & got.keys())


def is_right(expect, got):
    """Compares the members that both have, among which is the result. The documents of a session come in any order."""
    if "refused" in expect or "refused" in got:
        why = expect.get("refused") if got.get("refused") is True else got.get("refused")
        return "refused" in expect.keys() & got.keys() and has_what(expect, {**got, "refused": why})
    if not RESULTS & expect.keys() & got.keys():
        return False
    if "documents" in expect:
        by_uri = lambda documents: sorted(documents, key=lambda document: document["uri"])
        expect, got = ({**it, "documents": by_uri(it["documents"])} for it in (expect, got))
    if isinstance(expect.get("fault"), dict) and isinstance(got.get("fault"), dict):
        got = {**got, "fault": {**expect["fault"], **got["fault"]}}
    return has_what(expect, {name: value for name, value in got.items() if value is not None or name == "fault"})


def word_of(vector, got):
    """What an answer is, or why it is none."""
    if got is None:
        return SKIPPED
    if not isinstance(got, dict) or not (RESULTS | {"refused", "error"}) & got.keys():
        raise Failure(f"no answer: {json.dumps(got)}")
    if "error" in got:
        raise Failure(str(got["error"]))
    try:
        is_as_expected = is_right(vector["expect"], got)
    except (KeyError, TypeError):
        raise Failure(f"no answer: {json.dumps(got)}") from None
    return RIGHT if is_as_expected else WRONG if vector["standard"] == "says" else OTHER


def asked(program, vector):
    """Asks a vector, up to the first answer that isn't right."""
    for question in questions(vector):
        try:
            got = program(question)
            word = word_of(vector, got)
        except Unusable:
            raise
        except Exception as why:
            return Result(vector, ERROR, question, str(why) if isinstance(why, Failure) else repr(why))
        if word != RIGHT:
            return Result(vector, word, question, got)
    return Result(vector, RIGHT, None, None)


def shown(value):
    text = json.dumps(value, ensure_ascii=False)
    return text if len(text) <= SHOWN else f"{text[:SHOWN]}.. ({len(text)} characters)"


def expected(result):
    """The members of `expect` that the answer has too, and the result."""
    expect, got = result.vector["expect"], result.got
    return {name: expect[name] for name in expect if name in RESULTS | {"refused"} or isinstance(got, dict) and name in got}


def details(result):
    question = {name: value for name, value in result.asked.items() if name != "name"}
    return f"    asked: {shown(question)}\n    expected: {shown(expected(result))}\n    got: {shown(result.got)}"


def described(result):
    about = result.vector.get("about")
    section = f" ({result.vector['section']})" if "section" in result.vector else ""
    return f"{result.word} {result.vector['name']}{f': {about}{section}' if about else ''}\n{details(result)}"


def sums_of(results):
    groups = collections.defaultdict(collections.Counter)
    for result in results:
        groups[result.vector["name"].split("/")[0]][result.word] += 1
    return groups


def counts_of(counter):
    return ", ".join(f"{counter[word]} {word}" for word in WORDS)


def json_of(results):
    rows = [{"name": it.vector["name"], "standard": it.vector["standard"], "result": it.word,
             **({} if it.asked is None else {"asked": it.asked, "expected": it.vector["expect"], "got": it.got})} for it in results]
    return json.dumps({"sums": {word: sum(it.word == word for it in results) for word in WORDS}, "vectors": rows}, indent=1)


def junit_of(results):
    """A suite for each group. `other` passes; what was asked is in ASCII, since XML has no controls."""
    suites, elements = ElementTree.Element("testsuites"), {}
    for group, counts in sums_of(results).items():
        elements[group] = ElementTree.SubElement(suites, "testsuite", name=group, tests=str(sum(counts.values())), failures=str(counts[WRONG]),
                                                 errors=str(counts[ERROR]), skipped=str(counts[SKIPPED]))
    tags = {OTHER: "system-out", WRONG: "failure", ERROR: "error", SKIPPED: "skipped"}
    for result in results:
        group, name = result.vector["name"].split("/")
        case = ElementTree.SubElement(elements[group], "testcase", classname=group, name=name)
        if result.word != RIGHT:
            found = ElementTree.SubElement(case, tags[result.word])
            found.text = json.dumps({"asked": result.asked, "expected": expected(result), "got": result.got})
    return ElementTree.tostring(suites, encoding="unicode")


def write(path, text):
    try:
        with open(path, "w", encoding="utf-8") as file:
            file.write(text + "\n")
    except OSError as why:
        raise Unusable(f"{path}: {why.strerror}") from None


def options_of(words):
    about, rest = __doc__.split("\n", 1)
    parser = argparse.ArgumentParser(prog="ask.py", description=about, epilog=rest, formatter_class=argparse.RawDescriptionHelpFormatter)
    parser.add_argument("--file", action="append", metavar="FILE", help="vectors; by default the four files beside ask.py")
    parser.add_argument("--only", action="append", default=[], metavar="NAME", help="a group, or a vector")
    parser.add_argument("--open", action="store_true", help="prints also what is other than expected where the standard leaves it open")
    parser.add_argument("--json", metavar="FILE", help="writes all results")
    parser.add_argument("--junit", metavar="FILE", help="writes them as JUnit's XML")
    parser.add_argument("command", nargs=argparse.REMAINDER, metavar="COMMAND ..", help="the program that is asked")
    options = parser.parse_args(words)
    if not options.command:
        parser.error("which program is to be asked?")
    return options


def report(options):
    """Asks the program, and returns whether something was right, and nothing wrong."""
    program, results = Program(options.command), []
    try:
        for vector in vectors_of(options.file or FILES, options.only):
            results.append(asked(program, vector))
            if results[-1].word in (WRONG, ERROR) or options.open and results[-1].word == OTHER:
                print(described(results[-1]))
    finally:
        status = program.close()
    for group, counts in sums_of(results).items():
        print(f"{group:16}{counts_of(counts)}")
    for path, written in ((options.json, json_of), (options.junit, junit_of)):
        if path:
            write(path, written(results))
    if status:
        print(f"the program ended with status {status}")
    all_of = collections.Counter(result.word for result in results)
    print(counts_of(all_of))
    return status == 0 and all_of[RIGHT] > 0 and not all_of[WRONG] + all_of[ERROR]


def main():
    sys.stdout.reconfigure(encoding="utf-8", errors="backslashreplace")
    try:
        return 0 if report(options_of(sys.argv[1:])) else 1
    except Unusable as why:
        print(f"ask.py: {why}", file=sys.stderr)
        return 2
    except KeyboardInterrupt:
        return 130
    except BrokenPipeError:  # as by `| head`
        os.dup2(os.open(os.devnull, os.O_WRONLY), sys.stdout.fileno())
        return 1


if __name__ == "__main__":
    sys.exit(main())
