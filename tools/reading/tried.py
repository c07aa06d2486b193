"""What edits were found to be, and over which state of the files that their check reads: the file tools/edits.tried."""
import fcntl
import hashlib
import os
import re
import shutil
import subprocess

from .edits import edits_of, files_of, functions_of, text_of
from .verdicts import REFUSED

TRIED = "tools/edits.tried"
HEAD = """\
# Made by tools/edits, never by hand: crate, edit, what it was found to be, and a sum of all that its check read.
# Where two branches differ take the lines of either: a sum that isn't that of the files is void, and the edit is tried again.
"""
COMMENT = {".rt": re.compile(r"(?m)^\s*//.*\n|^\s*\n"), ".antt": re.compile(r"(?m)^\s*--(?:\s.*)?\n|^\s*\n")}


def kit_version():
    """Returns the line of the Rattle kit, or nothing where its command isn't on the PATH."""
    return subprocess.run(["rt", "version"], stdout=subprocess.PIPE, text=True, check=True).stdout if shutil.which("rt") else None


def rows_of(top):
    """Returns what each crate stands on, by crates.txt."""
    rows = [it.split("#")[0].partition(":") for it in text_of(f"{top}/crates.txt").split("\n")]
    return {name.split()[0]: below.split() for name, _, below in rows if name.strip()}


def bare(path, text):
    """Returns a file's text without lines of comment."""
    comment = COMMENT.get(os.path.splitext(path)[1])
    return comment.sub("", text) if comment else text


def sum_of(*parts):
    return hashlib.sha256(repr(parts).encode()).hexdigest()[:16]


def is_checked(path):
    """Returns whether the check of a crate reads a file of it: all but the tests."""
    return not re.match(r"src/tests(?:/|\.rt$)", path)


def is_seen_above(path):
    """Returns whether the proofs of the crates above may read a file: not the proofs of the crate's own functions."""
    return is_checked(path) and not re.match(r"proofs/[a-z]", path)


def face_of(path, text):
    """Returns what the crates above see of a file: without private functions, and without the bodies of public ones."""
    if not path.endswith(".rt"):
        return bare(path, text)
    lines = text.split("\n")
    for it in (it for it in functions_of(path, text) if not it.is_const):
        first = it.opens + 1 if it.is_public or it.is_of_trait else it.first
        lines[first : it.ends + 1] = [""] * (it.ends + 1 - first)
    return bare(path, "\n".join(lines))


class States:
    """The files of the crates in a folder, as far as the check of an edit reads them."""

    def __init__(self, top, kit):
        self.top, self.rows, self.given, self.parts, self.known = top, rows_of(top), (kit, text_of(f"{top}/HANDLES")), {}, {}

    def below(self, crate):
        """Returns a crate and those that it stands on, by name."""
        found, new = set(), {crate}
        while new:
            found |= new
            new = {it for name in new for it in self.rows[name] if it in self.rows} - found
        return sorted(found)

    def parts_of(self, crate):
        """Returns sums of what a crate's own check reads of it, and of what the crates above see."""
        if crate not in self.parts:
            files = files_of(f"{self.top}/crates/{crate}")
            own = [(path, bare(path, text)) for path, text in files.items() if is_checked(path)]
            face = [(path, face_of(path, text)) for path, text in files.items() if is_seen_above(path)]
            self.parts[crate] = sum_of(self.rows[crate], own), sum_of(self.rows[crate], face)
        return self.parts[crate]

    def of_crate(self, crate):
        """Returns a sum of all that a crate's check reads."""
        if crate not in self.known:
            self.known[crate] = sum_of(self.given, [(it, self.parts_of(it)[it != crate]) for it in self.below(crate)])
        return self.known[crate]

    def of_edit(self, crate, text):
        return sum_of(self.of_crate(crate), text)

    def of_edits(self, crate):
        """Returns the sum of each edit of a crate, by its name."""
        return {os.path.basename(path): self.of_edit(crate, text_of(path)) for path in edits_of(f"{self.top}/crates/{crate}")}


class Tried:
    """The lines of tools/edits.tried: by crate and edit a verdict, and the sum of what was read for it."""

    def __init__(self, top):
        self.top, self.path = top, f"{top}/{TRIED}"
        self.lines = self.read()

    def read(self):
        text = text_of(self.path) if os.path.exists(self.path) else ""
        rows = [line.split("\t") for line in text.split("\n") if line and not line.startswith("#")]
        return {(crate, edit): (verdict, sum_) for crate, edit, verdict, sum_ in rows}

    def is_refused(self, crate, edit, sum_):
        """Returns whether an edit was refused over just the files of this sum."""
        return self.lines.get((crate, edit)) == (REFUSED, sum_)

    def add(self, crate, edit, verdict, sum_):
        """Adds a verdict, and drops the lines of edits that are gone. Another run may add some at the same time."""
        folder = os.open(os.path.dirname(self.path), os.O_RDONLY)
        try:
            fcntl.flock(folder, fcntl.LOCK_EX)
            self.lines = {**self.read(), (crate, edit): (verdict, sum_)}
            there = {(name, os.path.basename(it)) for name in rows_of(self.top) for it in edits_of(f"{self.top}/crates/{name}")}
            rows = sorted((*key, *row) for key, row in self.lines.items() if key in there)
            with open(f"{self.path}.new", "w", encoding="utf-8") as file:
                file.write(HEAD + "".join("\t".join(row) + "\n" for row in rows))
            os.replace(f"{self.path}.new", self.path)
        finally:
            os.close(folder)


def void_edits(top, kit, crates):
    """Yields each crate that has edits which weren't refused over its files as they are, with these, and how many it has in all."""
    states, tried = States(top, kit), Tried(top)
    for crate in crates:
        sums = states.of_edits(crate)
        void = [it for it, sum_ in sums.items() if not tried.is_refused(crate, it, sum_)]
        if void:
            yield crate, void, len(sums)
