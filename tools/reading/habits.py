"""What isn't as it is elsewhere in the repository: lines that are too wide, names that two crates define, and words that aren't used here.

The file tools/allowed.ini names what stays all the same. An exception that nothing needs is a fault too."""
import collections
import configparser
import re

from .antt import USE, Module

PROOF, PROSE = 120, 140
# Words that have another meaning here or none, and what is said in their place. `Told` is a name.
WORDS = {
    r"told|tells?|telling": "say, report, return",
    r"want of memory|memory is refused|no memory was left": "out of memory",
    r"spelling|spelled|spells?": "frame bytes, raw frame",
    r"lends?|lent|lending": "return a reference",
    r"(?:give|gives|gave|given|giving) up": "release, consume",
    r"looked at": "read",
    r"stretch(?:es)?": "gap",
    r"course": "output, result, progress",
    r"the one message|the normal message": "the canonical message",
}
WORD = re.compile(r"\b(?:" + "|".join(f"({it})".replace(" ", r"\s+") for it in WORDS) + r")\b")
COMMENTS = re.compile(r"crates/\w+/(?:src/.*\.rt|specs/.*\.antt|include/.*\.h)$")
PROOFS = re.compile(r"crates/\w+/proofs/.*\.antt$")
SPECS = re.compile(r"crates/(\w+)/specs/(?!inside/|laws/).*\.antt$")


class Allowed:
    """The exceptions of tools/allowed.ini, and which of them were needed."""

    def __init__(self, path):
        self.file = configparser.ConfigParser(delimiters=("=",), comment_prefixes=("#",), interpolation=None)
        self.file.optionxform = str
        with open(path, encoding="utf-8") as source:
            self.file.read_file(source)
        self.needed = set()

    def has(self, section, name, value):
        """Returns whether there is an exception for just this."""
        self.needed.add((section, name))
        return self.file.get(section, name, fallback=None) == value

    def note(self, section, name):
        """Returns what to add to a fault that has an exception for something else."""
        said = self.file.get(section, name, fallback=None)
        return f" (tools/allowed.ini says {said})" if said else ""

    def unneeded(self):
        rows = [(section, name) for section in self.file.sections() for name in self.file[section]]
        return [f"tools/allowed.ini: nothing needs the row {name} under [{section}]" for section, name in rows if (section, name) not in self.needed]


def numbered(text):
    return enumerate(text.split("\n"), 1)


def prose_of(text, with_tables):
    """Returns the lines of a page by their numbers, without blocks of code."""
    found, is_code = {}, False
    for number, line in numbered(text):
        is_code ^= line.startswith("```")
        if not is_code and not line.startswith(("```", "    ")) and (with_tables or not line.startswith("|")):
            found[number] = line
    return found


def wide_lines(path, text):
    """Returns the numbers of lines that are too wide, and how wide a line may be."""
    if path.endswith(".md"):
        return [number for number, line in prose_of(text, False).items() if len(line) > PROSE], PROSE
    lines = numbered(text) if PROOFS.match(path) else ()
    return [number for number, line in lines if len(line) > PROOF and not USE.match(line.strip())], PROOF


def said_in(path, text):
    """Returns the words of a page or of comments that aren't used here, each with its line and what to say in its place."""
    said = prose_of(text, True) if path.endswith(".md") else {}
    if COMMENTS.match(path):
        said = {number: line for number, line in numbered(text) if line.lstrip().startswith(("//", "--", "/*", "*"))}
    # (what is in backticks is code; a phrase may go on in the next line)
    plain = re.sub(r"`[^`\n]*`", "``", "\n".join(said.get(number, "") for number, _ in numbered(text)))
    better = list(WORDS.values())
    return [(plain.count("\n", 0, it.start()) + 1, " ".join(it[0].split()), better[it.lastindex - 1]) for it in WORD.finditer(plain)]


def doubles(texts):
    """Returns the names that public definitions of several crates have, each with the crates."""
    crates = collections.defaultdict(set)
    for path, text in texts.items():
        if crate := SPECS.match(path):
            for it in Module(path, path, text).definitions.values():
                if "pub " in it.text[0]:
                    crates[it.name].add(crate[1])
    return {name: sorted(held) for name, held in sorted(crates.items()) if len(held) > 1}


def faults(texts, allowed):
    """Yields what isn't as it is elsewhere in these texts, by their paths."""
    for path, text in texts.items():
        wide, most = wide_lines(path, text)
        if wide and not allowed.has("wide lines", path, str(len(wide))):
            yield f"{path}: lines of over {most} columns: {', '.join(map(str, wide))}{allowed.note('wide lines', path)}"
        said = said_in(path, text)
        if said and not allowed.has("words", path, ", ".join(sorted({word for _, word, _ in said}))):
            yield from (f"{path}:{line}: \"{word}\": write {better}{allowed.note('words', path)}" for line, word, better in said)
    for name, crates in doubles(texts).items():
        if not allowed.has("names", name, listed := ", ".join(crates)):
            yield f"`{name}` is defined in specs/ of {listed}: one name has one meaning here{allowed.note('names', name)}"
    yield from allowed.unneeded()
