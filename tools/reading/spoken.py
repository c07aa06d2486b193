"""The names in backticks of a page about definitions, and which of them the code hasn't."""
import os
import re

from .antt import USE, bare

CODE = re.compile(r"crates/(\w+)/(?:src/.*\.rt|specs/.*\.antt)$")
# What looks like a name of the code: `IsStep`, `step_on`.
NAME = r"`((?:[A-Z]\w*[a-z]\w*)|(?:[a-z0-9]+(?:_[a-z0-9]+)+))`"
# How a page says which names a file has: "`a` and `B` in `F`", "`F`: `a`, `B`".
NAMES, FILE = rf"{NAME}(?:(?:, | and |, and ){NAME})*", r"`(?P<file>(?:\w+/)*\w+\.antt)`"
SAID = [re.compile(rf"(?P<names>{NAMES}) in {FILE}"), re.compile(rf"{FILE}[,:] (?P<names>{NAMES})(?! in `)")]
COMMENT = {".rt": re.compile(r"//.*"), ".antt": re.compile(r"(?m)(?:^|(?<=\s))--(?:\s.*)?$")}
WORD = re.compile(r"\w+")


def words_of(path, text):
    """Returns the words of a file's code, without its comments."""
    return set(WORD.findall(COMMENT[os.path.splitext(path)[1]].sub("", text)))


def own_words_of(text):
    """Returns the words of a file of specs/ without what it imports and its comments."""
    return set(WORD.findall("\n".join(it for it in bare(text).split("\n") if not USE.match(it.strip()))))


def paragraphs_of(page):
    """Yields each paragraph, table row and heading, the number of its first line, and the heading that it is under."""
    number, heading = 1, ""
    for part in re.split(r"(?<=\n)(?=\n|\||- |#)", page):
        if not part.lstrip("\n").startswith("    "):
            heading = part if part.startswith("#") else heading
            yield part, number, heading
        number += part.count("\n")


def misnamed(page, texts):
    """Yields the names in backticks that no code of crates/ has, and those that aren't in the file of specs/ that is said to have them."""
    code = {path: CODE.match(path)[1] for path in texts if CODE.match(path)}
    known = set(code.values()).union(*(words_of(path, texts[path]) for path in code))
    for part, number, heading in paragraphs_of(page):
        line = lambda name: number + part[:part.index(f"`{name}`")].count("\n")
        yield from (f"{line(it)}: `{it}` is nowhere in the code of crates/" for it in re.findall(NAME, part) if it not in known)
        folders = ["crates", *(f"crates/{it}" for it in sorted(set(re.findall(r"`(\w+)`", heading + part)) & set(code.values())))]
        for found in (it for form in SAID for it in form.finditer(" ".join(part.split()))):
            paths = [it for it in (f"{folder}/{found['file']}" for folder in folders) if it in code]
            there = set().union(*(own_words_of(texts[it]) for it in paths))
            yield from (f"{line(it)}: `{it}` isn't in `{found['file']}`" for it in re.findall(NAME, found["names"])
                        if it in known and paths and it not in there)
