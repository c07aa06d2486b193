"""Must-fail edits: what they change, and which functions of src/ these changes are in."""
import os
import re
import shutil

FUNCTION = re.compile(r'( *)((?:[\w()"]+ )*)fn (\w+)')
NAMED = re.compile(r"\b(?:fn (\w+)|macro_rules! (\w+)|(?:const|static) (\w+):)")


class Unfit(Exception):
    """An edit that can't be applied, and why."""


class Function:
    """A function: its file, the head of its `impl` or `trait` block, the type that the trait is of, and its lines."""

    def __init__(self, path, block, trait_of, lines, first, head):
        indent, words, self.name = head.groups()
        self.path, self.block, self.trait_of, self.first = path, block, trait_of, first
        self.is_const, self.is_public = ("const" in words.split(), "pub" in words.split())
        self.opens = self.ends = first
        for n in range(first, len(lines)):
            outer = lines[n].strip() and not lines[n].startswith(f"{indent} ")
            if outer and lines[n].endswith("{"):
                self.opens = n
                self.ends = lines.index(f"{indent}}}", n)
            if outer and (self.ends > n or n > first and not re.match(r" *(\)|where\b)", lines[n])):
                break
        self.key = path, first

    @property
    def is_of_trait(self):
        return " for " in self.block or self.block.startswith(("trait", "pub trait"))

    @property
    def owner(self):
        """The type whose method it is, by the prover's name, or nothing. A type without a name is Unit, Tuple2 and so on, or Slice."""
        named = re.sub(r" where\b.*| \{$", "", self.block).rpartition(" for ")[2]
        if named.startswith("("):
            return "Unit" if named == "()" else f"Tuple{named.count(',') + 1}"
        if "[" in named:
            return "Slice"
        last = re.findall(r"\w+", named)[-1] if named else ""
        return last[:1].upper() + last[1:]

    def is_named(self, name, crate):
        """Returns whether a name of the prover is this function's, or that of a closure in it. The name of a method has the path of its type."""
        path = [crate, *re.sub(r"^src/(?:lib|main)?|\.rt$", "", self.path).split("/")]
        words = [it for it in name.split("::") if it != "fn"]
        if not self.owner:
            own = [*filter(None, path), self.name]
            return words[: len(own)] == own
        trait = re.findall(r"\w+", self.block.partition(" for ")[0])[-1] if " for " in self.block else ""
        begin = ("Ref" if " for &" in self.block else "") + self.owner + trait
        # (`impl From<AllocError> for Fault` is FaultFromAllocError)
        return any(one.startswith(begin) and one.endswith(self.trait_of) and two == self.name for one, two in zip(words[1:], words[2:]))


class Edit:
    """A must-fail edit of the crate in a folder: the texts that it makes, and the functions whose bodies it changes, if nothing else."""

    def __init__(self, path, crate):
        self.path, self.name, self.crate, self.texts, self.functions = path, os.path.basename(path), crate, {}, []
        self.text = text_of(path)
        was = self.apply()
        changed = [self.changed_in(it, text) for it, text in was.items()]
        if all(changed) and not any(it.is_const for found in changed for it in found):
            self.functions = [it for found in changed for it in found]

    def apply(self):
        """Makes the texts, and returns what they were."""
        path, old, was = None, None, {}
        for line in self.text.split("\n"):
            key, _, rest = line.partition(":")
            rest = re.sub("^ ", "", rest)
            if key == "file":
                path = rest.strip()
            elif key == "old":
                old = rest
            elif key == "new":
                self.replace(path, old, rest, was)
                old = None
        if not was:
            raise Unfit("it has no pair of `old:` and `new:`")
        if self.texts == was:
            raise Unfit("it changes nothing")
        return was

    def replace(self, path, old, new, was):
        if not path or not old:
            raise Unfit("a `new:` comes before any `file:` or `old:`")
        if path not in was:
            if not os.path.isfile(f"{self.crate}/{path}"):
                raise Unfit(f"there is no {path}")
            was[path] = self.texts[path] = text_of(f"{self.crate}/{path}")
        if self.texts[path].count(old) != 1:
            raise Unfit(f"an `old:` is in {path} {self.texts[path].count(old)} times, and not once")
        self.texts[path] = self.texts[path].replace(old, new)

    def shares(self, other):
        """Returns whether another edit changes a function that this one changes."""
        return any(one.key == two.key for one in self.functions for two in other.functions)

    def changed_in(self, path, was):
        """Returns the functions of a file whose bodies have all that the edit changes there, or none."""
        if not path.endswith(".rt"):
            return []
        # (what is put after the brace that opens a body is in it)
        pairs = list(zip(was.split("\n"), self.texts[path].split("\n")))
        changed = [(n, new.startswith(old)) for n, (old, new) in enumerate(pairs) if old != new]
        functions = functions_of(path, was)
        found = [[it for it in functions if it.opens < n < it.ends or it.opens == n < it.ends and goes_on] for n, goes_on in changed]
        return list({it.key: it for one in found for it in one}.values()) if all(found) else []


def functions_of(path, text):
    """Returns the functions of a file's text, as `rt fmt` lays it out."""
    lines, block, trait_of, found = text.split("\n"), "", "", []
    for n, line in enumerate(lines):
        if re.match(r"(pub(\(\w+\))? )?(impl|trait)\b", line):
            block = line
            of = re.search(r"\w<(?:\w+::)*([A-Z]\w*)(?:<[^>]*>)?> for ", line)
            trait_of = of[1] if of else ""
            while "<" in block and (flat := re.sub(r"<[^<>]*>", "", block.replace("->", ""))) != block:
                block = flat
        elif line == "}":
            block = trait_of = ""
        head = FUNCTION.match(line)
        if head:
            found.append(Function(path, block, trait_of, lines, n, head))
    return found


def text_of(path):
    with open(path, encoding="utf-8") as file:
        return file.read()


def write(folder, texts):
    for path, text in texts.items():
        with open(f"{folder}/{path}", "w", encoding="utf-8") as file:
            file.write(text)


def files_of(folder):
    """Returns the texts of a crate's files, by their path in it."""
    parts = [at for part in ("src", "specs", "proofs") for at in os.walk(f"{folder}/{part}")]
    paths = sorted(os.path.relpath(f"{at}/{it}", folder) for at, _, names in parts for it in names)
    return {it: text_of(f"{folder}/{it}") for it in paths}


def edits_of(folder):
    """Returns the paths of a crate's edits, those of must-fail/ first."""
    folders = [it for it in (f"{folder}/must-fail", f"{folder}/more-must-fail") if os.path.isdir(it)]
    return [f"{at}/{it}" for at in folders for it in sorted(os.listdir(at)) if it.endswith(".edit")]


def named_in(folder):
    """Returns the names of the functions, macros and constants of a crate, by one of which an edit's name begins."""
    sources = [text for path, text in files_of(folder).items() if path.startswith("src/") and path.endswith(".rt")]
    return {name for text in sources for names in NAMED.findall(text) for name in names if name}


def copied(kept, other):
    """Copies kept work, or a library that was built. A check replaces the files of these, and never writes into one."""
    shutil.rmtree(other, ignore_errors=True)
    shutil.copytree(kept, other, copy_function=lambda a, b: os.link(a, b) if a.endswith(".oantt") or ".rlib/" in a else shutil.copy2(a, b))
