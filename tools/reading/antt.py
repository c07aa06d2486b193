"""Files of specs/: their definitions, and what names stand for in them."""
import re

NAME = r"[A-Za-z_][A-Za-z0-9_']*"
USE = re.compile(r"(?:pub |ghost |unfoldable )*use ")
USE_NAMES = re.compile(rf"{USE.pattern}([A-Za-z][A-Za-z0-9_.]+)\.\{{([^}}]*)\}}")
USE_MODULE = re.compile(rf"{USE.pattern}([A-Za-z][A-Za-z0-9_.]+)(?: as ({NAME}))?\s*$")
HEAD = re.compile(r"\s{0,2}((?:(?:abbrev|unfoldable|pub|record|data|syntax) )+)([^\s:(]+)")
VARIANTS = re.compile(r"\s+((?:[\w']+ )+): ")
EQUATION = re.compile(r"(?<![=≡<>!])=(?![=>≡])")


def bare(text):
    """Returns a text without comments, and without what is in its strings."""
    text = re.sub(r'"(?:\\.|[^"\\])*"', '""', text)
    return re.sub(r"(?m)(^|\s)--(\s.*)?$", "", text)


def is_called(path, name):
    """Says whether a name means what has this path: it is the path's end, or its first part and its end."""
    parts, full = name.split("::"), path.split("::")
    return full[-len(parts):] == parts or len(parts) > 1 and full[0] == parts[0] and full[-len(parts) + 1:] == parts[1:]


class Scope:
    """What imports say: which definition a name stands for, and which module an alias does."""

    def __init__(self, text="", public_only=False):
        self.names, self.modules = {}, {}
        for line in text.split("\n"):
            line = line.strip().rstrip(";")
            use = USE.match(line)
            if not use or public_only and "pub " not in use[0]:
                continue
            if use := USE_NAMES.match(line):
                for item in filter(None, (it.strip() for it in use[2].split(","))):
                    name, _, other = item.partition(" as ")
                    self.names[(other or name).strip()] = use[1], name.strip()
            elif use := USE_MODULE.match(line):
                self.modules[use[2] or use[1].split(".")[-1]] = use[1]

    def over(self, outer):
        """Returns this scope within another one."""
        both = Scope()
        both.names, both.modules = {**outer.names, **self.names}, {**outer.modules, **self.modules}
        return both


class Definition:
    """A definition: where it is, the heading that it is under, its lines as they stand there, and those that count, with their numbers."""

    def __init__(self, module, name, kind, line, comment):
        self.module, self.name, self.kind, self.line, self.comment = module, name, kind, line, comment
        self.section = module.section
        self.text, self.counted, self.numbers = [], [], []

    @property
    def crate(self):
        return self.module.name.split(".")[1]

    @property
    def size(self):
        return len(self.counted)

    @property
    def is_inside(self):
        return ".specs.inside." in self.module.name

    @property
    def is_law(self):
        return ".specs.laws." in self.module.name

    def path(self):
        """Returns how a target names it."""
        return "::".join(self.module.name.split(".")[1:] + [self.name])

    def parts(self):
        """Yields its texts, each with the patterns on the left of `=` apart: first its type, then each equation."""
        part = []
        for line in self.counted:
            if part and not line.startswith("  ") and not re.match(r"\s{0,2}(abbrev|unfoldable|pub) ", line):
                yield self.sides(part)
                part = []
            part.append(line)
        yield self.sides(part)

    @staticmethod
    def sides(lines):
        text = bare("\n".join(lines))
        if HEAD.match(text):
            return "", text
        left, *right = EQUATION.split(text, maxsplit=1)
        return (left, right[0]) if right else ("", text)


class Module:
    """One .antt file: what its first comment says of it, its definitions in order, the variants of its types, and what it imports and passes
    on. A heading is a comment that begins with `-- ----`, up to an empty line."""

    def __init__(self, name, path, text):
        self.name, self.path = name, path
        self.scope, self.exports = Scope(text), Scope(text, public_only=True)
        self.definitions, self.variants = {}, {}
        self.head, self.section = [], []
        comment, current = [], None
        for number, line in enumerate(text.split("\n"), 1):
            word = line.strip()
            if not word or USE.match(word) or re.match(r"(pub )?mod ", word) or word.startswith("-- ----"):
                if not self.section and not self.definitions:
                    self.head = self.head or comment
                elif not word:
                    self.section += comment
                if word.startswith("-- ----"):
                    self.section = [line]
                comment = []
                continue
            if word.startswith("--"):
                comment.append(line)
                continue
            head = HEAD.match(line)
            is_field = current and current.kind == "record" and line.startswith("  pub ")
            if head and head[2] != "mutual" and not is_field:
                kind = next((it for it in ("record", "data") if it in head[1].split()), "abbreviation")
                current = self.definitions[head[2]] = Definition(self, head[2], kind, number, comment)
            elif current:
                current.text += comment
            comment = []
            if current:
                current.text.append(line)
                current.counted.append(line)
                current.numbers.append(number)
                if current.kind == "data" and (variants := VARIANTS.match(line)):
                    self.variants |= {it: current for it in variants[1].split()}
