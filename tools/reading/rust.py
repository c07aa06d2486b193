"""Files of src/: the contracts of functions, and the types with what clauses see of them."""
import re

from .antt import NAME, Scope

FUNCTION = re.compile(rf"(\s*)((?:pub(?:\(\w+\))? )?)(?:const |final |unsafe )*(extern \"C\" )?fn ({NAME})")
ITEM = re.compile(r"((?:pub(?:\(\w+\))? )?)(?:unsafe )?(impl|trait|struct|enum)\b(.*)")
CLAUSE = re.compile(r"\s*(ensures|requires)\b\*? ?(\w*) ?\{")
GHOST = re.compile(r"    ghost (\w+) = \{")
CONSTANT = re.compile(rf"((?:pub(?:\(\w+\))? )?)const ({NAME}): .*;$")


def code_of(line):
    """Returns a line without its comment, and without what is in its strings."""
    return re.sub(r"//.*", "", re.sub(r'"(?:\\.|[^"\\])*"', '""', line))


def depth_of(line):
    code = code_of(line)
    return code.count("{") - code.count("}")


class Clause:
    """A clause of a contract: its label, its lines and the comment before it."""

    def __init__(self, kind, label, comment):
        self.kind, self.label, self.comment, self.lines = kind, label, comment, []

    def body(self):
        text = "\n".join(code_of(it) for it in self.lines)
        return re.sub(r"^\s*(ensures|requires)\b\*? ?\w* ?\{", "", text).rstrip().rstrip(";").removesuffix("}")


class Function:
    """A function with a contract: where it is, whose it is, its documentation, signature and clauses."""

    def __init__(self, file, owner, line, comment, head):
        self.file, self.owner, self.line, self.comment = file, owner, line, comment
        self.is_public, self.name = head[2] == "pub ", head[4]
        self.is_exported = self.is_call = bool(head[3])
        self.signature, self.clauses = [], []

    def ensures(self):
        return [it for it in self.clauses if it.kind == "ensures"]

    def requires(self):
        return [it for it in self.clauses if it.kind == "requires"]

    def path(self):
        """Returns how a target names it."""
        return "::".join(filter(None, (self.file.crate, self.owner, self.name)))

    def short(self):
        return "::".join(filter(None, (self.owner, self.name)))

    def parameters(self):
        """Returns the type of each parameter, as text, and that of `result`."""
        text = " ".join(code_of(it).strip() for it in self.signature)
        types = {it[1]: it[2] for it in re.finditer(rf"\b({NAME}): ((?:[^,()<>]|\([^()]*\)|<(?:[^<>]|<[^<>]*>)*>)+)", text)}
        types["result"] = text.rpartition(" -> ")[2] if " -> " in text else ""
        for name, kind in types.items():
            # (a type parameter stands for what bounds it)
            types[name] = " ".join([kind, *(types[it] for it in re.findall(NAME, kind) if it in types and it != name)])
        if re.search(r"\bself\b|\bSelf\b", text) and self.owner:
            types["self"] = self.owner
            types["result"] = re.sub(r"\bSelf\b", self.owner, types["result"])
        return types


class RustType:
    """A struct, an enum or a trait, and what clauses see of it where it has a model; or a constant on one line."""

    def __init__(self, file, kind, name, line, comment, block):
        self.file, self.kind, self.name, self.line, self.comment, self.block = file, kind, name, line, comment, block
        self.view, self.view_line, self.view_scope = [], 0, None

    @property
    def crate(self):
        return self.file.crate

    def text(self):
        """Returns its lines without attributes."""
        return self.comment + [it for it in self.block if not it.strip().startswith("#[")]

    @property
    def size(self):
        return len([it for it in self.text() if it.strip() and not it.strip().startswith("//")])

    def fields(self):
        text = "\n".join(code_of(it) for it in self.block)
        return {it[1]: it[2] for it in re.finditer(rf"(?m)^\s+(?:pub(?:\(\w+\))? )?({NAME}): (.*?),?$", text)}


class File:
    """One .rt file: its functions, its types, and what it imports."""

    def __init__(self, crate, path, inner, text):
        self.crate, self.path, self.inner = crate, path, inner
        self.lines = text.split("\n")
        self.scope = Scope("\n".join(it for it in self.lines if not it.startswith(" ")))
        self.crates = self.imported()
        self.functions, self.types, self.models = [], {}, []
        at = 0
        while at < len(self.lines):
            item = ITEM.match(self.lines[at])
            if item:
                at = self.read_item(at, item)
            elif head := FUNCTION.match(self.lines[at]):
                at = self.read_function(at, head, None)
            elif constant := CONSTANT.match(self.lines[at]):
                name = constant[2]
                self.types[name] = RustType(self, "const", name, at + 1, self.comment_before(at), self.lines[at : at + 1])
                at += 1
            else:
                at += 1

    def imported(self):
        """Returns the crate that each imported type is of."""
        found = {}
        for use in re.finditer(r"(?m)^(?:pub )?use (\w+)::(?:[\w:]*::)?(?:\{([^}]*)\}|(\w+));", "\n".join(self.lines)):
            crate = self.crate if use[1] in ("crate", "self", "super") else use[1]
            for item in (use[2] or use[3]).split(","):
                found[item.split("::")[-1].split(" as ")[-1].strip()] = crate
        return found

    def comment_before(self, at):
        start = at
        while start and re.match(r"\s*(//|#\[)", self.lines[start - 1]):
            start -= 1
        return [it for it in self.lines[start:at] if it.strip().startswith("//")]

    def block_end(self, at):
        depth, started = 0, False
        while at < len(self.lines):
            code = code_of(self.lines[at])
            depth += code.count("{") + code.count("(") - code.count("}") - code.count(")")
            started = started or "{" in code or ";" in code
            at += 1
            if started and depth <= 0:
                break
        return at

    def read_item(self, at, item):
        end = self.block_end(at)
        if item[2] != "impl":
            name = re.search(NAME, item[3])[0]
            self.types[name] = RustType(self, item[2], name, at + 1, self.comment_before(at), self.lines[at:end])
            owner = name
        else:
            rest = re.sub(r"<[^<>]*(?:<[^<>]*>)?[^<>]*>", "", item[3].split(" where")[0])
            owner = [it for it in re.findall(NAME, rest) if it not in ("for", "const")][-1]
            if " for " in rest and "Model" in rest:
                self.models.append((owner, at, end))
        inside = at + 1
        while inside < end:
            head = FUNCTION.match(self.lines[inside])
            inside = self.read_function(inside, head, owner) if head and head[1] else inside + 1
        return end

    def read_function(self, at, head, owner):
        one = Function(self, owner, at + 1, self.comment_before(at), head)
        indent, clause, depth, comment = head[1], None, 0, []
        while at < len(self.lines):
            line = self.lines[at]
            if not depth:
                if not line.strip() or line.strip().startswith("//"):
                    comment = comment + [line] if line.strip() else []
                    at += 1
                    continue
                if opening := CLAUSE.match(line):
                    clause = Clause(opening[1], opening[2], comment)
                    one.clauses.append(clause)
                elif line == f"{indent}{{" or clause:
                    break
                comment = []
            if clause:
                clause.lines.append(line)
                depth += depth_of(line)
                at += 1
                if not depth and line.rstrip().endswith("};"):
                    break
                continue
            one.signature.append(re.sub(r" \{$|;$", "", line))
            at += 1
            if re.search(r"( \{|;|\})$", line):
                break
        self.functions.append(one)
        return at

    def read_models(self):
        """Notes what clauses see of each type: `Value` and `view`. The invariant is nobody's premise, as it is proved."""
        for owner, start, end in self.models:
            one = self.types.get(owner)
            at = start
            while one and at < end:
                head, first = GHOST.match(self.lines[at]), at
                if not head:
                    at += 1
                    continue
                depth = 0
                while at < end:
                    depth += depth_of(self.lines[at])
                    at += 1
                    if depth <= 0:
                        break
                if head[1] in ("Value", "view"):
                    one.view_line = one.view_line or first + 1
                    one.view += self.lines[first:at]
            if one:
                one.view_scope = Scope("\n".join(self.lines[start:end])).over(self.scope)
