"""All sources of the repository, and what each name in them stands for."""
import collections
import os
import re
import subprocess

from .antt import NAME, Definition, Module, Scope, bare, is_called
from .rust import File, code_of

CHAIN = re.compile(rf"(?<![\w'])({NAME}(?:\.{NAME}|\.\d+)*)")
WORDS = {"record", "let", "in", "do", "if", "then", "else", "Type", "pub", "abbrev", "unfoldable", "data", "mutual", "use", "as", "mod",
         "tt", "refl", "ensures", "requires", "ghost", "infixl", "infixr", "infix", "Unit"}


def files_below(folder, ending):
    return sorted(f"{at}/{name}" for at, _, names in os.walk(folder) for name in names if name.endswith(ending))


def read(path):
    with open(path, encoding="utf-8") as file:
        return file.read()


def kit_folder():
    """Returns where the kit's crates are, or None on a machine without Rattle."""
    try:
        page = subprocess.run(["rt", "doc"], stdout=subprocess.PIPE, stderr=subprocess.DEVNULL, text=True, check=True).stdout.strip()
    except (OSError, subprocess.CalledProcessError):
        return None
    return f"{os.path.dirname(page)}/rattle"


class Kit:
    """A name that is named and not read: of the kit's logic, a type of a kit's crate, or a name that is found nowhere."""

    def __init__(self, module, last, said=None):
        self.name, self.module, self.last, self.said = f"{module}.{last}", module, last, said or last

    @property
    def is_of_logic(self):
        return not self.module.startswith("Rattle.")

    @property
    def is_of_type(self):
        return ".declared." in self.module

    @property
    def is_variant(self):
        return self.module.endswith(".TheVariants")


class Repository:
    def __init__(self, top):
        self.top, self.kit = top, kit_folder()
        self.modules, self.files, self.functions, self.ranks = {}, [], [], {}
        self.types, self.kit_modules, self.spoken = collections.defaultdict(list), {}, {}
        self.crates = sorted(os.listdir(f"{top}/crates"))
        for crate in self.crates:
            self.read_crate(crate, f"{top}/crates/{crate}")
        self.read_ranks()

    def read_specs(self, crate, folder):
        for path in files_below(f"{folder}/specs", ".antt"):
            name = f"Rattle.{crate}.specs." + os.path.relpath(path, f"{folder}/specs")[:-5].replace("/", ".")
            self.modules[name] = Module(name, path, read(path))

    def read_crate(self, crate, folder):
        self.read_specs(crate, folder)
        exported, open_modules = self.public_of(f"{folder}/src/lib.rt")
        for path in files_below(f"{folder}/src", ".rt"):
            inner = os.path.relpath(path, f"{folder}/src")
            if "tests" in inner:
                continue
            file = File(crate, path, inner, read(path))
            file.read_models()
            self.files.append(file)
            self.functions += file.functions
            for one in file.types.values():
                self.types[one.name].append(one)
            for it in file.functions:
                is_open = inner == "lib.rt" or inner[:-3].split("/")[0] in open_modules
                is_member = it.is_public or it.owner in file.types and file.types[it.owner].kind == "trait"
                it.is_call = it.is_exported or is_member and ((it.owner or it.name) in exported or is_open)

    @staticmethod
    def public_of(root):
        """Returns the names that a library passes on, and its public modules. A program has none."""
        text = read(root) if os.path.isfile(root) else ""
        uses = re.finditer(r"(?m)^pub use [\w:]+::(?:\{([^}]*)\}|(\w+));", text)
        names = {it.split(" as ")[0].strip() for use in uses for it in (use[1] or use[2]).split(",")}
        return names, set(re.findall(r"(?m)^pub mod (\w+);", text))

    def read_ranks(self):
        """Notes how many crates each crate stands on, one above the other."""
        below = {}
        for line in read(f"{self.top}/crates.txt").split("\n"):
            name, colon, rest = line.split("#")[0].partition(":")
            if colon:
                below[name.split()[0]] = rest.split()

        def rank(name):
            if name not in self.ranks:
                self.ranks[name] = 1 + max([rank(it) for it in below[name] if it in below] or [0])
            return self.ranks[name]

        for name in below:
            rank(name)

    def place(self, path, line):
        return f"{os.path.relpath(path, self.top)}:{line}"

    # ---- names

    def module(self, name):
        """Returns a module of the repository or of the kit."""
        if name in self.modules:
            return self.modules[name]
        if name not in self.kit_modules:
            self.kit_modules[name] = self.passed_on(name) or self.read_kit(name)
        return self.kit_modules[name]

    def passed_on(self, name):
        """Returns the module of another crate that a crate's `Lib` passes on under this name, or one below it."""
        parts = name.split(".")
        lib = self.module(".".join([*parts[:3], "Lib"])) if len(parts) > 3 and parts[3] != "Lib" else None
        other = lib.exports.modules.get(parts[3]) if lib else None
        return self.module(".".join([other, *parts[4:]])) if other else None

    def read_kit(self, name):
        parts = name.split(".")
        if not self.kit or len(parts) < 4 or parts[2] != "specs" or "declared" in parts:
            return None
        path = f"{self.kit}/{parts[1]}/specs/{'/'.join(parts[3:])}.antt"
        return Module(name, path, read(path)) if os.path.isfile(path) else None

    def declared(self, module, name):
        """Returns the type or the constant of src/ that `Rattle.CRATE.specs.declared..` speaks of."""
        parts = module.split(".")
        if parts[-1] == "TheVariants":
            name = parts[-2]
        return next((it for it in self.types.get(name, []) if it.crate == parts[1]), None)

    def find(self, module, name, seen=()):
        """Returns the definition or the type that a name of a module stands for, and whether the name is a constructor."""
        if (module, name) in seen:
            return None
        if ".declared." in module:
            one = self.declared(module, name)
            return (one, module.endswith("TheVariants")) if one else (Kit(module, name), False)
        held, seen = self.module(module), (*seen, (module, name))
        if held is None:
            return Kit(module, name), False
        if name in held.definitions:
            return held.definitions[name], False
        if name in held.variants:
            return held.variants[name], True
        for scope in (held.exports, held.scope):
            if name in scope.names:
                return self.find(*scope.names[name], seen)
        for other in held.exports.modules.values() if module not in self.modules else ():
            found = self.find(other, name, seen)
            if found and not isinstance(found[0], Kit):
                return found
        return Kit(module, name), False

    def resolve(self, scope, module, chain, bound=()):
        """Returns what the head of a dotted chain stands for, if it is neither bound nor a field."""
        first, *rest = chain.split(".")
        if first in bound or first in WORDS:
            return None
        if module and first in module.definitions:
            return module.definitions[first], False
        if module and first in module.variants:
            return module.variants[first], True
        if first in scope.names:
            return self.named(first, *scope.names[first])
        if first in scope.modules and rest:
            return self.named(rest[0], scope.modules[first], rest[0])
        return None

    def named(self, said, module, name):
        """Returns what `find` does; what isn't read is called as the text calls it."""
        found, is_variant = self.find(module, name) or (Kit(module, name), False)
        return (Kit(found.module, found.last, said) if isinstance(found, Kit) else found), is_variant

    def is_found(self, kit):
        """Says whether a name that isn't read is known all the same."""
        return kit.is_of_logic or kit.is_of_type and kit.module.split(".")[1] not in self.crates

    def names(self, text, scope, module=None, bound=frozenset()):
        """Yields what the names in a text stand for; fields, labels and bound names are none."""
        text, bound = bare(text), set(bound)
        for it in re.finditer(r"λ ([^.]*?)\. ?", text):
            bound |= set(re.findall(NAME, re.sub(r":[^)]*", "", it[1])))
        for it in re.finditer(rf"[({{]((?:{NAME} +)*{NAME}) +: ", text):
            bound |= set(it[1].split())
        bound |= set(re.findall(rf"\blet ({NAME}) =", text)) | set(re.findall(rf"({NAME}) ←", text))
        if re.search(r"←|>>=", text) and (found := self.resolve(scope, module, "◌>>=◌")):
            yield found
        for it in CHAIN.finditer(text):
            before, after = text[: it.start()], text[it.end():]
            is_label = re.match(r"\s*=(?![=>])", after) and re.search(r"[{;]\s*$", before)
            if not before.endswith(".") and not is_label and (found := self.resolve(scope, module, it[1], bound)):
                yield found

    def spoken_of(self, one):
        """Returns what a definition or a type of src/ speaks of, each once."""
        if one not in self.spoken:
            found = self.names_of(one) if isinstance(one, Definition) else self.names_of_type(one)
            self.spoken[one] = list({(it.name if isinstance(it, Kit) else it): (it, is_variant) for it, is_variant in found}.values())
        return self.spoken[one]

    def names_of(self, one):
        """Yields what a definition speaks of."""
        scope, module = one.module.scope, one.module
        if one.kind == "data":
            text = "\n".join(re.sub(r"^\s+[\w' ]+ : ", "  ", it) for it in one.counted)
            yield from self.names(text, scope, module)
        elif one.kind == "record":
            head, *fields = re.split(r"\n  pub ", "\n".join(one.counted))
            bound = set(" ".join(it[1] for it in re.finditer(rf"[({{]((?:{NAME} +)*{NAME}) +: ", head)).split())
            yield from self.names(head, scope, module, bound)
            for field in fields:
                name, kind = re.split(r"\s:\s", field, maxsplit=1)
                yield from self.names(kind, scope, module, bound)
                bound.add(name.strip())
        else:
            yield from self.names_of_equations(one, scope, module)

    def names_of_equations(self, one, scope, module):
        for left, right in one.parts():
            bound = set()
            for it in CHAIN.finditer(left):
                found = self.resolve(scope, module, it[1])
                if found and found[1]:
                    yield found
                elif not (found and isinstance(found[0], Kit)) and it[1] != one.name and not it[1][:1].isupper():
                    bound.add(it[1].split(".")[0])
            yield from self.names(right, scope, module, bound)

    # ---- types of src/

    def type_of(self, name, file):
        """Returns the type that a name in a file of src/ stands for."""
        held = self.types.get(name, [])
        crate = file.crates.get(name, file.crate)
        mine = [it for it in held if it.crate == crate] or [it for it in held if it.crate == file.crate]
        below = [it for it in held if self.ranks.get(it.crate, 0) < self.ranks.get(file.crate, 99)]
        return next(iter(mine or (below if name in file.crates else [])), None)

    def types_in(self, text, file):
        for name in re.findall(NAME, text):
            if name[:1].isupper() and (one := self.type_of(name, file)):
                yield one

    def names_of_type(self, one):
        """Yields what a type of src/ rests on: what clauses see of it, or the types of its fields."""
        if one.kind == "trait":
            text = [it for f in self.functions if f.file is one.file and f.owner == one.name for c in f.clauses for it in c.lines]
            text += [it for it in one.block if it.strip().startswith("ghost ")]
            yield from self.names("\n".join(code_of(it) for it in text), one.file.scope, None, {"result", "self"})
        elif one.view:
            text = re.sub(r"ghost \w+ =", "", "\n".join(one.view))
            yield from self.names(text, one.view_scope)
            if variable := re.search(rf"λ ({NAME})\.", text):
                fields = one.fields()
                for it in re.finditer(rf"\b{variable[1]}\.({NAME})", text):
                    yield from ((other, False) for other in self.types_in(fields.get(it[1], ""), one.file))
        else:
            text = "\n".join(code_of(it) for it in one.text() if not it.strip().startswith("ghost"))
            text = re.sub(rf"(?m)^    {NAME}", "", text) if one.kind == "enum" else text
            yield from ((other, False) for other in self.types_in(text, one.file) if other is not one)

    # ---- targets

    def scope_of(self, function):
        """Returns what names stand for in the clauses of a function."""
        inner = Scope("\n".join(it for it in function.file.lines if it.startswith("    ghost use")))
        return inner.over(function.file.scope)

    def candidates(self, path):
        """Returns the functions and definitions that a target may mean, without its clause."""
        functions = [it for it in self.functions if it.ensures() and is_called(it.path(), path)]
        definitions = [it for module in self.modules.values() for it in module.definitions.values() if is_called(it.path(), path)]
        public = [it for it in functions if it.is_call]
        for group in ([it for it in functions + definitions if it.path() == path], public, definitions, functions):
            if group:
                return group
        return []

    def definition(self, name):
        """Returns the one definition that is called so, or those that are."""
        found = [it for module in self.modules.values() for it in module.definitions.values() if is_called(it.path(), name)]
        return found[0] if len(found) == 1 else found
