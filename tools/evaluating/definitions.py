"""The definitions of the repository as functions: each is translated when it is first called, and what it computed is kept."""
import collections
import functools
import os

from reading.antt import is_called
from reading.repository import Repository

from .language import Translation, equations_of, tokens_of
from .library import CONSTRUCTORS, FUNCTIONS, SUMS
from .values import EMPTY, CannotRun, Case, Function, List, Record, apply, case, equal, joined

KEPT = 1 << 17  # so many values are kept of each function at most


class Specifications(Repository):
    """The files of specs/ alone. What the kit defines is in LIBRARY, whether the kit is here or not."""

    def __init__(self, top):
        self.top, self.kit, self.modules, self.kit_modules = top, None, {}, {}
        for crate in sorted(os.listdir(f"{top}/crates")):
            self.read_specs(crate, f"{top}/crates/{crate}")


class Definitions:
    """All definitions. `reached` has the numbers of the rows that runs have reached so far."""

    def __init__(self, top):
        self.repository = Specifications(top)
        self.names, self.equations, self.rows, self.reached = {}, functools.cache(equations_of), [], set()
        self.kept, self.callers = [], collections.defaultdict(set)
        self.shared = self.keep(lambda make, *args: make(*args))
        self.space = {it.__name__: it for it in (apply, Case, case, equal, Function, joined, List, Record, CannotRun)}
        late = functools.cache(lambda name: lambda *args: self.space[name](*args))
        self.space.update(EMPTY=EMPTY, reach=self.reached.add, late=late)
        for name, (_, function) in FUNCTIONS.items():
            self.space[f"lib_{name}"] = self.keep(function) if name in ("chars", "encode_utf8_all", "read") else function

    def keep(self, function):
        """A function that keeps what it computes: texts are shared, so most is asked again and again."""
        self.kept.append(functools.lru_cache(KEPT)(function))
        return self.kept[-1]

    def forget(self):
        for it in self.kept:
            it.cache_clear()
        SUMS.clear()

    # ---- names

    def meaning(self, module, name):
        if name in module.variants:
            return "constructor", name
        if name in module.definitions:
            return ("type" if module.definitions[name].kind == "data" else "definition"), module.definitions[name]
        return self.imported(*module.scope.names[name]) if name in module.scope.names else None

    def imported(self, path, name):
        if path.endswith(".TheVariants"):
            return "constructor", name
        if ".declared." in path:
            return "type", name
        module = self.repository.module(path)
        if module is None:
            return ("constructor" if name in CONSTRUCTORS else "library"), name
        return self.meaning(module, name)

    def named(self, name):
        """What a name stands for on a command line or in a script, which import nothing; None if there is nothing."""
        modules, last = self.repository.modules.values(), name.split("::")[-1]
        found = [it.definitions[last] for it in modules if last in it.definitions and is_called(it.definitions[last].path(), name)]
        public = [it for it in found if not (it.is_inside or it.is_law)]
        if not public and (name in CONSTRUCTORS or name in FUNCTIONS):
            return ("constructor" if name in CONSTRUCTORS else "library"), name
        if len(public or found) > 1:
            raise CannotRun(f"{name} may be {' or '.join(it.path().replace('::specs', '') for it in public or found)}")
        if found:
            return self.meaning((public or found)[0].module, last)
        is_variant = any(name in it.variants or any(one == name and path.endswith(".TheVariants") for path, one in it.scope.names.values())
                         for it in modules)
        return ("constructor", name) if is_variant else None

    # ---- functions

    def arity(self, definition):
        equations = self.equations(definition)
        if not equations:
            raise CannotRun(f"{definition.path()} has no equations")
        return len(Translation(self, definition.module).patterns(equations[0][0]))

    def constant(self, value):
        name = f"constant_{len(self.space)}"
        self.space[name] = value
        return name

    def name(self, definition):
        """The name of a definition's function in `space`."""
        if definition not in self.names:
            self.names[definition] = f"d{len(self.names)}"
            self.set_equations(definition, self.equations(definition))
        return self.names[definition]

    def set_equations(self, definition, equations):
        """Lets a definition have these equations from now on. They are translated when it is first called."""
        self.space[self.name(definition)] = lambda *args: self.translate(definition, equations)(*args)

    def translate(self, definition, equations):
        """Makes the function of a definition, and returns it. What can't be run in it is an error where it is reached."""
        name = self.name(definition)
        lines = [f"def {name}({', '.join(f'a{at}' for at in range(self.arity(definition)))}):"]
        for left, right in equations:
            lines += self.equation(definition, left, right)
        lines.append(f"    raise CannotRun('no equation of {definition.path()} fits')")
        exec(compile("\n".join(lines), definition.path(), "exec"), self.space)
        self.space[name] = self.keep(self.space[name])
        return self.space[name]

    def equation(self, definition, left, right):
        translation, lines, indent = Translation(self, definition.module, definition), [], "    "
        for line in (line for it in translation.patterns(left) for line in it):
            lines.append(indent + line)
            indent += "    " if line.startswith("if ") else ""
        lines.append(indent + translation.row("clause", (left or right)[0].line))
        try:
            return [*lines, f"{indent}return {translation.whole(right)}"]
        except CannotRun as why:
            return [*lines, f"{indent}raise CannotRun({f'{definition.path()}: {why}'!r})"]

    # ---- calls

    @functools.cache
    def function(self, name):
        kind, found = self.named(name) or ("", None)
        if kind != "definition":
            raise CannotRun(f"{name}: no definition has this name")
        self.callers[found].add(None)
        return self.arity(found), self.name(found)

    def __call__(self, name, *args):
        """The value of a definition on arguments. It is named as in the specifications, or with its module or its crate before it."""
        arity, code = self.function(name)
        if arity > len(args):
            return Function(arity, self.space["late"](code), args)
        return apply(self.space[code](*args[:arity]), *args[arity:])

    def value(self, text, files=()):
        """The value of a term, in which each name stands for what is called so anywhere."""
        tokens = tokens_of(enumerate(text.split("\n"), 1))
        return eval(Translation(self, None, scope=files).whole(tokens), self.space)
