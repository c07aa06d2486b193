"""What a reader must read to understand a clause: the closure of its definitions."""
import collections
import difflib
import re

from .antt import NAME, Definition
from .repository import Kit
from .rust import Function, RustType


class Unknown(Exception):
    """A target that nothing is called."""


class Target:
    """Some clauses of a function, or a definition."""

    def __init__(self, one, clauses=()):
        self.one, self.clauses = one, clauses
        self.required = one.requires() if isinstance(one, Function) else []


def target_named(repository, text):
    """Returns the target of a text: `Type::function.clause`, `function`, `Module::definition` and the like."""
    path, _, label = text.partition(".")
    found = repository.candidates(path)
    if not found:
        calls = [it for it in repository.functions if it.is_call]
        near = sorted({it.path() for it in calls if path.rpartition("::")[2] in it.name})[:12]
        near = near or difflib.get_close_matches(path, sorted({it.short() for it in calls} | {it.path() for it in calls}), 4)
        raise Unknown(f"there is no call and no definition {path}" + (f"; there are {', '.join(near)}" if near else ""))
    if len(found) > 1:
        raise Unknown(f"{path} is one of these: " + ", ".join(sorted({it.path() for it in found})))
    one = found[0]
    if isinstance(one, Definition):
        if label:
            raise Unknown(f"{path} is a definition, and has no clauses")
        return Target(one)
    clauses = [it for it in one.ensures() if not label or it.label == label]
    if not clauses:
        labels = ", ".join(it.label or "(one without a label)" for it in one.ensures())
        raise Unknown(f"{path} has no clause {label}; it has {labels}")
    return Target(one, clauses)


def definition_named(repository, name):
    """Returns the definition of a name."""
    found = repository.definition(name)
    if isinstance(found, Definition):
        return found
    raise Unknown(f"{name} is one of these: " + ", ".join(it.path() for it in found) if found else f"there is no definition {name}")


class Closure:
    """The definitions that some targets speak of, and the types of src/ and definitions of the kit beside them."""

    def __init__(self, repository, targets, given=()):
        self.repository, self.targets = repository, targets
        self.cut = {definition_named(repository, it): it for it in given}
        self.definitions, self.types, self.kit, self.given, self.parents = [], [], [], {}, {}
        queue = collections.deque()
        for target in targets:
            if isinstance(target.one, Definition):
                queue.append(((target.one, False), "the target"))
                self.cut.pop(target.one, None)
            else:
                self.add_clauses(queue, target)
        self.follow(queue)

    def add_clauses(self, queue, target):
        """Adds what clauses name, and the models of the types of those parameters that they speak of."""
        function, scope = target.one, self.repository.scope_of(target.one)
        types = function.parameters()
        text = "\n".join(it.body() for it in target.clauses + target.required)
        queue += ((it, "the clause") for it in self.repository.names(text, scope, None, set(types)))
        spoken = set(re.findall(rf"(?<![\w.']){NAME}", text))
        for name in sorted(spoken & set(types)):
            queue += (((it, False), "the clause") for it in self.repository.types_in(types[name], function.file))
        # (a clause names a constant as the code does)
        constants = (self.repository.type_of(it, function.file) for it in sorted(spoken) if it.isupper())
        queue += (((it, False), "the clause") for it in constants if it and it.kind == "const")

    def follow(self, queue):
        while queue:
            (one, _), parent = queue.popleft()
            if one in self.parents or isinstance(one, Kit) and any(it.name == one.name for it in self.kit if isinstance(it, Kit)):
                continue
            if isinstance(one, Kit):
                self.kit.append(one)
                continue
            if one in self.cut:
                self.given[self.cut[one]] = one
                continue
            self.parents[one] = parent
            if isinstance(one, RustType):
                self.types.append(one)
                queue += ((it, one) for it in self.repository.spoken_of(one))
                continue
            is_own = one.module.name in self.repository.modules
            (self.definitions if is_own else self.kit).append(one)
            queue += ((it, one) for it in self.repository.spoken_of(one))

    @property
    def size(self):
        return sum(it.size for it in self.definitions)

    @property
    def kit_definitions(self):
        return [it for it in self.kit if isinstance(it, Definition)]

    @property
    def named(self):
        """Returns what is named of the kit and not read, but for the variants of its types."""
        return [it for it in self.kit if isinstance(it, Kit) and not it.is_variant]

    def chain(self, one):
        """Returns the names by which a definition was reached, the clause first."""
        names = []
        while not isinstance(one, str):
            names.append(one.name)
            one = self.parents[one]
        return names[::-1]

    def in_order(self):
        """Returns the definitions so that none is named before it is defined, as far as modules go."""
        depths = {}

        def depth(module, seen=()):
            if module.name not in depths and module.name not in seen:
                scope = module.scope
                names = {it[0] for it in scope.names.values()} | set(scope.modules.values())
                mine = [self.repository.modules[it] for it in names if it in self.repository.modules
                        and it.split(".")[1] == module.name.split(".")[1] and it != module.name]
                depths[module.name] = 1 + max([depth(it, (*seen, module.name)) for it in mine] or [0])
            return depths.get(module.name, 0)

        ranks = self.repository.ranks
        return sorted(self.definitions, key=lambda it: (ranks.get(it.crate, 0), depth(it.module), it.module.name, it.line))
