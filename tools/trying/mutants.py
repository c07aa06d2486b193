"""Small random edits of definitions that leave them their types, and whether a vector or a log shows them."""
import collections
import random

from evaluating.language import Token
from .reached import counted_in, crates_of, items_of, results_of, signature

PAIRS = ["nat_lt nat_le", "int_lt int_le", "min max", "take drop", "before_first after_first", "list_any list_all", "true false", "&& ||",
         "+ -"]
OTHER = {one: other for pair in map(str.split, PAIRS) for one, other in (pair, pair[::-1])}
# An equation's word, and what is there instead
Mutant = collections.namedtuple("Mutant", "definition number index word")


def arguments_of(text):
    """The types of the arguments in a type."""
    parts, depth, start = [], 0, 0
    for at, sign in enumerate(text):
        depth += (sign in "({") - (sign in ")}")
        if sign == "→" and not depth:
            parts, start = [*parts, text[start:at].strip()], at + 1
    return parts


class Mutants:
    """All such edits of the definitions of some crates, each time another one."""

    def __init__(self, run, crates):
        self.run, self.definitions, self.of_type = run, counted_in(run, crates_of(run, crates)), collections.defaultdict(list)
        for one in self.definitions:
            self.of_type[signature(one)].append(one)

    def words(self, one, left, word):
        """The words that may be there instead of one: of the same kind, and of the same type."""
        if word in OTHER:
            return [] if word in "+-" and "ℤ" in signature(one) else [OTHER[word]]
        if word.isdigit():
            return [str(int(word) + 1)]
        kinds = dict(zip(left, arguments_of(signature(one))))
        if word in left:
            return [it for it in left if it != word and it.isidentifier() and kinds.get(it) == kinds.get(word)] if word in kinds else []
        if held := one.module.variants.get(word):
            rows = [row.split(" : ") for row in held.counted[1:]]
            kind = next(kind for names, kind in rows if word in names.split())
            return [it for names, other in rows if other == kind for it in names.split() if it != word]
        found = self.run.meaning(one.module, word)
        if not found or found[0] != "definition" or found[1] == one:
            return []
        others = [it for it in self.of_type[signature(found[1])] if it != found[1]]
        return [it.name for it in others if self.run.meaning(one.module, it.name) == ("definition", it)]

    def all(self):
        for one in self.definitions:
            for number, (left, right) in enumerate(self.run.equations(one)):
                for index, word in enumerate(right):
                    is_label = right[index + 1:index + 2] == ["="]
                    for other in self.words(one, left, word) if word.kind == "word" and not is_label else ():
                        yield Mutant(one, number, index, other)

    def equations(self, mutant):
        """The equations of its definition with the edit."""
        equations = [(left, list(right)) for left, right in self.run.equations(mutant.definition)]
        right = equations[mutant.number][1]
        word = right[mutant.index]
        right[mutant.index] = Token.at(mutant.word, **vars(word))
        return equations


class Trial:
    """What all items say of the definitions as they are, and which equations each one reaches."""

    def __init__(self, run, top):
        self.run, self.items, self.said, self.reaching = run, list(items_of(run, top, 120)), [], collections.defaultdict(list)
        for number, item in enumerate(self.items):
            run.reached.clear()
            self.said.append(results_of(run, item))
            for row in {(run.rows[it].definition, run.rows[it].line) for it in run.reached}:
                self.reaching[row].append(number)

    def reached_by(self, mutant):
        left, right = self.run.equations(mutant.definition)[mutant.number]
        return self.reaching[mutant.definition, (left or right)[0].line]

    def shown_by(self, mutant, equations):
        """The name of the first item that says something else with an edit, or that none does."""
        before, reaching = self.run.equations(mutant.definition), self.reached_by(mutant)
        self.run.set_equations(mutant.definition, equations)
        try:
            for number in sorted(reaching, key=lambda it: self.items[it].size):
                if results_of(self.run, self.items[number]) != self.said[number]:
                    return self.items[number].name
        finally:
            self.run.set_equations(mutant.definition, before)
        return f"nothing shows it, {len(reaching)} reach it"


def try_mutants(run, top, count, seed):
    """Tries so many edits, of equations that are reached, and prints what shows each. Whether one that nothing shows means the same, a
    reader has to say."""
    mutants = Mutants(run, [])
    trial, found = Trial(run, top), []
    every = [it for it in mutants.all() if trial.reached_by(it)]
    for mutant in random.Random(seed).sample(every, min(count, len(every))):
        one, word = mutant.definition, run.equations(mutant.definition)[mutant.number][1][mutant.index]
        found.append(trial.shown_by(mutant, mutants.equations(mutant)))
        print(f"{run.repository.place(one.module.path, word.line)} {one.name}: {word} -> {mutant.word}: {found[-1]}", flush=True)
    print(f"{sum(not it.startswith('nothing shows') for it in found)} of {len(found)} edits shown, of {len(every)} that there are")
    return 0
