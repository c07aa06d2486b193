"""Values of definitions. Numbers and truth values are Python's, a pair is a tuple, and a text is the list of its characters' numbers."""
import dataclasses
import functools
import json
from typing import Callable


class CannotRun(ValueError):
    """Why a definition can't be run."""


class List:
    """A list, whose first entry is the last of `entries[low:high]`. One put in front is appended there, so both share what they have."""
    __slots__ = ("entries", "low", "high")

    def __init__(self, entries, low, high):
        self.entries, self.low, self.high = entries, low, high

    def __len__(self):
        return self.high - self.low

    def __iter__(self):
        return iter(self.entries[self.low:self.high][::-1])

    def at(self, index, default=None):
        return self.entries[self.high - 1 - index] if index < self.high - self.low else default

    def taken(self, count):
        return List(self.entries, max(self.low, self.high - count), self.high)

    def dropped(self, count):
        return List(self.entries, self.low, max(self.low, self.high - count))

    def after(self, *front):
        """Returns this list after these entries, of which the last comes first."""
        entries, low = (self.entries, self.low) if len(self.entries) == self.high else (self.entries[self.low:self.high], 0)
        entries.extend(front)
        return List(entries, low, len(entries))

    # A box and a vector of the program are seen as what they hold
    x_now = x_items = property(lambda self: self)


def list_of(items):
    entries = list(items)[::-1]
    return List(entries, 0, len(entries))


EMPTY = list_of(())


def joined(front, back):
    return back.after(*front.entries[front.low:front.high]) if front.high > front.low else back


class Case:
    """A constructor with its arguments, of which more may come. The program's enums are such values, too."""
    __slots__ = ("tag", "args")

    def __init__(self, tag, args=()):
        self.tag, self.args = tag, args


# Without arguments a constructor is one value, so that what was computed of it is found again
constant = functools.cache(Case)


def case(tag, *args):
    return Case(tag, args) if args else constant(tag)


NONE = case("None")
some = functools.partial(case, "Some")


class Record:
    """A record. Its field `a` is the attribute `x_a`."""

    def __init__(self, **fields):
        self.__dict__.update(fields)

    def changed(self, **fields):
        return Record(**{**self.__dict__, **fields})


def record(**fields):
    return Record(**{f"x_{name}": value for name, value in fields.items()})


@dataclasses.dataclass(unsafe_hash=True)
class Function:
    """A function that takes so many arguments, and some of them. Two are equal if they are the same one with the same of them."""
    arity: int
    run: Callable
    given: tuple = ()


def apply(function, *args):
    while args:
        if isinstance(function, Case):
            return Case(function.tag, function.args + args)
        if not isinstance(function, Function):
            raise CannotRun(f"{shown(function)} is no function")
        given = function.given + args
        if len(given) < function.arity:
            return Function(function.arity, function.run, given)
        function, args = function.run(*given[:function.arity]), given[function.arity:]
    return function


def equal(one, two):
    if isinstance(one, List):
        left, right = one.entries[one.low:one.high], two.entries[two.low:two.high]
        return left == right or len(left) == len(right) and not isinstance(left[0], int) and all(map(equal, left, right))
    if isinstance(one, Case):
        return one.tag == two.tag and len(one.args) == len(two.args) and all(map(equal, one.args, two.args))
    if isinstance(one, Record):
        return one.__dict__.keys() == two.__dict__.keys() and all(equal(it, two.__dict__[name]) for name, it in one.__dict__.items())
    if isinstance(one, tuple):
        return all(map(equal, one, two))
    if isinstance(one, Function) and one != two:
        raise CannotRun("two functions are compared")
    return one == two


def text_of(codes):
    return "".join(map(chr, codes))


def codes_of(text):
    return list_of(map(ord, text))


def utf8(text):
    return list_of(text.encode("utf-8", "surrogateescape"))


# ---- how a value is written


def text_shown(numbers):
    """Numbers as a text, if they may be one: a list of the least numbers, such as 0 and 1, isn't."""
    if not all(isinstance(it, int) and (32 <= it < 0x110000 or it in (9, 10, 13)) for it in numbers) or max(numbers) < 32:
        return None
    try:
        text = bytes(numbers).decode()
    except ValueError:
        text = text_of(numbers)
    words = f"codes {json.dumps(text, ensure_ascii=False)}"
    return words if len(text) == len(numbers) else f"encode_utf8_all ({words})"


def shown(value, is_argument=False):
    """A value in the language of definitions."""
    if isinstance(value, List):
        parts = list(value)
        words = parts and text_shown(parts) or " ∷ ".join([*(shown(it, isinstance(it, List)) for it in parts), "[]"])
    elif isinstance(value, Case):
        words = " ".join([value.tag, *(shown(it, True) for it in value.args)])
    elif isinstance(value, Record):
        words = "record { " + "; ".join(f"{name[2:]} = {shown(it)}" for name, it in value.__dict__.items()) + " }"
    elif isinstance(value, tuple):
        return f"({', '.join(map(shown, value))})"
    else:
        words = "a function" if isinstance(value, Function) else str(value).lower()
    return f"({words})" if is_argument and " " in words else words
