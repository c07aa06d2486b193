"""What the definitions use of the kit's library, written anew, each from what it means. `LIBRARY` is all of it, by subject."""
import functools
import itertools
import json
import math
import operator
import re
import unicodedata

from .values import NONE, CannotRun, apply, case, codes_of, equal, joined, list_of, some, text_of, utf8

# ---- lists


def first_index(test, items):
    return next((index for index, it in enumerate(items) if apply(test, it)), len(items))


def join_by(function, between, items):
    parts = [apply(function, it) for it in items]
    return list_of(it for number, part in enumerate(parts) for it in ([*between, *part] if number else part))


def split(test, items):
    parts = [[]]
    for it in items:
        parts.append([]) if apply(test, it) else parts[-1].append(it)
    return list_of(map(list_of, parts))


def matches(hay, needle, start):
    """Where a list of bytes has another from an index on. Occurrences that overlap one before aren't counted."""
    text, part, found = bytes(hay), bytes(needle), []
    while (start := text.find(part, start)) >= 0:
        found.append(start)
        start += max(1, len(part))
    return list_of(found)


SUMS = {}  # of a function over the first entries of a list: entries are only ever appended, so these stay right


def sum_by(function, items):
    if not function.given:  # (one that is written in place is new each time)
        return sum(apply(function, it) for it in items)
    entries, sums = SUMS.setdefault((function, id(items.entries)), (items.entries, [0]))
    for it in entries[len(sums) - 1:items.high]:
        sums.append(sums[-1] + apply(function, it))
    return sums[items.high] - sums[items.low]


# ---- characters


def chars(data):
    return codes_of(bytes(data).decode())


def percent_decode(data):
    """Bytes with the byte for each `%` and two hex digits."""
    return list_of(re.sub(rb"%([0-9A-Fa-f]{2})", lambda found: bytes.fromhex(found[1].decode()), bytes(data)))


def quoted(data):
    """A JSON string of bytes of UTF-8, with the fewest escapes."""
    return utf8(json.dumps(bytes(data).decode("utf-8", "surrogateescape"), ensure_ascii=False))


# ---- JSON: Python's reader finds the values, objects as tuples, and these are what the kit's reader calls them


def number_read(text):
    """A whole number of 64 bits, but -0, is one; any other is a float, which has to be finite."""
    if re.fullmatch(r"-?\d{1,20}", text) and text != "-0" and -2 ** 63 <= int(text) < 2 ** 64:
        return case("number", case("negative" if text[0] == "-" else "unsigned", int(text)))
    if not math.isfinite(value := float(text)):
        raise ValueError(text)
    return case("number", case("float", value))


def value_of(read):
    if isinstance(read, str):
        return case("string", list_of(read.encode()))  # (half of a surrogate pair is an error, a ValueError)
    if read is None:
        return case("null")
    if isinstance(read, bool):
        return case("boolean", read)
    if isinstance(read, tuple):
        # (of members of one name the last one counts; they are in the order of their names' bytes)
        found = case("no_members")
        for name, it in sorted({name.encode(): it for name, it in read}.items(), reverse=True):
            found = case("member", list_of(name), value_of(it), found)
        return case("object", found)
    return case("array", items_of(map(value_of, read))) if isinstance(read, list) else read


def items_of(values):
    return functools.reduce(lambda rest, it: case("item", it, rest), reversed(list(values)), case("no_items"))


def depth(text):
    brackets = re.findall(r"[\[{\]}]", re.sub(r'(?s)"(?:[^"\\]|\\.)*"', "", text))
    return max(itertools.accumulate(1 if it in "[{" else -1 for it in brackets), default=0)


def json_read(data):
    """The value of a body that is UTF-8, if it is JSON."""
    text = bytes(data).decode()
    try:
        hooks = {"parse_int": number_read, "parse_float": number_read, "parse_constant": number_read}
        return NONE if depth(text) > 127 else some(value_of(json.loads(text, object_pairs_hook=tuple, **hooks)))
    except ValueError:
        return NONE


def member(name, members):
    while members.args:
        if equal(name, members.args[0]):
            return some(members.args[1])
        members = members.args[2]
    return NONE


def plain(value):
    """A value as Python's."""
    if value.tag in ("array", "object"):
        items, rest = [], value.args[0]
        while rest.args:
            items.append(rest.args[:-1])
            rest = rest.args[-1]
        return {text_of(chars(name)): plain(it) for name, it in items} if value.tag == "object" else [plain(it) for it, in items]
    if value.tag == "number" and value.args[0].tag == "float":
        raise CannotRun("a number that isn't whole is written")
    held = value.args[0] if value.args else None
    return text_of(chars(held)) if value.tag == "string" else held.args[0] if value.tag == "number" else held


def compact(value):
    """The text of a value without blanks."""
    return list_of(json.dumps(plain(value), separators=(",", ":"), ensure_ascii=False).encode())


def argument_if(*tags):
    return lambda value: some(value.args[0]) if value.tag in tags else NONE


def if_some(option, function, default):
    return function(option.args[0]) if option.args else default


# Each with its number of arguments
LIBRARY = {
    "Numbers": {
        "suc": (1, lambda n: n + 1), "pos": (1, lambda n: n), "negsuc": (1, lambda n: -n - 1), "min": (2, min), "max": (2, max),
        **{f"{kind}_{name}": (2, getattr(operator, name)) for kind in ("nat", "int") for name in ("lt", "le", "eq")},
        "unsigned_abs": (1, abs),
        "not": (1, lambda b: not b), "decimal": (1, lambda n: list_of(b"%d" % n)), "signed_decimal": (1, lambda n: list_of(b"%d" % n)),
    },
    "Lists": {
        "length": (1, len), "take": (2, lambda n, xs: xs.taken(n)), "drop": (2, lambda n, xs: xs.dropped(n)),
        "reverse": (1, lambda xs: list_of(list(xs)[::-1])), "map": (2, lambda f, xs: list_of([apply(f, it) for it in xs])),
        "filter": (2, lambda p, xs: list_of([it for it in xs if apply(p, it)])),
        "flat_map": (2, lambda f, xs: list_of([each for it in xs for each in apply(f, it)])),
        "fold": (3, lambda f, value, xs: functools.reduce(lambda so_far, it: apply(f, so_far, it), xs, value)),
        "find": (2, lambda p, xs: next((some(it) for it in xs if apply(p, it)), NONE)), "sum_by": (2, sum_by),
        "list_any": (2, lambda p, xs: any(apply(p, it) for it in xs)), "list_all": (2, lambda p, xs: all(apply(p, it) for it in xs)),
        "slice_index": (2, lambda xs, n: xs.at(n, 0)), "slice_index_or": (3, lambda xs, n, default: xs.at(n, default)),
        "slice_get": (2, lambda xs, n: some(xs.at(n)) if n < len(xs) else NONE),
        "slice_range": (3, lambda xs, start, end: xs.dropped(start).taken(max(0, end - start))),
        "replace_range": (4, lambda xs, start, end, ys: joined(xs.taken(start), joined(ys, xs.dropped(end)))),
        "first_of": (1, lambda xs: some(xs.at(0)) if xs else NONE), "matches": (3, matches),
        "before_first": (2, lambda p, xs: xs.taken(first_index(p, xs))),
        "after_first": (2, lambda p, xs: xs.dropped(first_index(p, xs) + 1)),
        "slice_split": (2, split), "join_by": (3, join_by), "replicate": (2, lambda n, it: list_of([it] * n)),
        "AllByRecursion": (2, lambda p, xs: all(apply(p, it) for it in xs)),
    },
    "Options and results": {
        "is_some": (1, lambda o: bool(o.args)), "is_none": (1, lambda o: not o.args),
        "option_map": (2, lambda f, o: if_some(o, lambda it: some(apply(f, it)), NONE)),
        "option_and_then": (2, lambda f, o: if_some(o, lambda it: apply(f, it), NONE)),
        "option_map_or": (3, lambda f, o, default: if_some(o, lambda it: apply(f, it), default)),
        "option_or": (2, lambda o, other: o if o.args else other), "unwrap_or": (2, lambda o, default: if_some(o, lambda it: it, default)),
        "ok_or": (2, lambda o, e: if_some(o, lambda it: case("Ok", it), case("Err", e))),
        "result_ok": (1, argument_if("Ok")), "result_and": (2, lambda one, other: other if one.tag == "Ok" else one),
    },
    "Characters and bytes": {
        "codes": (1, lambda text: text), "chars": (1, chars), "encode_utf8_all": (1, lambda xs: list_of(text_of(xs).encode())),
        "encode_utf8": (1, lambda c: list_of(chr(c).encode())), "len_utf8": (1, lambda c: 1 + (c > 0x7f) + (c > 0x7ff) + (c > 0xffff)),
        "is_control": (1, lambda c: unicodedata.category(chr(c)) == "Cc"), "is_in_range": (3, lambda low, high, c: low <= c <= high),
        "is_whitespace": (1, lambda c: chr(c).isspace() and not 0x1c <= c <= 0x1f),
        "escape_unicode": (1, lambda c: codes_of("\\u{%x}" % c)),
        "is_utf8": (1, lambda data: bytes(data).decode(errors="replace").encode() == bytes(data)), "bytes_eq": (2, equal),
        "str_eq_ignore_ascii_case": (2, lambda a, b: bytes(a).lower() == bytes(b).lower()),
        "string_bytes": (1, lambda text: text), "quoted": (1, quoted), "percent_decode": (1, percent_decode),
    },
    "JSON": {
        "read": (1, json_read), "get_member": (2, member),
        "get": (2, lambda name, d: member(name, d.args[0]) if d.tag == "object" else NONE),
        "as_null": (1, lambda d: some(case("tt")) if d.tag == "null" else NONE), "as_bool": (1, argument_if("boolean")),
        "as_number": (1, argument_if("number")), "as_str": (1, argument_if("string")), "as_array": (1, argument_if("array")),
        "as_object": (1, argument_if("object")), "as_u64": (1, argument_if("unsigned")),
        "as_i64": (1, lambda n: some(n.args[0]) if n.tag != "float" and n.args[0] < 2 ** 63 else NONE),
        "of_integer": (1, lambda n: case("unsigned" if n >= 0 else "negative", n)), "items_of": (1, items_of), "view": (1, lambda d: d),
        "compact_text": (1, compact),
    },
}
FUNCTIONS = {name: it for group in LIBRARY.values() for name, it in group.items()}
# The constructors of the library, and of Rattle's logic
CONSTRUCTORS = set("None Some Ok Err true false [] zero suc pos negsuc tt null boolean number string array object item no_items member "
                   "no_members unsigned negative float".split())


def library_table():
    """The table of the library."""
    rows = "".join(f"| {subject} | {', '.join(f'`{name}`' for name in group)} |\n" for subject, group in LIBRARY.items())
    return f"| Of | Written anew |\n|---|---|\n{rows}"
