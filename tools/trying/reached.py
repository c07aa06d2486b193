"""What all vectors, the logs of examples/ and random ones reach of the definitions, row by row: an equation, or a branch of `if`."""
import collections
import functools
import glob
import os
import pathlib
import re

from evaluating.beside import inputs_of, said_of
from .random_sessions import Sessions, chosen_sessions
from evaluating.values import CannotRun, shown
from evaluating.vectors import answer, vectors_of

# In these each row is reached, or has a reason
CRATES = ["lsp_text", "lsp_edit", "lsp_store", "lsp_frame", "lsp_message", "lsp_server", "lsp_client"]
Item = collections.namedtuple("Item", "name size asks")
# The least and the greatest value of each limit, and those beside them
LIMITS = {
    "max_body": (4095, 4096, 2 ** 30, 2 ** 30 + 1), "max_text": (0, 2 ** 30, 2 ** 30 + 1), "max_docs": (0, 1, 65536, 65537),
    "max_changes": (0, 1, 2 ** 20, 2 ** 20 + 1),
}


def limit_refused(run, name, value):
    """Which limit is out of its range with this one: its number, or none."""
    return shown(run("first_out_of_range", run("default_limits").changed(**{f"x_{name}": value})))


def items_of(run, top, count):
    """Yields what is run: limits at their bounds, each vector, and the logs of examples/, random ones and events, each with all commands."""
    for name, values in LIMITS.items():
        yield Item(name, 1, [functools.partial(limit_refused, name=name, value=value) for value in values])
    for kind, vector in vectors_of(top):
        yield Item(vector["name"], len(str(vector)), [functools.partial(answer, kind=kind, vector=vector)])
    sessions, inputs = Sessions(1), list(chosen_sessions())
    for path in sorted(glob.glob(f"{top}/examples/*.log") + glob.glob(f"{top}/examples/*.events")):
        inputs.append((os.path.basename(path), pathlib.Path(path).read_bytes()))
    for number in range(count):
        inputs += [(f"{number}.log", sessions.log()), (f"{number}.events", sessions.events(number % 2))]
    for name, data in inputs:
        run.forget()
        yield Item(name, len(data), [functools.partial(said_of, words=words, path=name, data=data, saved=saved)
                                     for words, saved in inputs_of(run, name, data)])


def said_to(run, ask):
    """What the definitions say; the error, if they can't be run."""
    try:
        return ask(run)
    except (CannotRun, ValueError, TypeError, AttributeError, IndexError, RecursionError) as why:
        return f"{type(why).__name__}: {why}"


def results_of(run, item):
    run.forget()
    return [said_to(run, ask) for ask in item.asks]


def signature(definition):
    """The type of a definition."""
    head = re.split(r"\n(?=\S)", "\n".join(definition.counted))[0]
    return " ".join(re.split(r"\s:\s", head, maxsplit=1)[-1].split())


def counted_in(run, crates):
    """The definitions of some crates that have values: no types, no relations, and none that only proofs and laws speak of."""
    return [it for module in run.repository.modules.values() for it in module.definitions.values()
            if it.crate in crates and it.kind == "abbreviation" and it.counted[0][0] != " "
            and not (it.is_law or it.is_inside or re.search(r"Type \S+$", signature(it)))]


def crates_of(run, crates):
    known = sorted({name.split(".")[1] for name in run.repository.modules})
    for crate in crates:
        if crate not in known:
            raise CannotRun(f"no crate {crate} has definitions")
    return crates or known


def rows_of(run, crates):
    """The rows of each definition, each with whether it was reached. What isn't translated yet is now."""
    translated, rows = {row.definition for row in run.rows}, collections.defaultdict(list)
    for one in counted_in(run, crates):
        if one not in translated:
            run.translate(one, run.equations(one))
    for number, row in enumerate(run.rows):
        rows[row.definition].append((row, number in run.reached))
    return rows


def is_called(run, one, seen):
    """Says whether anything that runs here calls a definition."""
    seen.add(one)
    return None in run.callers[one] or any(is_called(run, it, seen) for it in run.callers[one] - seen - {None})


def reasons_in(path):
    """Why rows of definitions aren't reached, by the definitions' names."""
    with open(path, encoding="utf-8") as file:
        lines = [it.strip().partition(": ") for it in file if it[:1] not in "#\n"]
    return {name: why for names, _, why in lines for name in names.split(", ")}


def print_reached(run, top, crates):
    """Prints of each crate how many rows were reached, which weren't, and why. Returns 1 if there is a row without a reason."""
    crates, reasons, status = crates_of(run, crates or CRATES), reasons_in(f"{top}/tools/trying/unreached"), 0
    for item in items_of(run, top, 60):
        results_of(run, item)
    rows, used = rows_of(run, crates), set()
    for crate in crates:
        called = {one: rows[one] for one in counted_in(run, [crate]) if is_called(run, one, set())}
        others = sum(len(rows[one]) for one in counted_in(run, [crate]) if one not in called)
        reached = [is_reached for its in called.values() for _, is_reached in its]
        print(f"{crate}: {sum(reached)} of {len(reached)} rows; {others} more are of definitions that only contracts speak of")
        for one, its in called.items():
            if lines := [f"{'' if row.kind == 'clause' else row.kind + ' '}{row.line}" for row, is_reached in its if not is_reached]:
                name = f"{crate}::{one.name}"
                used.add(name)
                status |= name not in reasons
                place = run.repository.place(one.module.path, one.line)
                print(f"  {place} {one.name}: {', '.join(lines)}: {reasons.get(name, 'NO REASON')}")
    for name in (it for it in reasons if it not in used and it.split("::")[0] in crates):
        print(f"tools/trying/unreached: each row of {name} is reached")
        status = 1
    return status
