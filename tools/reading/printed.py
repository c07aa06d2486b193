"""What `tools/definitions` prints: a page, and tables."""
import collections

from .antt import Definition
from .closures import Closure


def short(module):
    """Returns how a module is named in a table."""
    return module.partition(".specs.")[2]


def heading(text):
    print(f"\n==== {text}\n")


def block(lines):
    """Prints lines without the indentation that all of them have."""
    least = min((len(it) - len(it.lstrip()) for it in lines if it.strip()), default=0)
    print("\n".join(it[least:] for it in lines))


def print_page(pages, closure, page):
    repository = closure.repository
    if page:
        print(page.title + (f" (docs/PROVED.md, \"{page.sentence}\")" if page.sentence else ""))
    print("(tools/definitions --signs: what each sign means)")
    for call, clauses in clauses_by_call(closure).items():
        heading(f"{call.short()}, {repository.place(call.file.path, call.line)}")
        block(call.signature)
        for clause in clauses:
            print()
            block(clause.comment + clause.lines)
    for one, last in zip(ordered := closure.in_order(), [None, *ordered]):
        place, is_first = repository.place(one.module.path, one.line), not last or last.module is not one.module
        heading(place) if is_first else print(f"\n# {place}")
        print_above(one, is_first, last)
        print("\n".join(one.comment + one.text))
    for one in closure.types:
        heading(f"{one.kind} {one.name}, {repository.place(one.file.path, one.line)}")
        if one.view:
            print(f"# what clauses see of it, line {one.view_line}")
            block(one.view)
        else:
            block(one.text())
    print_rest(pages, closure, page)


def print_above(one, is_first, last):
    """Prints what the file says of itself above its first definition on the page, and a heading above the first one under it."""
    if is_first and one.module.head:
        print("\n".join(one.module.head) + "\n")
    if one.section and (is_first or last.section is not one.section):
        print("\n".join(one.section) + "\n")


def clauses_by_call(closure):
    """Returns the clauses of each call that a page is of: what the call requires comes first."""
    found = {}
    for target in closure.targets:
        if not isinstance(target.one, Definition):
            held = found.setdefault(target.one, [])
            held += [it for it in target.required + target.clauses if it not in held]
    return found


def print_rest(pages, closure, page):
    """Prints what isn't on the page, and how long the page is."""
    if closure.given:
        heading("given")
    for name in sorted(closure.given):
        token, teller = pages.tokens.get(name), pages.teller_of(name, page)
        print(f"`{name}`: " + (token.reported() if token else f"tools/definitions --of {teller.of[0]}" if teller else "on no page"))
    print_kit(closure)
    files = len({it.module.name for it in closure.definitions})
    types = sum(it.size for it in closure.types)
    print(f"\n{closure.size} lines in {len(closure.definitions)} definitions of {files} files; types {types}; "
          f"given {len(closure.given)}; kit {sum(it.size for it in closure.kit_definitions) if closure.repository.kit else 'not read'}")
    if page:
        print_below(pages, page)


def print_below(pages, page):
    """Prints the pages that a page builds on, and how long all of them are together."""
    below, most = pages.all_below(page), pages.size_in_all(page)
    if not below:
        print(f"{most} lines in all: it builds on no other page")
        return
    needed = Closure(pages.repository, page.targets(pages.repository), pages.tokens).size
    print(f"{most:,} lines in all, with the pages that it builds on, each definition counted once; {needed:,} of them are needed here")
    print(f"builds on {len(below)}: " + "; ".join(it.title for it in below))


def print_kit(closure):
    """Prints what the page needs of Rattle's crates: definitions by file, and what is named alone."""
    if closure.kit:
        heading("of Rattle's crates")
    by_file = collections.defaultdict(list)
    for one in closure.kit_definitions:
        by_file[f"{one.crate}/specs/{short(one.module.name).replace('.', '/')}.antt"].append(one)
    for file, held in sorted(by_file.items()):
        print(f"{file}, {sum(it.size for it in held)} lines: " + ", ".join(sorted(it.name for it in held)))
    said = lambda which: ", ".join(sorted({it.said for it in closure.named if which(it)}))
    is_known = closure.repository.is_found
    unread = "not in the sources" if closure.repository.kit else "not read, since `rt` isn't here"
    for what, which in (
        ("types of their code", lambda it: is_known(it) and it.is_of_type),
        ("of the logic below them", lambda it: is_known(it) and it.is_of_logic),
        (unread, lambda it: not is_known(it)),
    ):
        if names := said(which):
            print(f"{what}: {names}")


# ---- tables

def pages_table(pages):
    """Returns the table of the pages."""
    rows = ["| page | printed by `tools/definitions --of` | lines | in all | types | of Rattle's crates |", "|---|---|---|---|---|---|"]
    for page in pages.pages:
        kit = sum(it.size for it in pages.closure_of(page).kit_definitions)
        lengths = " | ".join(f"{it:,}" for it in pages.lengths_of(page))
        rows.append(f"| {page.title} | `{page.of[0]}` | {lengths} | {kit} |")
    return "\n".join(rows) + "\n"


def print_users(pages, public):
    """Prints how many lines the calls of each user speak of, and how many clauses the public calls of the libraries have."""
    print("| user | calls | definitions | lines | by crate |\n|---|---|---|---|---|")
    rows = [(user, [call for entry in entries for call in pages.calls_of(entry)]) for user, entries in pages.users.items()]
    calls = list(pages.user_calls())
    for user, calls in [*rows, ("**all**", calls), ("**all but C**", [it for it in calls if not it.is_exported])]:
        definitions = pages.closure_of_calls(calls).definitions
        crates = collections.Counter()
        for it in definitions:
            crates[it.crate.removeprefix("lsp_")] += it.size
        by_crate = ", ".join(f"{name} {lines}" for name, lines in crates.most_common())
        print(f"| {user} | {len(calls)} | {len(definitions)} | {sum(crates.values())} | {by_crate} |")
    promised = sum(len(it.ensures()) for it in public)
    print(f"\n{len(public)} public calls: {promised} clauses `ensures`, {sum(len(it.clauses) for it in public) - promised} `requires`")
