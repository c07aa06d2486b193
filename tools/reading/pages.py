"""The pages of tools/pages.ini: a sentence, the clauses that say it, what is said elsewhere, and how long the page may be."""
import configparser
import glob
import re

from .closures import Closure, Target, Unknown, definition_named, target_named
from .tokens import Token

OTHERS = ("tokens", "users", "inside", "edits")
# A row under "In short" of docs/PROVED.md: what is promised, what the page is of, how long it is alone, with those
# below it, its types, and what isn't covered
LENGTHS = re.compile(r"(?m)^\| \*\*(.*?)\*\*[^|]* \| `([^`|]+)` \| ([\d,]+) \| ([\d,]+) \| ([\d,]+) \| [^|]+ \|$")
# What a row of [edits] begins with where a call of the kit's code must not be made so: it has no clause of ours
REQUIRES = "requires "


def words_of(text):
    return [it.strip() for it in re.split(r"[,\n]", text) if it.strip()]


class Page:
    """A row of tools/pages.ini."""

    def __init__(self, title, row):
        self.title, self.sentence = title, row.get("sentence")
        self.of, self.given, self.most = words_of(row["of"]), words_of(row.get("given", "")), int(row["lines"])
        self.held = self.below = None

    def targets(self, repository):
        return [target_named(repository, it) for it in self.of]

    def closure(self, repository):
        return Closure(repository, self.targets(repository), self.given)


class Pages:
    def __init__(self, repository, path):
        file = configparser.ConfigParser(delimiters=("=",), comment_prefixes=("#",), interpolation=None)
        file.optionxform = str
        with open(path, encoding="utf-8") as source:
            file.read_file(source)
        self.repository = repository
        self.pages = [Page(it, file[it]) for it in file.sections() if it not in OTHERS]
        self.tokens = {name: Token(repository, name, subject) for name, subject in file["tokens"].items()}
        self.users = {user: words_of(calls) for user, calls in file["users"].items()}
        self.known = dict(file["inside"]) if "inside" in file else {}
        self.edits = dict(file["edits"])

    def page_of(self, target):
        """Returns the page that a target is of, named as the row does or longer."""
        for page in self.pages:
            for it in page.of:
                path, _, label = it.partition(".")
                asked, _, asked_label = target.partition(".")
                if label == asked_label and (asked == path or asked.endswith(f"::{path}") or path.endswith(f"::{asked}")):
                    return page
        return next((it for it in self.pages if it.title == target), None)

    def teller_of(self, name, but=None):
        """Returns the shortest other page that has a definition."""
        one = definition_named(self.repository, name)
        tellers = [it for it in self.pages if it is not but and one in self.closure_of(it).definitions]
        return min(tellers, key=lambda it: (name not in it.of, it.most), default=None)

    def closure_of(self, page):
        if page.held is None:
            page.held = page.closure(self.repository)
        return page.held

    def next_below(self, page):
        """Returns the pages that have what a page leaves out."""
        if page.below is None:
            tellers = (self.teller_of(it, page) for it in sorted(self.closure_of(page).given) if it not in self.tokens)
            page.below = list(dict.fromkeys(it for it in tellers if it))
        return page.below

    def all_below(self, page):
        """Returns the pages that a page builds on, those that they build on, and so on, each once."""
        found = [page]
        for one in found:
            found += [it for it in self.next_below(one) if it not in found]
        return found[1:]

    def size_in_all(self, page):
        """Returns the lines of definitions of a page and of all pages that it builds on, each definition counted once."""
        held = {one for it in (page, *self.all_below(page)) for one in self.closure_of(it).definitions}
        return sum(it.size for it in held)

    def lengths_of(self, page):
        """Returns the lines of a page, those with all pages that it builds on, and those of types."""
        return self.closure_of(page).size, self.size_in_all(page), sum(it.size for it in self.closure_of(page).types)

    # ---- users

    def calls_of(self, entry):
        """Returns the calls that a word of a row of users stands for: one, those of a type, or those of a library for C."""
        crate, *rest = entry.split("::")
        found = []
        for it in self.repository.functions:
            if it.file.crate != crate or not it.ensures():
                continue
            if not rest:
                chosen = it.is_exported
            elif rest[0][:1].isupper():
                chosen = it.is_public and it.owner == rest[0] and (len(rest) == 1 or it.name == rest[1])
            else:
                chosen = it.is_public and it.owner is None and it.name == rest[0]
            found += [it] if chosen else []
        if not found:
            raise Unknown(f"[users]: there is no call {entry}")
        return found

    def user_calls(self):
        """Returns each call of a user, and who uses it."""
        return {call: user for user, entries in self.users.items() for entry in entries for call in self.calls_of(entry)}

    def closure_of_calls(self, calls):
        return Closure(self.repository, [Target(it, it.ensures()) for it in calls], self.tokens)

    # ---- checks

    def faults(self, proved):
        """Yields where the sources and docs/PROVED.md don't keep what the pages say."""
        for token in self.tokens.values():
            yield from token.faults
        for page in self.pages:
            yield from self.faults_of(page)
        yield from self.faults_of_users()
        yield from self.faults_of_edits()
        yield from self.faults_of_counts(proved)
        rows = {what.rstrip(".,:"): name for what, name, *_ in LENGTHS.findall(proved)}
        said = {it.sentence: it for it in self.pages if it.sentence}
        for sentence in rows.keys() - said.keys():
            yield f"docs/PROVED.md says under \"In short\" \"{sentence}\", and no page has it as its sentence"
        for sentence, page in said.items():
            if rows.get(sentence) != page.of[0]:
                yield f"docs/PROVED.md has no row \"{sentence}\" with `{page.of[0]}` under \"In short\""
        for _, name, *lines in LENGTHS.findall(proved):
            if not (page := self.page_of(name)):
                yield f"docs/PROVED.md says how long the page of `{name}` is, and there is none"
            elif lines != (wanted := [f"{it:,}" for it in self.lengths_of(page)]):
                yield f"docs/PROVED.md says {', '.join(lines)} lines of `{name}`: {', '.join(wanted)}"

    def edits_in(self, folder):
        """Returns the must-fail edits in such folders, by their crates and names."""
        paths = [it.split("/") for it in glob.glob(f"{self.repository.top}/crates/*/{folder}/*.edit")]
        return {f"{path[-3]}/{path[-1].removesuffix('.edit')}" for path in paths}

    def faults_of_counts(self, proved):
        """Yields numbers in docs/PROVED.md that aren't those of the sources."""
        edits = self.edits_in("must-fail")
        counts = {
            r"each of (\S+) mistakes in the code": len(edits),
            r"in the code of (\S+) crates": len({it.partition("/")[0] for it in edits}),
            r"`tools/edits` tries (\S+) others": len(self.edits_in("more-must-fail")),
        }
        if self.repository.kit:
            kit_lines = lambda name: sum(it.size for it in self.closure_of(self.page_of(name)).kit_definitions)
            counts[r"(\d+) lines for JSON"] = kit_lines("reading")
            counts[r"(\d+) for a command line"] = kit_lines("lspsync::AreWordsReadAs")
        for pattern, count in counts.items():
            if re.findall(pattern, " ".join(proved.split())) != [f"{count:,}"]:
                yield f"docs/PROVED.md doesn't have the number {count:,} in \"{pattern}\""

    def faults_of_edits(self):
        """Yields edits of the gate for which no clause is named, and rows that name what isn't there."""
        edits = self.edits_in("must-fail")
        yield from (f"tools/pages.ini: [edits] has no row for {it}" for it in sorted(edits - self.edits.keys()))
        for it in sorted(self.edits.keys() - edits):
            yield f"tools/pages.ini: [edits] names {it}, and the gate tries no such edit"
        for edit, clause in self.edits.items():
            try:
                clause.startswith(REQUIRES) or target_named(self.repository, clause)
            except Unknown as fault:
                yield f"tools/pages.ini: [edits] {edit}: {fault}"

    def faults_of(self, page):
        closure = self.closure_of(page)
        if closure.size > page.most:
            yield f"the page \"{page.title}\" has {closure.size} lines, and its row says at most {page.most}"
        for it in closure.named if self.repository.kit else ():
            if not self.repository.is_found(it):
                yield f"the page \"{page.title}\" names `{it.name}`, which is found nowhere"
        for name in page.given:
            if name not in closure.given:
                yield f"the page \"{page.title}\" doesn't need `{name}`, which its row gives"
            elif name not in self.tokens and not self.teller_of(name, page):
                yield f"the page \"{page.title}\" gives `{name}`, which is on no page and is no token"

    def faults_of_users(self):
        inside = {}
        for call in self.user_calls():
            for clause in call.ensures():
                closure = Closure(self.repository, [Target(call, [clause])], self.tokens)
                if reached := sorted({it.name for it in closure.definitions if it.is_inside}):
                    inside[".".join(filter(None, (call.path(), clause.label)))] = ", ".join(reached)
        for clause, names in inside.items():
            if clause not in self.known:
                yield f"the clause {clause} reaches specs/inside/: {names}"
        for clause in self.known:
            if clause not in inside:
                yield f"tools/pages.ini: the clause {clause} is listed under [inside], and reaches nothing there"
