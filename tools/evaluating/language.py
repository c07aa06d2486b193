"""The language of definitions: a term becomes an expression of Python, and the patterns of an equation lines before it."""
import collections
import itertools
import re

from .library import FUNCTIONS
from .values import CannotRun, codes_of

TOKEN = re.compile(r'(?P<text>"(?:\\.|[^"\\])*")|(?P<comment>--(?=\s|$).*)|(?P<sign>\[\]|[(){}\[\];,])|(?P<word>[^\s(){}\[\];,"]+)')
ESCAPES = {"n": "\n", "r": "\r", "t": "\t", "0": "\0"}
# How strongly an operator binds, how much more the term after it has to, and what it is in Python
OPERATORS = {
    "→": (1, 0, "(not {} or {})"), "⊎": (2, 0, "({} or {})"), "×": (3, 0, "({} and {})"), "||": (5, 0, "({} or {})"),
    "&&": (6, 0, "({} and {})"), "≡": (7, 1, "equal({}, {})"), "≢": (7, 1, "(not equal({}, {}))"), "==": (7, 1, "({} == {})"),
    "<": (7, 1, "({} < {})"), "≤": (7, 1, "({} <= {})"), "∷": (8, 0, "({1}).after({0})"), "++": (8, 0, "joined({}, {})"),
    "+": (9, 1, "({} + {})"), "-": (9, 1, "max(0, {} - {})"), "-ℤ": (9, 1, "({} - {})"), "*": (10, 1, "({} * {})"),
    "/": (10, 1, "({} // {})"), "%": (10, 1, "({} % {})"), "^": (11, 0, "({} ** {})"),
}
ENDS = {"", ")", "}", ";", ",", "then", "else", "in", "=", ".", ":", "←"}
PLAIN = {"true": "True", "false": "False", "[]": "EMPTY", "zero": "0", "tt": "case('tt')", "Unit": "True", "⊤": "True", "⊥": "False"}
# How a value is tested for a constructor, and what its argument is
TESTS = {
    "true": ("{} is True", None), "false": ("{} is False", None), "[]": ("{0}.high == {0}.low", None), "zero": ("{} == 0", None),
    "suc": ("{} > 0", "{} - 1"), "pos": ("{} >= 0", "{}"), "negsuc": ("{} < 0", "-{} - 1"),
}
# A clause, or a branch of `if`, of a definition: something that a run reaches, or not
Row = collections.namedtuple("Row", "definition kind line")


class Token(str):
    """A word, a sign or a text: its kind, its line and column, whether the line begins with it, and whether it touches the one before."""
    kind, line, column, is_first, touches = "end", 0, 0, False, False

    @staticmethod
    def at(text, **place):
        found = Token(text)
        vars(found).update(place)
        return found


def tokens_of(rows):
    """The tokens of numbered lines. The dot that ends a word is one of its own."""
    tokens = []
    for number, row in rows:
        end, is_first = 0, True
        for match in TOKEN.finditer(row):
            word, column = match[0], match.start()
            has_dot = match.lastgroup == "word" and len(word) > 1 and word[-1] == "."
            for part in () if match.lastgroup == "comment" else (word[:-1], ".") if has_dot else (word,):
                tokens.append(Token.at(part, kind=match.lastgroup, line=number, column=column, is_first=is_first, touches=column == end))
                is_first = False
            end = match.end()
    return tokens


def equations_of(definition):
    """The equations of a definition, each as the tokens on both sides of `=`. A record holds, as a relation, where all its fields do."""
    if definition.kind == "record":
        head, *fields = re.split(r"\n  pub \S+ :", "\n".join(definition.counted))
        names = " ".join(re.findall(r"[({]([^(){}:]+) :", head))
        right = " × ".join(f"({it})" for it in fields).replace("\n", " ")
        return [(tokens_of([(definition.line, names)]), tokens_of([(definition.line, right)]))]
    rows, found = list(zip(definition.numbers, definition.counted)), []
    for token in tokens_of(itertools.takewhile(lambda it: not it[1].startswith("module "), rows[1:])):
        if token.is_first and token.column == 0 and token != "}":
            found.append([])
        if found:
            found[-1].append(token)
    name, ends = definition.name.strip("◌"), [it.index("=") for it in found]
    return [([it for it in tokens[:at] if it != name], tokens[at + 1:]) for tokens, at in zip(found, ends)]


class Translation:
    """What tokens of a file or of the command line are in Python. `scope` has the names that are bound, each with Python's name for it."""

    def __init__(self, definitions, module, definition=None, scope=()):
        self.definitions, self.module, self.definition, self.scope = definitions, module, definition, dict(scope)
        self.fresh = map("v{}".format, itertools.count()).__next__
        self.column = -1  # that of the lines of a `do`

    # ---- tokens

    def read(self, tokens):
        self.tokens, self.index = [*tokens, Token()], 0

    @property
    def seen(self):
        return self.tokens[self.index]

    def next(self, wanted=None):
        found = self.seen
        if not found or wanted and wanted != found:
            raise CannotRun(f"{wanted or 'something'} is missing {f'before {found}' if found else 'at the end'}")
        self.index += 1
        return found

    def pass_to(self, sign):
        """Passes over a type, and a sign after it that is in none of its brackets."""
        depth = 0
        while depth or self.seen != sign:
            word = self.next()
            depth += (word in ("(", "{")) - (word in (")", "}"))
        self.next()

    def whole(self, tokens):
        self.read(tokens)
        found = self.term()
        if self.seen:
            raise CannotRun(f"{self.seen} can't come there")
        return found

    # ---- terms

    def term(self, least=0):
        left = self.application()
        while OPERATORS.get(self.seen, (-1,))[0] >= least:
            strength, more, form = OPERATORS[self.next()]
            left = form.format(left, self.term(strength + more))
        return left

    def application(self):
        forms = {"λ": self.function, "let": self.let, "if": self.branch, "do": self.steps}
        if self.seen in forms:
            return forms[self.seen](self.next())
        is_name = self.seen.kind == "word" and self.seen != "record" and not self.seen[0].isdigit()
        head, args = self.head(self.next()) if is_name else self.atom(), []
        while self.seen not in ENDS and self.seen not in OPERATORS and not (self.seen.is_first and self.seen.column == self.column):
            if self.seen == "{":
                self.pass_to("}")
            else:
                args.append(self.atom())
        return head(args) if callable(head) else f"apply({', '.join([head, *args])})" if args else head

    def function(self, _):
        names = []
        while self.seen != ".":
            has_type = self.seen == "("
            self.index += has_type
            names.append(self.next())
            if has_type:
                self.pass_to(")")
        self.next()
        locals_ = [self.fresh() for _ in names]
        return f"Function({len(names)}, lambda {', '.join(locals_)}: {self.within(dict(zip(names, locals_)), self.term)})"

    def let(self, _):
        name, local = self.next(), self.fresh()
        self.pass_to("=")
        value = self.term()
        self.next("in")
        return f"(lambda {local}: {self.within({name: local}, self.term)})({value})"

    def branch(self, word):
        test = self.term()
        self.next("then")
        first = f"{self.row('then', word.line)} or {self.term()}"
        self.next("else")
        return f"(({first}) if {test} else ({self.row('else', word.line)} or {self.term()}))"

    def steps(self, _):
        """`do`: each line names what was found, and the last one is the result."""
        before, self.column = self.column, self.seen.column
        found = self.step()
        self.column = before
        return found

    def step(self):
        if self.tokens[self.index + 1] != "←":
            return self.term()
        name, _, local = self.next(), self.next("←"), self.fresh()
        found = self.term()
        after = self.within({name: local}, self.step)
        return self.head(Token("◌>>=◌"))([found, f"Function(1, lambda {local}: {after})"])

    def within(self, names, read):
        before = self.scope
        self.scope = {**before, **names}
        found = read()
        self.scope = before
        return found

    def atom(self):
        found = self.plain_atom()
        while self.seen.touches and self.seen[:1] == "." and len(self.seen) > 1:
            found += self.fields(self.next()[1:].split("."))
        return found

    def plain_atom(self):
        word = self.next()
        if word.kind == "text":
            return self.definitions.constant(codes_of(re.sub(r"\\(.)", lambda it: ESCAPES.get(it[1], it[1]), word[1:-1])))
        if word == "record":
            return self.record()
        if word == "(":
            if next(it for it in self.tokens[self.index:] if it in ENDS or it in OPERATORS or it in ("(", "{")) == ":":
                raise CannotRun(f"a quantifier in line {word.line}")
            parts = [self.term()]
            while self.seen == ",":
                self.next()
                parts.append(self.term())
            self.next(")")
            return f"({', '.join(parts)})"
        if word[0].isdigit():
            return str(int(word.replace("_", ""), 0))
        head = self.head(word)
        return head([]) if callable(head) else head

    def record(self):
        base = "" if self.seen == "{" else f"{self.atom()}.changed"
        self.next("{")
        fields = []
        while self.seen != "}":
            name = self.next()
            self.next("=")
            fields.append(f"x_{name}={self.term()}")
            self.index += self.seen == ";"
        self.next()
        return f"{base or 'Record'}({', '.join(fields)})"

    # ---- names

    @staticmethod
    def fields(names):
        return "".join(f"[{it}]" if it.isdigit() else f".x_{it}" for it in names)

    def row(self, kind, line):
        self.definitions.rows.append(Row(self.definition, kind, line))
        return f"reach({len(self.definitions.rows) - 1})"

    def meaning(self, word):
        """What a dotted name begins with: its kind, what it is, and the fields that follow."""
        first, *rest = parts = word.replace("::", ".").split(".")
        if self.module is None:
            found = [(self.definitions.named("::".join(parts[:count])), parts[count:]) for count in range(len(parts), 0, -1)]
            found, rest = next((it for it in found if it[0]), (None, rest))
        else:
            found = self.definitions.meaning(self.module, first)
            if found is None and rest and first in self.module.scope.modules:
                found, rest = self.definitions.imported(self.module.scope.modules[first], rest[0]), rest[1:]
        if found is None:
            raise CannotRun(f"{word}: no definition has this name")
        return (*found, rest)

    def called(self, kind, meant):
        if kind == "definition":
            self.definitions.callers[meant].add(self.definition)
            return self.definitions.arity(meant), self.definitions.name(meant)
        if meant not in FUNCTIONS:
            raise CannotRun(f"{meant} of the kit's library isn't written anew")
        return FUNCTIONS[meant][0], f"lib_{meant}"

    def head(self, word):
        """What a name is: an expression, or what makes one of the arguments that follow it."""
        first, *rest = word.split(".")
        if first in self.scope:
            return self.scope[first] + self.fields(rest)
        if word in PLAIN:
            return PLAIN[word]
        kind, meant, rest = self.meaning(word)
        if kind == "constructor" and meant not in FUNCTIONS:
            return PLAIN.get(meant) or (lambda args: f"Case({meant!r}, ({', '.join(args)},))" if args else f"case({meant!r})")
        if kind == "type":
            raise CannotRun(f"{word} is a type, in line {word.line}")
        arity, name = self.called(kind, meant)
        return f"{name}(){self.fields(rest)}" if rest else lambda args: self.call(arity, name, args)

    @staticmethod
    def call(arity, name, args):
        if len(args) < arity:
            return f"Function({arity}, late({name!r}), ({''.join(f'{it}, ' for it in args)}))"
        call = f"{name}({', '.join(args[:arity])})"
        return f"apply({', '.join([call, *args[arity:]])})" if args[arity:] else call

    # ---- patterns: lines of Python, which are tests, and names for parts of a value

    def patterns(self, tokens):
        """Returns the lines for each pattern of an equation: the first is of `a0`, the next of `a1`, and so on."""
        self.read(tokens)
        found = []
        while self.seen:
            found.append(self.pattern_atom(f"a{len(found)}"))
        return found

    def pattern(self, value):
        """A pattern in parentheses: a constructor with its parts, or a first entry and a rest."""
        first = self.fresh()
        lines = self.pattern_atom(first, True)
        if self.seen != "∷":
            return [f"{first} = {value}", *lines]
        self.next()
        rest = self.fresh()
        return [f"if {value}.high > {value}.low:", f"{first} = {value}.entries[{value}.high - 1]", *lines,
                f"{rest} = List({value}.entries, {value}.low, {value}.high - 1)", *self.pattern(rest)]

    def pattern_atom(self, value, has_parts=False):
        """A name, a constructor, or patterns in parentheses."""
        word = self.next()
        if tag := self.tag_of(word):
            test, argument = TESTS.get(tag, (f"{{}}.tag == {tag!r}", "{}.args[{}]"))
            lines, at = [f"if {test.format(value)}:"], 0
            while has_parts and self.seen not in ("", ")", ",", "∷"):
                local = self.fresh()
                lines += [f"{local} = {argument.format(value, at)}", *self.pattern_atom(local)]
                at += 1
            return lines
        if word != "(":
            self.scope[word] = value
            return []
        names, lines = [], []
        while not names or self.next() == ",":
            names.append(self.fresh())
            lines += self.pattern(names[-1])
        return [f"{', '.join(names)} = {value}", *lines]

    def tag_of(self, word):
        """The constructor that a word names, if it does."""
        try:
            kind, meant, _ = ("constructor", word, []) if word in PLAIN else self.meaning(word)
        except CannotRun:
            return None
        return meant if kind == "constructor" else None
