"""Tokens: definitions that a caller need not open, as one call gives them and the others keep them."""
import re

from .antt import NAME

POSITIVE = re.compile(rf"(?:IfOk|OnOk|IfErr|OnErr|IfSome|OnSome) (?:{NAME}(?:\.{NAME})*|\([^()]*\)) \($")
BEFORE = re.compile(r"(?:^|→|×|\(|\.)\s*$")
BINDER = re.compile(rf"\(\s*(?:{NAME} )+: $")


def opening_of(text, at):
    """Returns where the parenthesis before a place opens that is still open there, or -1."""
    depth = 0
    for index in range(at - 1, -1, -1):
        depth += (text[index] == ")") - (text[index] == "(")
        if depth < 0:
            return index
    return -1


def closing_of(text, at):
    depth = 0
    for index in range(at, len(text)):
        depth += (text[index] == "(") - (text[index] == ")")
        if depth < 0:
            return index
    return len(text)


def at_level(text):
    """Returns a text without what is in its parentheses."""
    while "(" in text and (flat := re.sub(r"\([^()]*\)", "", text)) != text:
        text = flat
    return text


def use_at(text, start):
    """Says whether a token at this place of a clause is a "premise", a "conclusion", or used in another way (None)."""
    if not BEFORE.search(text[:start]) and not BINDER.search(text[opening_of(text, start):start]):
        return None
    use = "conclusion"
    while True:
        opening, end = opening_of(text, start), closing_of(text, start)
        before, after = at_level(text[opening + 1:start]), at_level(text[start:end])
        if re.search(r"[¬⊎↔]", before + after) or "→" in after and use == "premise":
            return None
        use = "premise" if "→" in after else use
        if opening < 0:
            return use
        if BINDER.search(text[opening:start]):
            # (the name of a premise: what follows the parenthesis is what it is a premise of)
            if use == "premise" or not at_level(text[end + 1:closing_of(text, end + 1)]).strip().startswith("→"):
                return None
            use = "premise"
            end = closing_of(text, end + 1)
            opening = opening_of(text, opening)
            if opening < 0:
                return use
        if not (POSITIVE.search(text[:opening + 1]) or BEFORE.search(text[:opening])):
            return None
        start = opening


class Token:
    """A token of values of a type, and the public clauses that give it or keep it."""

    def __init__(self, repository, name, subject):
        self.name, self.subject, self.given_by, self.kept_by, self.faults = name, subject, [], [], []
        self.read_clauses(repository)
        self.read_definitions(repository)

    def read_clauses(self, repository):
        name, subject = self.name, self.subject
        word = re.compile(rf"(?<![\w.']){name}(?![\w'])")
        for function in repository.functions:
            if not function.is_call:
                continue
            uses = []
            for clause in function.clauses:
                text = clause.body()
                here = [use_at(text, it.start()) for it in word.finditer(text)]
                if None in here:
                    self.faults.append(f"{function.path()}.{clause.label} uses the token {name} neither as a premise nor as a conclusion")
                if "conclusion" in here:
                    (self.kept_by if "premise" in here else self.given_by).append((function, clause.label))
                uses += here
            if self.can_change(function) and "conclusion" not in uses:
                self.faults.append(f"{function.path()} can make or change a {subject}, and doesn't conclude the token {name}")
        if not self.given_by:
            self.faults.append(f"no clause concludes the token {name} without assuming it")

    def read_definitions(self, repository):
        name = self.name
        for module in repository.modules.values():
            for one in module.definitions.values():
                if one.name != name and not (one.is_inside or one.is_law) and any(it.name == name for it, _ in repository.spoken_of(one)):
                    self.faults.append(f"the definition {one.path()} names the token {name}")

    def can_change(self, function):
        """Says whether a call returns a value of the token's type, or may change one."""
        text = " ".join(function.signature)
        types = function.parameters()
        if re.search(rf"\b(?<!&){self.subject}\b", types["result"]) and not re.search(rf"&(?:mut )?(?:'\w+ )?{self.subject}\b", types["result"]):
            return True
        return function.owner == self.subject and "&mut self" in text or bool(re.search(rf"&mut {self.subject}\b", text))

    def reported(self):
        given = ", ".join(f"`{it.short()}` ({label})" for it, label in self.given_by)
        kept = ", ".join(f"`{it.short()}` ({label})" for it, label in self.kept_by)
        return f"a token: given by {given}, kept by {kept}; whatever it means, each {self.subject} that you can make has it"
