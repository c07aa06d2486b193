"""What a check says of functions: which it refuses by themselves, and why."""
import re

REFUSED, PROVED, UNFIT, UNKNOWN = OUTCOMES = "refused", "proved", "not applied or not compiled", "not judged"
LINE = re.compile(r"(?m)^fn (.+?): (.*)$")
FAILS = re.compile(r"not proved|no proof")
# Where a function isn't proved since another one isn't
THROUGH = re.compile(r"it calls|it passes|a call of|which (?:is|are) not proved|a type that is not proved")
LIMIT = re.compile(r"antt ran out of|outgrew the memory limit|stopped at the step limit")
LOST_NAME = re.compile(r"has no field|is not in scope|has no `|was not admitted")


class Verdicts:
    """The lines of a check of some functions."""

    def __init__(self, output):
        self.output, self.lines = output, dict(LINE.findall(output))
        self.has_ended = re.search(r"(?m)^only=", output) is not None
        self.at_fault = {(path, int(line) - 1) for path, line in re.findall(r"(?m)^(?:\./)?(src/\S+\.rt):(\d+):\d+: error", output)}

    def refuses(self, name):
        """Returns whether a function isn't proved by itself: if it calls one that isn't, a goal of its own has to be open."""
        line = self.lines.get(name, "")
        return FAILS.match(line) is not None and (THROUGH.search(line) is None or self.goals(name) != [])

    def goals(self, name):
        """Returns what the check says of a function's own goals: those that are open, right above its line, and those whose proof fails."""
        above = re.split(r"(?m)^(?:fn|struct|enum|impl) .*$", self.output.partition(f"\nfn {name}: ")[0])[-1]
        # (what the function's own clauses ask comes first: what a call in the new body requires says nothing of them)
        found = re.findall(r"(?m)^note: (src/\S+: it is not proved that .*)$", above)
        return sorted(found, key=lambda it: "requires holds at this call" in it) + [it for it in self.own(name) if not LOST_NAME.search(it)]

    def own(self, name):
        """Returns the errors in a function's proof files."""
        return re.findall(rf"(?m)^\./proofs/{'/'.join(name.split('::')[1:])}/\S+: error: (.*)$", self.output)

    def why(self, name):
        """Returns why a function isn't proved, and says where that shows little: its proof only names what the edit took away."""
        goals, own = self.goals(name), self.own(name)
        return goals[0] if goals else f"only since its proof names what the edit took away: {own[0]}" if own else self.lines[name]


def outcome_of(status, output):
    """Returns what the check of a crate with one edit comes to, and why."""
    if not status:
        return PROVED, "the crate is still proved with it"
    lines = re.findall(r"(?m)^(?:note: src/.*: it is not proved .*|\./\S+:\d+:\d+: error.*|src/\S+: error.*|error.*|fn .*: (?!proved).*)$", output)
    why = next((it for it in lines if not LOST_NAME.search(it)), (lines or [output.strip().rpartition("\n")[2]])[0])
    if status == 1 and re.search(r"(?m)^logic=not-proved", output) or status == 3 and LIMIT.search(output):
        return REFUSED, why
    return UNFIT if re.search(r"error\[", output) else UNKNOWN, why
