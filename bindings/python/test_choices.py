"""Random cases that shrink: each is made of bytes, and Hypothesis lowers those of one that fails.

It doesn't make them: of texts that it draws itself two thirds are empty, and each case takes it ten times as long."""
import contextlib
import random

try:
    import hypothesis
    from hypothesis import strategies
except ImportError:
    hypothesis = None


class Choices:
    """Choices by bytes, one or two for each. A byte of 0 chooses what is simplest, and so does the end."""

    def __init__(self, data):
        self.data, self.used = data, 0

    def byte(self):
        self.used += 1
        return self.data[self.used - 1] if self.used <= len(self.data) else 0

    def below(self, count):
        """A number below COUNT, which is up to 65,536."""
        first = self.byte()
        return first * count >> 8 if count <= 256 else (first << 8 | self.byte()) * count >> 16

    def of(self, options):
        """One of OPTIONS; the first is the simplest."""
        return options[self.below(len(options))]

    def is_one_in(self, count):
        """Whether it's one of COUNT cases, the one that isn't simple."""
        return self.below(count) == count - 1

    def text(self, letters, most):
        """A text of fewer than MOST of LETTERS. Each shrinks to none by itself."""
        return "".join(self.of(("", *letters)) for _ in range(self.below(most)))


def choices_of(parts):
    return [Choices(part) for part in parts]


def random_parts(count, sizes, seed):
    """Yields what COUNT cases are made of: parts of SIZES bytes."""
    chance = random.Random(seed)
    for _ in range(count):
        yield [chance.randbytes(size) for size in sizes]


def shrunk(parts, make, fails):
    """Returns the smallest case like one that fails, as MAKE makes it of the choices of its parts; without Hypothesis that one."""
    choices = choices_of(parts)
    smallest = make(choices)
    if hypothesis is None:
        print("(not shrunk: no hypothesis; on Debian: apt-get install python3-hypothesis)")
        return smallest
    used = [it.data[:it.used] for it in choices]
    # What is drawn is mostly over 255, and then a byte stays as it is: so the first draws are the case.
    draw = strategies.integers(0, 2**24 - 1)

    @hypothesis.settings(database=None, deadline=None, derandomize=True, verbosity=hypothesis.Verbosity.quiet, print_blob=False,
                         suppress_health_check=list(hypothesis.HealthCheck), phases=(hypothesis.Phase.generate, hypothesis.Phase.shrink))
    @hypothesis.given(strategies.tuples(*(strategies.tuples(*[draw] * len(part)) for part in used)))
    def lower(draws):
        nonlocal smallest
        case = make([Choices(bytes(map(min, *pair))) for pair in zip(used, draws)])
        if fails(case):
            smallest = case
            raise AssertionError

    with contextlib.suppress(AssertionError):
        lower()
    return smallest


def smallest_of(count, sizes, make, differing, seed=1):
    """Returns the smallest case like the first of COUNT random ones that differs, or None. DIFFERING returns the numbers of those."""
    found = differing(make(choices_of(parts)) for parts in random_parts(count, sizes, seed))
    if not found:
        return None
    *_, parts = random_parts(found[0] + 1, sizes, seed)
    return shrunk(parts, make, lambda case: bool(differing([case])))
