"""The test of the extension of the binding for Python: what it reads is what ctypes reads, and it leaves the rest to that. The other tests
run with it too."""
import types
import unittest
from unittest import mock

from laspidru import _library

AT = {"line": 1, "character": 2}
RANGE = {"start": AT, "end": {"line": 4294967295, "character": 0}}


def thing(value):
    """The same value with members in place of keys."""
    return types.SimpleNamespace(**{key: thing(it) for key, it in value.items()}) if isinstance(value, dict) else value


class Odd(dict):
    """A dictionary that has its own say on what is in it."""

    def __getitem__(self, key):
        return "odd" if key == "text" else super().__getitem__(key)


PLAIN = [
    [{"text": ""}],
    [{"text": "a\u00e9\u20ac\U0001F600", "range": None}],
    [{"range": RANGE, "text": "x", "rangeLength": 3}],
    [{"range": RANGE, "text": str(number)} for number in range(40)],
    [thing({"range": RANGE, "text": "x"})],
    [{"range": thing(RANGE), "text": "x"}],
    [{"range": {"start": {"line": True, "character": False}, "end": AT}, "text": "x"}],
]
NOT_PLAIN = [
    [],
    ({"text": "a"},),
    [{"text": "\ud800"}],
    [{"text": b"a"}],
    [{"newText": "a", "range": RANGE}],
    [{"range": RANGE}],
    [{"range": {"start": AT}, "text": "a"}],
    [{"range": {"start": {"line": -1, "character": 0}, "end": AT}, "text": "a"}],
    [{"range": {"start": {"line": 4294967296, "character": 0}, "end": AT}, "text": "a"}],
    [{"range": {"start": {"line": 1 << 70, "character": 0}, "end": AT}, "text": "a"}],
    [{"range": {"start": {"line": 1.0, "character": 0}, "end": AT}, "text": "a"}],
    [{"text": "a"}, 7],
    [types.SimpleNamespace(text="a")],
    [Odd(text="a")],
    None,
]


@unittest.skipIf(_library.FAST is None, "the extension isn't built")
class ExtensionTest(unittest.TestCase):
    def test_what_is_plain_is_read_as_ctypes_reads_it(self):
        for changes in PLAIN:
            with self.subTest(changes=changes):
                edits, texts = _library.FAST.read(changes)
                with mock.patch.object(_library, "FAST", None):
                    wanted, count, wanted_texts = _library.batch(changes)
                found = (_library.Edit * count).from_buffer_copy(edits)
                members = lambda it: (it.start.line, it.start.character, it.end.line, it.end.character, it.len, it.is_whole)
                self.assertEqual(([members(it) for it in found], texts), ([members(it) for it in wanted], wanted_texts))

    def test_what_is_not_plain_is_left_to_ctypes(self):
        for changes in NOT_PLAIN:
            with self.subTest(changes=changes):
                self.assertIsNone(_library.FAST.read(changes))

    def test_a_list_that_shrinks_while_it_is_read(self):
        changes = []

        class Shrinks:
            range = None

            @property
            def text(self):
                changes.clear()
                return "a"

        changes[:] = [Shrinks(), Shrinks()]
        self.assertIsNone(_library.FAST.read(changes))

    def test_wrong_arguments(self):
        for arguments in ((), (1,), (1, 16, b"", "text"), ("1", 16, b"", b"")):
            with self.assertRaises(TypeError):
                _library.FAST.change(*arguments)
        with self.assertRaises(TypeError):
            _library.FAST.bind("address")


if __name__ == "__main__":
    unittest.main()
