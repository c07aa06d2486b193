"""letter WHOSE LINES [read]: what one inserted letter costs in Python, in nanoseconds of the processor: the least of many short rounds.
WHOSE is laspidru, or pylsp: the Document of Debian's package python3-pylsp. With `read` the text is read after each letter."""
import os
import sys
import time

LINE = "    let answer = question.map(|x| x+1);\n"


def opened(whose, text):
    if whose == "pylsp":
        from types import SimpleNamespace
        from pylsp.workspace import Document
        return Document("file:///a", SimpleNamespace(_config=None, root_path="/", root_uri="file:///"), source=text, version=1)
    sys.path.insert(0, os.path.join(os.path.dirname(os.path.abspath(__file__)), "../../bindings/python"))
    from laspidru import TextDocument
    return TextDocument("file:///a", text, version=1)


def timed(whose, lines, count, is_read):
    document = opened(whose, LINE * lines)
    start = time.process_time_ns()
    for number in range(count):
        at = {"line": number * 7919 % lines, "character": 8}
        document.apply_change({"range": {"start": at, "end": at}, "text": "x"})
        if is_read:
            len(document.source)
    return (time.process_time_ns() - start) / count


def main():
    whose, lines, is_read = sys.argv[1], int(sys.argv[2]), sys.argv[3:] == ["read"]
    count, rounds = (200, 60) if whose == "laspidru" else (20, 5)
    print(f"{min(timed(whose, lines, count, is_read) for _ in range(rounds)):.0f}")


main()
