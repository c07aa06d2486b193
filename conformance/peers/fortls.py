"""fortran-language-server: its file's apply_change, called as its handler of didChange does. It reads what is
opened from the disk, and keeps lines without their ends."""
import re
import tempfile

from peers.wire import output_of

VERSION = output_of("dpkg-query", "-W", "-f", "${Version}", "fortran-language-server")
TITLE = "fortls " + re.match(r"[\d.]+", VERSION).group()
FILES = ["vectors.jsonl"]
LINE_ENDS_ARE_LF = True


def answers(vectors):
    try:
        from fortls.parsers.internal.parser import FortranFile
    except ImportError:  # before 3
        from fortls.parse_fortran import FortranFile
    with tempfile.TemporaryDirectory() as room:
        for vector in vectors:
            if vector["encoding"] != "utf-16":
                yield None
                continue
            with open(f"{room}/a.f90", "w", encoding="utf-8", newline="") as text:
                text.write(vector["text"])
            file = FortranFile(f"{room}/a.f90")
            try:
                file.load_from_disk()
                for change in vector["changes"]:
                    file.apply_change(change)
            except Exception as fault:  # its dispatcher reports it, and the server goes on
                yield {"refused": repr(fault)}
                continue
            yield {"text": "\n".join(file.contents_split)}
