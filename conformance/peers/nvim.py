"""Neovim: vim.lsp.util.apply_text_edits on a buffer, of a message's changes one at a time, of text edits the whole list.

A text with CRLFs alone, or CRs alone, is a buffer of that 'fileformat', as when Neovim reads such a file. Whole texts are no text edits,
and a NUL is a line end in Neovim's strings: neither is asked."""
import json
import os
import subprocess
import tempfile

from peers.buffers import line_end_of, steps_of
from peers.wire import output_of

HERE = os.path.dirname(os.path.abspath(__file__))
TITLE = "Neovim " + output_of("nvim", "--version").split("\n")[0].removeprefix("NVIM v")
FILES = ["vectors.jsonl", "edits.jsonl"]
LINE_ENDS_ARE_LF = FINAL_LINE_END_IS_APART = True


def asked(vector):
    edits = [edit for step in steps_of(vector) for edit in step]
    return all(edit["range"] for edit in edits) and "\0" not in vector["text"] + "".join(edit["newText"] for edit in edits)


def answers(vectors):
    vectors = list(vectors)
    with tempfile.TemporaryDirectory() as room:
        with open(f"{room}/asked", "w", encoding="utf-8") as file:
            for vector in filter(asked, vectors):
                end = line_end_of(vector["text"])
                lines = vector["text"].split(end)
                print(json.dumps({"lines": lines[:-1] if lines[-1] == "" and len(lines) > 1 else lines, "ended": lines[-1] == "" and len(lines) > 1,
                                  "encoding": vector["encoding"], "end": end, "steps": steps_of(vector)}), file=file)
        subprocess.run(["nvim", "--headless", "-n", "-i", "NONE", "-u", f"{HERE}/nvim.lua"], env={**os.environ, "ASKED": f"{room}/asked", "ANSWERS": f"{room}/answers"},
                       stdin=subprocess.DEVNULL, stdout=subprocess.DEVNULL, stderr=subprocess.DEVNULL, timeout=300, check=True)
        with open(f"{room}/answers", encoding="utf-8", errors="surrogateescape", newline="\n") as file:
            found = map(json.loads, file.read().split("\n")[:-1])
    for vector in vectors:
        yield next(found) if asked(vector) else None
