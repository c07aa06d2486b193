"""Emacs' eglot: eglot--apply-text-edits on a buffer, of a message's changes one at a time, of text edits the whole list. UTF-16 alone.

A text with CRLFs alone, or CRs alone, has newlines in its buffer, as when Emacs reads such a file. Whole texts aren't asked. A case that
takes 8 seconds hangs: Emacs is ended, and started again for the next one."""
import json
import os
import queue
import subprocess
import threading

from peers.buffers import line_end_of, steps_of
from peers.wire import output_of

HERE = os.path.dirname(os.path.abspath(__file__))
COMMAND = ["emacs", "--batch", "-Q", "-l", f"{HERE}/eglot.el"]
TITLE = output_of(*COMMAND, "-f", "print-title")
FILES = ["vectors.jsonl", "edits.jsonl"]
LINE_ENDS_ARE_LF = FINAL_LINE_END_IS_APART = True


def asked(vector):
    return vector["encoding"] == "utf-16" and all(edit["range"] for step in steps_of(vector) for edit in step)


class Emacs:
    def __init__(self):
        ends = {"stdin": subprocess.PIPE, "stdout": subprocess.PIPE, "stderr": subprocess.DEVNULL}
        self.process = subprocess.Popen([*COMMAND, "-f", "answer-lines"], **ends)
        self.lines = queue.Queue()
        threading.Thread(target=lambda: [self.lines.put(line) for line in self.process.stdout], daemon=True).start()

    def ask(self, case):
        self.process.stdin.write(json.dumps(case).encode() + b"\n")
        self.process.stdin.flush()
        return json.loads(self.lines.get(timeout=8))


def answers(vectors):
    emacs = Emacs()
    for vector in vectors:
        if not asked(vector):
            yield None
            continue
        end = line_end_of(vector["text"])
        try:
            got = emacs.ask({"text": vector["text"].replace(end, "\n"), "steps": steps_of(vector)})
        except queue.Empty:
            emacs.process.kill()
            emacs.process.wait()
            emacs, got = Emacs(), {"hang": "no answer in 8 seconds"}
        yield got
    emacs.process.stdin.close()
    emacs.process.wait()
