"""ropey with positions as Helix reads them, by a program that is built here of Debian's crates."""
import json
import os
import shutil
import subprocess
import tempfile

HERE = os.path.dirname(os.path.abspath(__file__))
REGISTRY = "/usr/share/cargo/registry"
TITLE = "ropey " + next(it for it in os.listdir(REGISTRY) if it.startswith("ropey-")).split("-")[1]
FILES = ["vectors.jsonl", "edits.jsonl"]
CONFIG = ["--config", "source.crates-io.replace-with='debian'", "--config", f"source.debian.directory='{REGISTRY}'"]


def answers(vectors):
    with tempfile.TemporaryDirectory() as room:
        shutil.copytree(f"{HERE}/ropey", f"{room}/ropey")
        asked = "".join(json.dumps(vector) + "\n" for vector in vectors)
        done = subprocess.run(["cargo", "run", "--quiet", "--offline", *CONFIG], cwd=f"{room}/ropey", input=asked.encode(),
                              env={**os.environ, "CARGO_TARGET_DIR": f"{room}/target"}, stdout=subprocess.PIPE, timeout=300, check=True)
    return map(json.loads, done.stdout.decode().split("\n")[:-1])
