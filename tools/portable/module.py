"""Has a crate proved and built for 64-bit ARM on Linux, and keeps the LLVM modules that the kit makes of it on the way.

What it calls is what `rt lib` and `rt run` call, but for the target, and for --toolchain: a folder of links to the kit's, whose bin/clang keeps
what it is given before it compiles that. A proof is the same for each target, so what `rt lib` and `rt run` kept of the crate is taken, and
they take what is kept here. Of a crate there are then, in the folder `modules` of the builds:

    CRATE.bc     the module before LLVM's optimisations, from which all targets but ARM's are made
    CRATE.ll     the module after them, and after the kit's own mending of it, for 64-bit ARM
    CRATE.a      the kit's own archive of a library for 64-bit ARM on Linux, or object file of a program
    CRATE.sum    what these were made of, so that nothing is done again while that is the same"""
import contextlib
import functools
import hashlib
import os
import re
import shutil
import subprocess
import sys
import tempfile
from importlib.machinery import SourceFileLoader

from portable.retarget import SOURCE

KEEPING = """#!/bin/bash
for it in "$@"; do case $it in module.bc) cp "$it" "{kept}/module.bc" ;; rewritten.ll) cp "$it" "{kept}/rewritten.ll" ;; esac; done
exec "{kit}/toolchain/bin/clang" "$@"
"""


class Failed(Exception):
    """What can't be built, and why."""


@functools.lru_cache(None)
def kit():
    """The folder of the kit, and the line of its version."""
    try:
        guide, line = (subprocess.run(["rt", it], check=True, stdout=subprocess.PIPE, text=True).stdout.strip() for it in ("doc", "version"))
    except (OSError, subprocess.CalledProcessError):
        with open("install/kit", encoding="utf-8") as file:
            raise Failed(f"Rattle's command rt is needed, on the PATH: it comes with the kit ({file.read().strip()})") from None
    return os.path.dirname(guide), line


def rows():
    """What crates.txt says of each crate: whether it is a static library, and what it stands on."""
    found = {}
    with open("crates.txt", encoding="utf-8") as file:
        for line in file:
            head, colon, deps = line.partition("#")[0].partition(":")
            if colon:
                name, *kind = head.split()
                found[name] = ("staticlib" in kind, deps.split())
    return found


def below(name, crates):
    """The crates of the repository that one stands on, each after those that it stands on itself."""
    found = []
    for dep in crates[name][1]:
        if dep in crates:
            found += [it for it in [*below(dep, crates), dep] if it not in found]
    return found


def sum_of(name, crates, line):
    """The checksum of what a build reads: the code, definitions and proofs of the crate and of those below, and the kit."""
    made = hashlib.sha256(f"{line} {SOURCE}\n".encode())
    for crate in [*below(name, crates), name]:
        made.update(f"{crate} {crates[crate]}\n".encode())
        folders = [f"crates/{crate}/{it}" for it in ("src", "specs", "proofs")]
        for path in sorted(f"{at}/{file}" for folder in folders for at, _, files in os.walk(folder) for file in files):
            with open(path, "rb") as file:
                made.update(f"{path}\n".encode() + hashlib.sha256(file.read()).digest())
    return made.hexdigest()


def words_of(name, crates, folder):
    """The words of `rattle build` for a crate, as rt has them, but for the target and the toolchain."""
    is_static, deps = crates[name]
    root = "main" if os.path.isfile(f"crates/{name}/src/main.rt") else "lib"
    words = ["--crate-name", name, f"src/{root}.rt", "--extern", f"std={folder}/rlibs/std.rlib", "-L", f"dependency={folder}/rlibs"]
    for dep in deps:
        words += ["--extern", f"{dep}={os.path.abspath(f'crates/{dep}/out/rlib') if dep in crates else f'{folder}/rlibs'}/{dep}.rlib"]
    for dep in below(name, crates):
        words += ["-L", f"dependency={os.path.abspath(f'crates/{dep}/out/rlib')}"]
    words += ["--antt-project", f"{folder}/rattle/logic/antt-project.json", "--logic-built", f"{folder}/logic_built", "--links", f"{name}="]
    return words + ["--incremental", "out/incremental", "--jobs", "2", "--backend", "llvm", "--target", SOURCE] + ["--crate-type", "staticlib"] * is_static


def run(words, what, **how):
    ran = subprocess.run(words, stdout=subprocess.PIPE, stderr=subprocess.STDOUT, text=True, errors="replace", **how)
    if ran.returncode:
        raise Failed(f"{what} fails, with status {ran.returncode}:\n{ran.stdout[-3000:]}")
    return ran.stdout


@functools.lru_cache(None)
def rt_of(folder):
    """rt's own functions."""
    rt = SourceFileLoader("rt", f"{folder}/bin/rt").load_module()
    rt.Crate.allowed = rt.handles_of(os.getcwd())
    return rt


def build_below(rt, libraries):
    """Builds the libraries that a crate stands on. What `rt ci` has proved of the same files on this machine it keeps beside the kit, and that is
    taken; `rt lib` alone would prove it once more."""
    store = rt.Kept(libraries)
    for crate in libraries:
        at = os.path.dirname(crate.rlib)
        if not crate.is_built():
            shutil.rmtree(at, ignore_errors=True)
            if store.give(crate, False, store.key(crate)):
                with open(f"{at}/stamp", "w", encoding="utf-8") as file:
                    file.write(crate.stamp())
            else:
                print(f"{crate.name}: proving it", file=sys.stderr, flush=True)
                run(["rt", "lib"], f"{crate.name}: the proof", cwd=crate.folder, stdin=subprocess.DEVNULL)
        store.is_built(crate)


@contextlib.contextmanager
def working_in(rt, crate):
    """Keeps other calls of rt out of a crate's folder, whose kept work begins with the best that there is on this machine, and is then offered."""
    stamp, held = crate.stamp(), rt.rtlib.lock([crate])
    try:
        rt.adopt(crate)
        yield
        rt.offer(crate, stamp)
    finally:
        for it in held:
            os.close(it)


def kept(name, to):
    """Makes the files of a crate in a folder, where they aren't there or are of something else. Returns the path that they begin with."""
    folder, line = kit()
    crates, path = rows(), f"{to}/{name}"
    made_of = sum_of(name, crates, line)
    if os.path.isfile(f"{path}.sum"):
        with open(f"{path}.sum", encoding="utf-8") as file:
            if file.read().split("\n")[0] == made_of:
                return path
    os.makedirs(to, exist_ok=True)
    rt, names = rt_of(folder), below(name, crates)
    every = {it.name: it for it in rt.crates_of(os.getcwd())}
    build_below(rt, [it for it in every.values() if it.name in names])
    crate = every[name]
    rt.read_files(crate)
    crate.out = sys.stderr
    print(f"{name}: proving and building it", file=sys.stderr, flush=True)
    with tempfile.TemporaryDirectory() as made, working_in(rt, crate):
        os.mkdir(f"{made}/bin")
        os.symlink(f"{folder}/toolchain/lib", f"{made}/lib")
        for tool in os.listdir(f"{folder}/toolchain/bin"):
            if tool != "clang":
                os.symlink(f"{folder}/toolchain/bin/{tool}", f"{made}/bin/{tool}")
        with open(f"{made}/bin/clang", "w", encoding="utf-8") as file:
            file.write(KEEPING.format(kept=made, kit=folder))
        os.chmod(f"{made}/bin/clang", 0o755)
        said = run([f"{folder}/bin/rattle", "build", *words_of(name, crates, folder), "--toolchain", made, "-o", f"{made}/built"], f"{name}: rattle build",
                   cwd=f"crates/{name}")
        verdict = re.findall(r"^logic=proved .*$", said, re.MULTILINE)
        if not verdict or not all(os.path.isfile(f"{made}/{it}") for it in ("module.bc", "rewritten.ll", "built")):
            raise Failed(f"{name}: this kit makes its modules in another way than this tool knows:\n{said[-3000:]}")
        for file, end in (("module.bc", "bc"), ("rewritten.ll", "ll"), ("built", "a")):
            run(["cp", f"{made}/{file}", f"{path}.{end}"], "cp")
    with open(f"{path}.sum", "w", encoding="utf-8") as file:
        file.write(f"{made_of}\n{verdict[-1]}\n")
    return path
