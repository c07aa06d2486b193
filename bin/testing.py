"""What the test programs in Python share: tests of `unittest`, whose last line is `N passed, M failed, K not run`."""
import glob
import json
import os
import shutil
import subprocess
import sys
import tempfile
import unittest

from session_log import EDITOR, Log, written_header

TOP = os.path.dirname(os.path.dirname(os.path.realpath(__file__)))
DEBIAN_CRATES = "/usr/share/cargo/registry"  # where Debian's packages have the sources of crates


def run(*words, data=b"", **more):
    """Runs a program. Returns its status, its output and its errors."""
    how = {"input": data, "stdout": subprocess.PIPE, "stderr": subprocess.PIPE, "timeout": 60, **more}
    done = subprocess.run(words, **how)
    return done.returncode, done.stdout, (done.stderr or b"").decode()


def read(*path):
    """Returns what is in a file."""
    with open(os.path.join(*path), "rb") as file:
        return file.read()


def frame(body):
    """Returns the frame of a body, which may be given as what its JSON is."""
    body = json.dumps(body).encode() if not isinstance(body, bytes) else body
    return written_header(len(body)) + body


def records(data):
    """Returns the marks and bodies of a log, which must be whole."""
    with tempfile.TemporaryFile() as file:
        file.write(data)
        file.seek(0)
        return [(record.mark, record.body) for record in Log(file.fileno())]


def messages(data):
    """Returns the marks and messages of a log, which must be whole."""
    return [(mark, json.loads(body)) for mark, body in records(data)]


def trace_in_json(found, head="[LSP   - 10:12:13 AM] "):
    """Returns messages as a trace of VS Code's client in JSON, with a head among lines of other kinds."""
    lines = ["[Info  - 10:12:13 AM] started", '[Trace - 10:12:13 AM] {"type":"none"}'] if head else []
    for mark, message in found:
        way = "send-" if mark == EDITOR else "receive-"
        kind = "notification" if "id" not in message else "request" if "method" in message else "response"
        sent = {"isLSPMessage": True, "type": way + kind, "message": message, "timestamp": 1764238333000}
        lines.append(head + json.dumps(sent, ensure_ascii=False))
    return "\n".join(lines) + "\n"


def need(condition, why):
    """Ends a test, or those of a class, that this machine can't run."""
    if not condition:
        raise unittest.SkipTest(why)


def archive_folder():
    """Returns the folder of the archive for C, which LASPIDRU_LIB_DIR may name."""
    folder = os.path.abspath(os.environ.get("LASPIDRU_LIB_DIR", os.path.join(TOP, "build")))
    need(os.path.exists(os.path.join(folder, "liblaspidru.a")), f"no liblaspidru.a in {folder} (make library)")
    return folder


def shared_library():
    """Returns the path of the library, which LASPIDRU_LIBRARY may name."""
    path = os.environ.get("LASPIDRU_LIBRARY") or next(iter(glob.glob(os.path.join(TOP, "build", "liblaspidru.so.*.*.*"))), "")
    need(os.path.exists(path), "no shared library (make library)")
    return os.path.abspath(path)


def node_package(folder):
    """Puts the package `laspidru` with its addon where Node looks for it. Returns the addon's path."""
    need(shutil.which("node"), "no node")
    package, include = os.path.join(folder, "node_modules", "laspidru"), os.path.join(TOP, "crates", "laspidru", "include")
    shutil.copytree(os.path.join(TOP, "bindings", "node"), package)
    addon = os.path.join(package, "laspidru.node")
    if not os.path.exists(addon):
        need(shutil.which("cc"), "no C compiler")
        headers = run("node", "-p", 'path.resolve(process.execPath, "../../include/node")')[1].decode().strip()
        need(os.path.exists(os.path.join(headers, "node_api.h")), f"no node_api.h in {headers} (on Debian: apt-get install libnode-dev)")
        subprocess.run(["cc", "-O2", "-fPIC", "-shared", "-I", headers, "-I", include, "-o", addon, os.path.join(package, "addon.c"),
                        os.path.join(archive_folder(), "liblaspidru.a")], check=True)
    return addon


def cargo_copy(folder, *parts):
    """Copies the crate laspidru, and what else is named, for cargo to build it there."""
    for part in ("bindings/rust", *parts):
        shutil.copytree(os.path.join(TOP, part), os.path.join(folder, part), ignore=shutil.ignore_patterns("target", "Cargo.lock"))


def cargo_build(folder, crate, *words, debian=(), **patches):
    """Builds a crate in such a folder without a network, by crates of Debian's and by stand-ins. Returns the folder of programs."""
    need(shutil.which("cargo"), "no cargo")
    missing = [it for it in debian if not glob.glob(f"{DEBIAN_CRATES}/{it}-[0-9]*")]
    need(not missing, f"no crate {', '.join(missing)} (on Debian: librust-NAME-dev)")
    config = ["source.crates-io.replace-with='debian'", f"source.debian.directory='{DEBIAN_CRATES}'"] if debian else []
    config += [f"patch.crates-io.{name.replace('_', '-')}.path='{os.path.join(folder, path)}'" for name, path in patches.items()]
    subprocess.run(["cargo", "build", "--quiet", "--offline", *words, *(it for line in config for it in ("--config", line))], check=True,
                   cwd=os.path.join(folder, crate),
                   env={**os.environ, "LASPIDRU_LIB_DIR": archive_folder(), "CARGO_TARGET_DIR": os.path.join(folder, "target")})
    return os.path.join(folder, "target", "debug")


class Case(unittest.TestCase):
    need = staticmethod(need)

    def new_folder(self):
        """Returns a new folder, which goes with the test."""
        made = tempfile.TemporaryDirectory()
        self.addCleanup(made.cleanup)
        return made.name


class Result(unittest.TextTestResult):
    passed = 0

    def addSuccess(self, test):
        super().addSuccess(test)
        self.passed += 1


class Runner(unittest.TextTestRunner):
    """Prints all to one stream, and last which tests were not run, each with what is missing, and the counts."""
    resultclass = Result

    def __init__(self, **how):
        super().__init__(**{**how, "stream": sys.stdout, "descriptions": False})

    def run(self, tests):
        done = super().run(tests)
        failed = {getattr(test, "test_case", test) for test, _ in done.failures + done.errors}
        for test, why in done.skipped:
            print(f"{test.id().removeprefix('__main__.')}: not run: {why}")
        print(f"{done.passed} passed, {len(failed)} failed, {len(done.skipped)} not run", flush=True)
        return done


def main(words=sys.argv[1:]):
    """Runs the program's tests: all, those that its words name, or with -k those whose names have a part."""
    if "--help" in words:
        print(sys.modules["__main__"].__doc__)
        sys.exit()
    sys.exit(not unittest.main(argv=[sys.argv[0], *words], testRunner=Runner, verbosity=2,
                               exit=False).result.wasSuccessful())
