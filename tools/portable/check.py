"""Runs what tools/targets has built, where a target runs here, beside the native programs and what is expected: tools/targets --check."""
import concurrent.futures
import contextlib
import glob
import http.server
import json
import os
import queue
import random
import re
import shutil
import struct
import subprocess
import sys
import tempfile
import threading

sys.path.insert(0, "conformance")
from ask import FILES, vectors_of  # noqa: E402

WINE = shutil.which("wine64") or "/usr/lib/wine/wine64"
NATIVE = {name: f"crates/{name}/out/{name}" for name in ("lspsync", "lsp_simulate")}
COMMANDS = ("check", "replay", "normalise", "convert")
WORDS = ("check", "check --explain --lenient", "trace --texts --bodies", "replay", "normalise --squash", "convert", "serve")
PLAIN_WORDS = ("--help", "check --help", "none", "check --encoding utf-7", "", "check missing.log", "replay --at 2 examples/cut-short.log",
               "compare --uri other examples/recordings/lsp-mode.saved examples/recordings/lsp-mode.log")
# A program of Windows that reads and writes bytes as they are
BINARY = "#include <fcntl.h>\n#include <io.h>\n__attribute__((constructor)) static void begin(void) { _setmode(0, _O_BINARY), _setmode(1, _O_BINARY); }\n"
PAGE = """<!doctype html><meta charset="utf-8"><script type="module">%s
%s
let answers;
try {
  const { TextDocument } = await load(new URL('laspidru.wasm', location));
  if (TextDocument.create('a', 'b', 1, 'c').getText() !== 'c') throw new Error('load');
  const bytes = new Uint8Array(await (await fetch('requests')).arrayBuffer());
  answers = new Blob(answered(addonOf(await WebAssembly.compileStreaming(fetch('laspidru.wasm'))), bytes));
} catch (error) {
  answers = String(error);
}
await fetch('answers', { method: 'POST', body: answers });
</script>"""
BROWSERS = {"chromium": ["--headless", "--no-sandbox", "--disable-gpu", "--user-data-dir={home}/profile"],
            "firefox-esr": ["--headless", "--no-remote", "--profile", "{home}"]}


class Target:
    """How programs of a target are started here. `lacks` says what is missing."""

    def __init__(self, name, cc, folder):
        self.name, self.cc, self.folder, self.env, self.prefix = name, cc, folder, dict(os.environ), []
        self.is_wasm, self.is_windows, tool = name.startswith("wasm"), "windows" in name, None
        if self.is_wasm:
            tool, self.prefix = "node", ["node"]
            self.env["LASPIDRU_ADDON"] = os.path.abspath(f"build/{name}/laspidru.wasm")
        elif self.is_windows:
            tool, self.prefix = WINE, [WINE]
            self.env.update(WINEDEBUG="-all", WINEPREFIX=f"{folder}/wine")
        elif name.startswith("aarch64-unknown"):
            tool, self.prefix = "qemu-aarch64", ["qemu-aarch64"]
        self.lacks = "such a machine" if "apple" in name else tool if tool and not shutil.which(tool) else None

    def program(self, name):
        """The words that start a program, and its environment."""
        if self.is_wasm:
            return [*self.prefix, "bindings/node/run.js", name], {**self.env, "LASPIDRU_PROGRAM": f"build/{self.name}/{name}.wasm"}
        return [*self.prefix, f"build/{self.name}/{name}{'.exe' * self.is_windows}"], self.env

    def over_library(self, script, *sources):
        """The words that start a script of Node over the module, or else a program in C over the archive of the target."""
        if self.is_wasm:
            return [*self.prefix, "--expose-gc", script]
        to, more = f"{self.folder}/{os.path.basename(sources[0])}.exe", []
        if self.is_windows:
            more = [f"{self.folder}/binary.c", "-D__USE_MINGW_ANSI_STDIO=1"]
            with open(more[0], "w", encoding="utf-8") as file:
                file.write(BINARY)
        subprocess.run([self.cc, "-O1", "-static", "-w", "-I", "crates/laspidru/include", *sources, *more, f"build/{self.name}/liblaspidru.a", "-o", to], check=True)
        return [*self.prefix, to]


def result(words, env=None, given=b""):
    ran = subprocess.run(words, env=env, input=given, stdout=subprocess.PIPE, stderr=subprocess.PIPE)
    return ran.returncode, ran.stdout, ran.stderr


def each(call, items):
    with concurrent.futures.ThreadPoolExecutor(os.cpu_count()) as pool:
        return list(pool.map(call, items))


def recorded():
    for path in sorted([*glob.glob("examples/*.log"), *glob.glob("examples/recordings/*.log"), *glob.glob("viewer/data/*.log")]):
        with open(path, "rb") as file:
            yield file.read()


def log_of(*messages):
    bodies = [json.dumps({"jsonrpc": "2.0", **it}).encode() for it in ({"id": 1, "method": "initialize", "params": {"capabilities": {}}}, *messages)]
    return b"".join(b"Content-Length: %d\r\n\r\n%s" % (len(body), body) for body in bodies)


def vector_logs():
    """Each command, the units of positions and the log of each vector: of all but the text edits, which no log has."""
    for vector in vectors_of(FILES):
        if "edits" in vector:
            continue
        messages, document = vector.get("messages"), {"uri": "file:///a", "languageId": "a", "version": 1, "text": vector.get("text")}
        if "changes" in vector:
            changed = {"textDocument": {"uri": document["uri"], "version": 2}, "contentChanges": vector["changes"]}
            messages = [{"method": "textDocument/didOpen", "params": {"textDocument": document}}, {"method": "textDocument/didChange", "params": changed}]
        log = vector["bytes"].encode("latin-1") if "bytes" in vector else log_of(*messages)
        for command in range(4):
            yield command, int(vector.get("encoding", "utf-16")[4:]), log


def random_logs(count, seed=1):
    """The same of logs that are parts of recorded ones, of which most have mistakes: messages that are gone, twice or elsewhere, and other bytes."""
    chance, all_frames = random.Random(seed), [re.split(rb"(?=Content-Length: )", it) for it in recorded()]
    for number in range(count):
        frames = chance.choice(all_frames)
        first = chance.randrange(len(frames))
        part = frames[:2] * chance.randrange(2) + frames[first:first + chance.randrange(1, 25)]
        for _ in range(chance.randrange(4)):
            at, way = chance.randrange(len(part)), chance.randrange(4)
            part[at:at + 1] = [[], [part[at]] * 2, [chance.choice(frames)], [part[at], chance.choice(part)]][way]
            part = part or [b""]
        log = bytearray(b"".join(part)[:200000])
        for _ in range(chance.choice((0, 0, 0, 1, 1, 5))):
            if log:
                log[chance.randrange(len(log))] = chance.choice(b'0129"{}[]\\,:ab\r\n\x00\xff')
        yield number % 4, chance.choice((8, 16, 32)), bytes(log[:chance.randrange(len(log) + 1)] if chance.random() < 0.1 else log)


def of_native(asked):
    command, units, log = asked
    status, output, _ = result([NATIVE["lspsync"], COMMANDS[command], "--encoding", f"utf-{units}"], given=log)
    return min(status, 2), output


def check_logs(ask, requests, expected):
    """Logs beside the native program, asked all at once: how many have the same output, and the same status; that is 2 for each fault."""
    answers, at, same = ask(b"".join(struct.pack("<3I", command, units, len(log)) + log for command, units, log in requests)), 0, 0
    for status, wanted in expected:
        if len(answers) < at + 8:
            break
        code, size = struct.unpack_from("<2I", answers, at)
        same += (code, answers[at + 8:at + 8 + size]) == (status, wanted)
        at += 8 + size
    return same, len(expected) - same


def program_runs():
    """Each program, the words of a run, and what it reads."""
    yield from (("lspsync", words, log) for log in recorded() for words in WORDS)
    yield from (("lspsync", words, b"") for words in PLAIN_WORDS)
    yield from (("lspsync", f"compare --uri notes {path} {path[:-5]}log", b"") for path in sorted(glob.glob("examples/recordings/*.saved")))
    for path in glob.glob("examples/*.events"):
        with open(path, "rb") as file:
            yield from (("lsp_simulate", words, text) for text in [file.read()] for words in ("", "--utf-8", "--sync full", "--prefer utf-8 --utf-8"))
    yield from (("lsp_simulate", words, b"") for words in ("--help", "none"))


def check_programs(target):
    """Each command on each example: whether output, standard error and status are those of the native program, byte for byte."""
    def is_same(run):
        name, words, given = run
        start, env = target.program(name)
        wanted, got = result([NATIVE[name], *words.split()], given=given), result([*start, *words.split()], env, given)
        if wanted != got:
            print(f"{target.name}: {name} {words}: {got[0]} and not {wanted[0]}, {got[2][-200:]} and not {wanted[2][-200:]}")
        return wanted == got
    same = each(is_same, program_runs())
    return sum(same), len(same) - sum(same)


def counted(words, env, form):
    """What a test counts at its end, as a form has it: right and wrong ones."""
    status, said, errors = result(words, env)
    found = re.search(form, said.decode())
    if status or not found:
        print(said.decode()[-2000:], errors.decode()[-1000:])
    return (int(found[1]), int(found[2] or 0) if found.lastindex > 1 else 0) if found and not status else (0, 1)


def parts(target, sessions):
    """What is run on a target beside the logs: the name of each part, and a call that counts the right and the wrong ones."""
    test = target.over_library("bindings/node/test.js", "bindings/c/test.c", "bindings/c/counting_heap.c")
    yield "its test", lambda: counted(test, target.env, r"pass (\d+)\n\S+ fail (\d+)\n" if target.is_wasm else r"(\d+) passed, (\d+) failed\s*$")
    if target.is_wasm:
        yield "out of memory", lambda: counted([*target.prefix, "tools/portable/grown.js"], target.env, r"(\d+) calls refused")
        runner = [sys.executable, "conformance/ask.py", *target.prefix, "conformance/run.js"]
        yield "vectors", lambda: counted(runner, target.env, r"(\d+) right, \d+ other, (\d+) WRONG, 0 ERROR, 0 not asked\s*$")
    driver = " ".join(target.over_library("bindings/node/sessions.js", "bindings/c/sessions.c"))
    yield "sessions", lambda: counted([sys.executable, "bindings/sessions", NATIVE["lsp_simulate"], str(sessions), driver], target.env, r"(\d+) sessions by")
    yield "programs", lambda: check_programs(target)


@contextlib.contextmanager
def served(files):
    """A server of files by their paths: its address, and a queue of what is posted to it."""
    posted = queue.Queue()

    class Handler(http.server.BaseHTTPRequestHandler):
        def do_GET(self):
            body = files.get(self.path, b"")
            self.send_response(200 if body else 404)
            self.send_header("Content-Type", "text/html" if self.path == "/" else "application/wasm")
            self.end_headers()
            self.wfile.write(body)

        def do_POST(self):
            posted.put(self.rfile.read(int(self.headers["Content-Length"])))
            self.send_response(204)
            self.end_headers()

        def log_message(self, *_):
            pass

    with http.server.ThreadingHTTPServer(("127.0.0.1", 0), Handler) as server:
        threading.Thread(target=server.serve_forever, daemon=True).start()
        yield f"http://127.0.0.1:{server.server_port}/", posted
        server.shutdown()


def in_browser(name, page, requests):
    """The library in a page of a browser, which fetches the requests from here and posts the answers."""
    with open("build/wasm32/laspidru.wasm", "rb") as file:
        files = {"/": page.encode(), "/requests": requests, "/laspidru.wasm": file.read()}
    with served(files) as (url, posted), tempfile.TemporaryDirectory(ignore_cleanup_errors=True) as home:
        words = [name, *(it.format(home=home) for it in BROWSERS[name]), url]
        with subprocess.Popen(words, env={**os.environ, "HOME": home}, stdout=subprocess.DEVNULL, stderr=subprocess.DEVNULL, start_new_session=True) as browser:
            try:
                return posted.get(timeout=300)
            except queue.Empty:
                return b""
            finally:
                os.killpg(browser.pid, 9)


def check(targets, page, logs, sessions):
    """Prints a table of what was run on what. Returns whether all was as it should be."""
    for name in NATIVE:
        subprocess.run([f"./{name}", "--help"], stdout=subprocess.DEVNULL, check=True)
    requests, passed, failed, left = [*vector_logs(), *random_logs(logs)], 0, 0, 0
    expected = each(of_native, requests)

    def row(name, what, right, wrong):
        nonlocal passed, failed
        passed, failed = passed + (not wrong), failed + bool(wrong)
        print(f"{name:28}{what:18}{right:>7} right{f', {wrong} wrong' if wrong else ''}", flush=True)
    for name, cc in targets.items():
        with tempfile.TemporaryDirectory(ignore_cleanup_errors=True) as folder:
            target = Target(name, cc, folder)
            if target.lacks or not os.path.isdir(f"build/{name}"):
                left += 1
                print(f"{name:28}not run: {target.lacks or 'not built'}")
                continue
            for what, call in parts(target, sessions):
                row(name, what, *call())
            start = target.over_library("tools/portable/ask.js", "tools/portable/ask.c")
            row(name, "logs", *check_logs(lambda asked: result(start, target.env, asked)[1], requests, expected))
    for name in BROWSERS if "wasm32" in targets and os.path.isdir("build/wasm32") else ():
        if shutil.which(name):
            row(f"wasm32, {name}", "logs", *check_logs(lambda asked: in_browser(name, page, asked), requests, expected))
        else:
            left += 1
            print(f"wasm32, {name}: not run")
    print(f"{passed} passed, {failed} failed, {left} not run")
    return not failed
