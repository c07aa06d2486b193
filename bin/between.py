"""What `record` and `front` share: the bytes between an editor and a server pass, and a log of both is written."""
import fcntl
import json
import os
import queue
import select
import shutil
import signal
import subprocess
import sys
import threading
import time

from session_log import EDITOR, VERSION_LINE, Framer, as_called, called, empty, open_own, read_some, say, write_all

USAGE, NO_LOG, NOT_RUN, NOT_FOUND = 2, 3, 126, 127
KILLED = 128
FORWARDED = (signal.SIGTERM, signal.SIGINT, signal.SIGHUP, signal.SIGQUIT)
# How many bytes may wait for the log, for how many seconds the file may take none of them, and how many are written at
# once: a record of fewer isn't cut where this program is killed
ROOM, PATIENCE, AT_ONCE = 64 << 20, 2, 16 << 20
NAME = os.path.basename(sys.argv[0])
# A longer line is cut in its middle: a pipe that takes bytes takes PIPE_BUF of them, and a character has up to six
HALF, COMPLAINING = select.PIPE_BUF // 12 - 10, threading.Lock()


class Refusal(Exception):
    """Why no server was started, with the exit status."""

    def __init__(self, status, text):
        super().__init__(text)
        self.status = status


class Ended(Exception):
    """A direction ends before its bytes do."""


def complain(text):
    """Says a line on standard error, unless nobody takes it there now: the session doesn't wait for that."""
    text = str(text)
    if len(text) > 2 * HALF:
        text = "%s .. %s" % (text[:HALF], text[-HALF:])
    errors = select.poll()
    errors.register(2, select.POLLOUT)
    with COMPLAINING:
        if errors.poll(0):
            say("%s: %s" % (NAME, text))


def options_in(words, help_text, flags, valued=()):
    """Takes the options away from the beginning of the words, and returns them by their names. Prints help if asked."""
    found = {}
    while words and words[0].startswith("-"):
        name, equals, value = words.pop(0).partition("=")
        if name in ("-h", "--help"):
            write_all(1, as_called(help_text).encode() + b"\n")
            sys.exit(0)
        if name in found or name not in (valued if equals else (*flags, *valued)):
            why = "twice" if name in found else "unknown option"
            raise Refusal(USAGE, "%s %s; %s --help has the options" % (why, name, NAME))
        if name in valued and not equals and not words:
            raise Refusal(USAGE, "%s lacks its value" % name)
        found[name] = True if name in flags else value if equals else words.pop(0)
    return found


def is_exit(body):
    """Is this the notification `exit`, after which a log may have nothing of the editor?"""
    if b'"exit"' not in body:
        return False
    try:
        message = json.loads(body)
    except (ValueError, RecursionError):
        return False
    if not isinstance(message, dict) or "id" in message:
        return False
    return (message.get("jsonrpc"), message.get("method")) == ("2.0", "exit")


class SessionLog:
    """The log of a session. A thread of its own writes it, so a file that takes nothing doesn't hold up the session."""

    def __init__(self, path, replace):
        self.path, self.lock, self.records = path, threading.Lock(), queue.SimpleQueue()
        self.count = self.added = self.taken = self.length = self.later = 0
        self.has_exit = self.is_over = False
        try:
            self.file, self.is_new = open_own(path, replace)
            fcntl.flock(self.file, fcntl.LOCK_EX | fcntl.LOCK_NB)
        except FileExistsError:
            raise Refusal(NO_LOG, "%s exists: name another file, or give --replace" % path) from None
        except BlockingIOError:
            raise Refusal(NO_LOG, "%s is written by another %s" % (path, called("record"))) from None
        except OSError as error:
            raise Refusal(NO_LOG, "%s: %s" % (path, error.strerror)) from None

    def begin(self):
        try:
            empty(self.file)
        except OSError as error:
            self._stop("%s; nothing is recorded" % error.strerror)
        self._put(VERSION_LINE)
        threading.Thread(target=self._write, daemon=True).start()

    def discard(self):
        if self.is_new:
            os.unlink(self.path)

    def add(self, mark, record):
        """Has a message written, and returns its number in the log, or 0 where it isn't recorded."""
        with self.lock:
            if mark == EDITOR and self.has_exit:
                self.later += 1
                return 0
            if not self._has_room(ROOM):
                return 0
            self._put(mark + record.frame())
            self.has_exit = self.has_exit or mark == EDITOR and is_exit(record.body)
            self.count += 1
            return self.count

    def _put(self, data):
        self.added += len(data)
        self.records.put(data)

    def _write(self):
        """Writes what was added, record by record."""
        try:
            while not self.is_over:
                data = memoryview(self.records.get())
                for at in range(0, len(data), AT_ONCE):
                    write_all(self.file, data[at:at + AT_ONCE])
                    self.taken += len(data[at:at + AT_ONCE])
                self.length += len(data)
        except OSError as error:
            self._stop("%s; nothing more is recorded" % error.strerror)

    def _stop(self, text):
        self.is_over = True
        try:
            os.ftruncate(self.file, self.length)
        except OSError:
            pass
        complain("%s: %s" % (self.path, text))

    def _has_room(self, room):
        """Waits until no more bytes than these are still to be written. False where the log is over, or gets over."""
        taken, since = self.taken, time.monotonic()
        while self.added - self.taken > room and not self.is_over:
            if self.taken != taken:
                taken, since = self.taken, time.monotonic()
            elif time.monotonic() - since > PATIENCE:
                self.is_over, self.records = True, queue.SimpleQueue()
                complain("%s: it took nothing for %d s; nothing more is recorded" % (self.path, PATIENCE))
            time.sleep(0.002)
        return not self.is_over

    def close(self):
        """Ends the log between two records."""
        with self.lock:
            self._has_room(0)
            self.is_over = True
        if self.later:
            complain("%d messages of the editor after its `exit` aren't recorded" % self.later)


class Listener:
    """Hears one direction, and has its messages logged."""

    def __init__(self, log, mark, name):
        self.log, self.mark, self.name = log, mark, name
        self.framer = Framer()

    def records(self, piece):
        """Yields each message that the piece ends, with its number in the log. No fault ends the session, or loses a message."""
        record = None
        try:
            self.framer.feed(piece)
            while record := self.framer.next():
                yield self.log.add(self.mark, record) if self.log else 0, record
                record = None
        except Exception as fault:  # (whatever it is, the session has to go on)
            self.framer = None
            complain("from the %s: %s; this direction is %s no further" % (self.name, str(fault) or repr(fault),
                                                                         "recorded" if self.log else "read"))
            if record:
                yield 0, record

    def hear(self, piece):
        """Takes what came, and yields what passes on for it."""
        if self.log and self.framer is not None:
            for _ in self.records(piece):
                pass
        yield piece

    def rest(self):
        """Yields what still passes on once all came."""
        return ()

    def end(self):
        if self.log and self.framer is not None and self.framer.held:
            left = len(self.framer.held)
            complain("from the %s: the last %d bytes are no whole message, and not recorded" % (self.name, left))


def close(descriptor):
    try:
        os.close(descriptor)
    except OSError:
        pass


def is_readable(source, gone):
    """Waits for bytes or an end. False where nothing is there and the other end is gone."""
    waiter = select.poll()
    waiter.register(source, select.POLLIN)
    waiter.register(gone, select.POLLIN)
    ready = {descriptor for descriptor, _ in waiter.poll()}
    if source not in ready:
        waiter.unregister(gone)
        return bool(waiter.poll(0))
    return True


def pass_on(source, target, listener, gone):
    """Passes bytes on until one end is closed, or `gone` is and no byte is left; then closes both."""
    try:
        while is_readable(source, gone):
            piece = read_some(source)
            for data in listener.hear(piece) if piece else listener.rest():
                write_all(target, data)
            if not piece:
                break
    except (OSError, Ended):
        pass
    finally:
        close(target)
        close(source)


def start(words):
    try:
        return subprocess.Popen(words, stdin=subprocess.PIPE, stdout=subprocess.PIPE, bufsize=0)
    except FileNotFoundError:
        raise Refusal(NOT_FOUND, "%s: no such program" % words[0]) from None
    except (OSError, ValueError) as error:
        raise Refusal(NOT_RUN, "%s: %s" % (words[0], error)) from None


def look_at_ends(words):
    """Refuses to run without an editor or a server. A missing standard error becomes /dev/null: no log gets its number."""
    try:
        os.fstat(0), os.fstat(1)
    except OSError:
        raise Refusal(NO_LOG, "standard input or output is closed") from None
    try:
        os.fstat(2)
    except OSError:
        os.open(os.devnull, os.O_WRONLY)
    if shutil.which(words[0]) is None:
        raise Refusal(NOT_RUN if os.path.exists(words[0]) else NOT_FOUND, "%s: no program that can be run" % words[0])


def thread(*arguments):
    passing = threading.Thread(target=pass_on, args=arguments, daemon=True)
    passing.start()
    return passing


def pass_between(server, *listeners):
    """Passes both directions on until the server ends, with the editor's listener and the server's. Returns the exit status."""
    def forward(number, _):
        try:
            os.kill(server.pid, number)
        except ProcessLookupError:
            pass

    for number in FORWARDED:
        signal.signal(number, forward)
    ended, has_ended = os.pipe()
    never, _ = os.pipe()
    thread(0, os.dup(server.stdin.fileno()), listeners[0], never)
    server.stdin.close()
    replies = thread(os.dup(server.stdout.fileno()), 1, listeners[1], ended)
    server.stdout.close()
    status = server.wait()
    for number in FORWARDED:
        signal.signal(number, signal.SIG_IGN)
    os.close(has_ended)
    replies.join()
    if listeners[0].log:
        listeners[0].log.close()
    for listener in listeners:
        listener.end()
    return status if status >= 0 else KILLED - status


def main(work):
    """Runs a program of this kind, and ends with its status."""
    try:
        status = work(sys.argv[1:])
    except Refusal as refusal:
        complain(refusal)
        status = refusal.status
    except OSError as error:
        complain(error.strerror)
        status = NO_LOG
    # (the thread that reads the editor may still wait, and would hold up an ordinary exit)
    os._exit(status)
