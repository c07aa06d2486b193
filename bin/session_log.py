"""Frames and logs, read as docs/PROTOCOL.md and docs/LOGS.md say: what the programs of this folder and their tests share."""
import errno
import os
import re
import select
import signal
import stat
import sys

VERSION_LINE = b"lsp-session-log 2\n"
EDITOR, SERVER = b">", b"<"
MAX_BODY = 1073741824
MAX_HEADER = 8192
PIECE = 65536
WRITTEN_HEADER = re.compile(rb"Content-Length: (0|[1-9][0-9]{0,9})\r\n\r\n")

# Where a header's next byte lies: at a line's start, in a name, in a value, after a value's CR, after the last CR.
LINE, NAME, VALUE, RETURN, LAST, WHOLE = range(6)


# What `make install` puts before the name of each program of this folder
PREFIX = "lspsync-"
NAME_IN_HELP = re.compile(r"@([a-z][a-z-]*)")


def called(name):
    """Returns what a program of this folder is called: with a prefix where the one that runs has it."""
    return PREFIX + name if os.path.basename(sys.argv[0]).startswith(PREFIX) else name


def as_called(text):
    """Returns a help text with the name of each program, written @NAME, as it is called."""
    return NAME_IN_HELP.sub(lambda name: called(name[1]), text)


class Fault(Exception):
    """What ends a log, in the words of lspsync's line on standard error, and the exit status of it."""

    status = 5


class Record:
    """A mark (empty in version 1), and a frame."""

    def __init__(self, mark, header, body):
        self.mark, self.header, self.body = mark, header, body

    def frame(self):
        return self.header + self.body


def written_header(length):
    return b"Content-Length: %d\r\n\r\n" % length


def step(state, byte):
    """Returns where a header's next byte lies after this one, or None where no header has this byte here."""
    if state == LINE and byte == 13:
        return LAST
    if state in (LINE, NAME):
        if state == NAME and byte == 58:
            return VALUE
        return NAME if 33 <= byte <= 126 and byte != 58 else None
    if state == VALUE:
        return RETURN if byte == 13 else VALUE if 32 <= byte <= 126 or byte == 9 else None
    return (LINE if state == RETURN else WHOLE) if byte == 10 else None


def is_good_type(value):
    """Does a Content-Type name no other charset than UTF-8?"""
    for part in value.split(b";")[1:]:
        name, equals, charset = part.strip(b" \t").partition(b"=")
        charset = charset.strip(b" \t")
        if len(charset) > 1 and charset[:1] == charset[-1:] == b'"':
            charset = charset[1:-1]
        if equals and name.strip(b" \t").lower() == b"charset" and charset.lower() not in (b"utf-8", b"utf8"):
            return False
    return True


def length_in(header, max_body):
    """Returns the length that a whole header gives, or the letter of its fault."""
    fields = {b"content-length": [], b"content-type": []}
    for line in header.split(b"\r\n"):
        name, _, value = line.partition(b":")
        fields.get(name.lower(), []).append(value.strip(b" \t"))
    lengths, types = fields[b"content-length"], fields[b"content-type"]
    if len(lengths) > 1 or len(types) > 1:
        return "F4"
    if not lengths:
        return "F3"
    if not lengths[0].isdigit():
        return "F5"
    digits = lengths[0].lstrip(b"0") or b"0"
    if len(digits) > 10 or int(digits) > max_body:
        return "F6"
    return int(digits) if all(map(is_good_type, types)) else "F7"


class Framer:
    """Takes a stream in pieces, and gives its records once they are whole."""

    def __init__(self, has_marks=False, place=0, max_body=MAX_BODY):
        self.has_marks, self.max_body = has_marks, max_body
        self.place = place  # of the first buffered byte, which begins a record
        self.held = bytearray()
        self._begin()

    def _begin(self):
        self.state, self.scanned, self.length = LINE, int(self.has_marks), None

    def feed(self, piece):
        self.held += piece

    def end(self):
        return self.place + len(self.held)

    def next(self):
        """Returns the next record, or None where it isn't whole yet."""
        if self.length is None and self.held:
            self._read_header()
        if self.length is None or len(self.held) < self.scanned + self.length:
            return None
        first, end = int(self.has_marks), self.scanned + self.length
        with memoryview(self.held) as held:
            record = Record(bytes(held[:first]), bytes(held[first:self.scanned]), bytes(held[self.scanned:end]))
        del self.held[:end]
        self.place += end
        self._begin()
        return record

    def _read_header(self):
        first = int(self.has_marks)
        if self.has_marks and self.held[:1] not in (EDITOR, SERVER):
            raise Fault("bad log at %d" % self.place)
        written = WRITTEN_HEADER.match(self.held, first) if self.state == LINE else None
        if written:
            self.scanned, self.state = written.end(), WHOLE
        while self.state != WHOLE and self.scanned < len(self.held):
            self.state = step(self.state, self.held[self.scanned])
            self.scanned += 1
            if self.state is None:
                raise self._fault("F1")
            if self.scanned - first == MAX_HEADER and self.state != WHOLE:
                raise self._fault("F2")
        if self.state == WHOLE:
            length = length_in(bytes(self.held[first:self.scanned]), self.max_body)
            if isinstance(length, str):
                raise self._fault(length)
            self.length = length

    def _fault(self, letter):
        return Fault("frame fault %s at %d" % (letter, self.place + self.scanned - 1))


class Log:
    """A log of either version, read from a descriptor. Going through it gives its records, or raises Fault."""

    def __init__(self, descriptor, max_body=MAX_BODY):
        self.descriptor = descriptor
        opening = b""
        while len(opening) < len(VERSION_LINE) and VERSION_LINE.startswith(opening):
            piece = read_some(descriptor)
            opening += piece
            if not piece:
                break
        self.version = 2 if opening.startswith(VERSION_LINE) else 1
        skipped = len(VERSION_LINE) if self.version == 2 else 0
        self.framer = Framer(self.version == 2, skipped, max_body)
        self.framer.feed(opening[skipped:])

    def __iter__(self):
        while True:
            record = self.framer.next()
            if record is not None:
                yield record
                continue
            piece = read_some(self.descriptor)
            if not piece:
                break
            self.framer.feed(piece)
        if self.framer.held:
            raise Fault("truncated at %d" % self.framer.end())


def wait_for(descriptor, event):
    waiter = select.poll()
    waiter.register(descriptor, event)
    waiter.poll()


def read_some(descriptor):
    """Reads what is there, and waits only where nothing is. No bytes are the end."""
    while True:
        try:
            return os.read(descriptor, PIECE)
        except BlockingIOError:
            wait_for(descriptor, select.POLLIN)


def write_all(descriptor, data):
    left = memoryview(data)
    while left:
        try:
            left = left[os.write(descriptor, left):]
        except BlockingIOError:
            wait_for(descriptor, select.POLLOUT)


def open_own(path, may_exist):
    """Opens a file to write it anew; what it holds stays until `empty`. Returns its descriptor, and whether it was made. Only
    its owner can read it. No link is followed, since somebody else may have chosen where it leads."""
    try:
        return os.open(path, os.O_WRONLY | os.O_CREAT | os.O_EXCL, 0o600), True
    except FileExistsError:
        if not may_exist:
            raise
    if os.path.islink(path):
        raise OSError(errno.ELOOP, "this is a symbolic link")
    descriptor = os.open(path, os.O_WRONLY | os.O_NOFOLLOW)
    found = os.fstat(descriptor)
    if stat.S_ISREG(found.st_mode):
        if found.st_uid != os.geteuid() or found.st_nlink != 1:
            os.close(descriptor)
            raise OSError(errno.EPERM, "this is another user's file, or has another name too")
        os.fchmod(descriptor, 0o600)
    return descriptor, False


def empty(descriptor):
    """Empties a file. (A device or a pipe stays as it is.)"""
    if stat.S_ISREG(os.fstat(descriptor).st_mode):
        os.ftruncate(descriptor, 0)


class WriteFault(Exception):
    """Standard output can't be written."""


def put(data):
    """Writes on standard output."""
    try:
        write_all(1, data)
    except OSError as error:
        raise WriteFault(error.strerror) from None


def say(text):
    """Writes a line on standard error, if there is one."""
    try:
        write_all(2, text.encode("utf-8", "backslashreplace") + b"\n")
    except OSError:
        pass


# Exit statuses of the programs that read a file
READ_OR_WRITE, NO_MEMORY = 3, 4


def run(name, path, work):
    """Has `work` read a file, or standard input where the path is None or "-". Returns the exit status, and says what went wrong."""
    signal.signal(signal.SIGPIPE, signal.SIG_DFL)  # (a reader that goes is no fault)
    try:
        work(0 if path in (None, "-") else os.open(path, os.O_RDONLY))
        return 0
    except WriteFault as error:
        status, words = READ_OR_WRITE, "write fault: %s" % error
    except OSError as error:
        status, words = READ_OR_WRITE, "read fault: %s: %s" % ("standard input" if path in (None, "-") else path, error.strerror)
    except MemoryError:
        status, words = NO_MEMORY, "out of memory"
    except Fault as fault:
        status, words = fault.status, str(fault)
    say("%s: %s" % (called(name), words))
    return status
