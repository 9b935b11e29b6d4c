#!/usr/bin/env python3
"""Runs sftp_transfer over servers that misbehave, one a case, and looks at what it leaves: nothing outside the target, no file that is half
there under its name, and the cause on standard error.

    python3 tools/hostile.py PROGRAM
"""
import os, socket, struct, subprocess, sys, tempfile, threading

INIT, VERSION, OPEN, CLOSE, READ, WRITE, LSTAT, FSTAT, SETSTAT, FSETSTAT = 1, 2, 3, 4, 5, 6, 7, 8, 9, 10
OPENDIR, READDIR, REMOVE, MKDIR, RMDIR, REALPATH, STAT, RENAME, READLINK, SYMLINK = range(11, 21)
STATUS, HANDLE, DATA, NAME, ATTRS = range(101, 106)
OK, EOF, NO_SUCH_FILE, FAILURE = 0, 1, 2, 4
FILE, FOLDER, LINK = 0o100644, 0o040755, 0o120777


def number(n):
    return struct.pack(">I", n)


def string(b):
    return number(len(b)) + b


def attributes(mode, size):
    """Size and permissions (draft-ietf-secsh-filexfer-02, section 5)."""
    return struct.pack(">IQI", 1 | 4, size, mode)


class Broken(Exception):
    """The connection is closed now."""


class Server:
    """A server of a tree: the bytes of each file by its path, the entries of each folder as names with a mode. It tells the truth; cases
    differ from it in one thing each."""
    version = 3

    def __init__(self):
        self.files = {b"/a": b"0123456789" * 30}
        self.folders = {}
        self.handles = {}
        self.given = 0

    # -- what it says

    def mode_of(self, path):
        if path in self.folders:
            return FOLDER
        return FILE if path in self.files else None

    def size_of(self, path):
        return len(self.files.get(path, b""))

    def read(self, path, offset, length):
        return self.files[path][offset:offset + length]

    def entries(self, path, asked):
        """The entries that the READDIR of this count gives; None at the end."""
        return self.folders[path] if asked == 0 else None

    def data(self, id, path, offset, length):
        piece = self.read(path, offset, length)
        return bytes([DATA]) + number(id) + string(piece) if piece else self.status(id, EOF)

    # -- how it says it

    def status(self, id, code):
        return bytes([STATUS]) + number(id) + number(code) + string(b"") + string(b"")

    def handle(self, id, what):
        self.given += 1
        handle = b"h%d" % self.given
        self.handles[handle] = what
        return bytes([HANDLE]) + number(id) + string(handle)

    def told(self, id, path):
        mode = self.mode_of(path)
        if mode is None:
            return self.status(id, NO_SUCH_FILE)
        return bytes([ATTRS]) + number(id) + attributes(mode, self.size_of(path))

    def listed(self, id, handle):
        path, asked = self.handles[handle]
        self.handles[handle] = (path, asked + 1)
        entries = self.entries(path, asked)
        if entries is None:
            return self.status(id, EOF)
        names = b"".join(
            string(name) + string(b"") + attributes(mode, self.size_of(path + b"/" + name)) for name, mode in entries
        )
        return bytes([NAME]) + number(id) + number(len(entries)) + names

    def answer(self, kind, body):
        """The body of the reply to a request."""
        if kind == INIT:
            return bytes([VERSION]) + number(self.version)
        id, fields = struct.unpack(">I", body[:4])[0], body[4:]
        length = struct.unpack(">I", fields[:4])[0]
        first, rest = fields[4:4 + length], fields[4 + length:]
        if kind in (STAT, LSTAT):
            return self.told(id, first)
        if kind == FSTAT:
            return self.told(id, self.handles[first])
        if kind == OPENDIR:
            return self.handle(id, (first, 0)) if first in self.folders else self.status(id, NO_SUCH_FILE)
        if kind == READDIR:
            return self.listed(id, first)
        if kind == OPEN:
            return self.opened(id, first, struct.unpack(">I", rest[:4])[0])
        if kind == READ:
            return self.data(id, self.handles[first], *struct.unpack(">QI", rest[:12]))
        if kind == WRITE:
            return self.written(id, self.handles[first], struct.unpack(">Q", rest[:8])[0], rest[12:])
        if kind == CLOSE:
            self.handles.pop(first)
            return self.status(id, OK)
        if kind == RENAME:
            to = rest[4:]
            if to in self.files:
                return self.status(id, FAILURE)
            self.files[to] = self.files.pop(first)
            return self.status(id, OK)
        if kind == REMOVE:
            return self.status(id, OK if self.files.pop(first, None) is not None else NO_SUCH_FILE)
        if kind == READLINK:
            return bytes([NAME]) + number(id) + number(1) + string(b"/outside") + string(b"") + number(0)
        return self.status(id, OK)

    def opened(self, id, path, flags):
        if flags & 32 and path in self.files:
            return self.status(id, FAILURE)
        if flags & 8:
            self.files.setdefault(path, b"")
        if flags & 16:
            self.files[path] = b""
        return self.handle(id, path) if path in self.files else self.status(id, NO_SUCH_FILE)

    def written(self, id, path, offset, piece):
        there = self.files[path].ljust(offset, b"\0")
        self.files[path] = there[:offset] + piece + there[offset + len(piece):]
        return self.status(id, OK)

    # -- its connection

    def send(self, link, frame):
        link.sendall(frame)

    def serve(self, link):
        coming = b""
        with link:
            try:
                while True:
                    while len(coming) < 4 or len(coming) < 4 + struct.unpack(">I", coming[:4])[0]:
                        more = link.recv(1 << 18)
                        if not more:
                            return
                        coming += more
                    length = struct.unpack(">I", coming[:4])[0]
                    body, coming = coming[4:4 + length], coming[4 + length:]
                    self.send(link, string(self.answer(body[0], body[1:])))
            except (Broken, OSError):
                pass


class Tree(Server):
    """A folder with these entries; a file has its path as its bytes, many times."""
    names = []

    def __init__(self):
        super().__init__()
        self.folders[b"/t"] = self.names
        for name, mode in self.names:
            if mode == FILE:
                self.files[b"/t/" + name] = (b"/t/" + name + b" ") * 5000


class LeadsOut(Tree):
    names = [(name, FILE) for name in (b"a", b"../out", b"x/y", b"", b"a\0b", b"/out", b"b")]


class Twice(Tree):
    names = [(b"a", FILE), (b"a", FILE), (b"b", FILE)]

    def opened(self, id, path, flags):
        # each handle gives bytes of its own
        path = path + b" %d" % self.given
        self.files[path] = (path + b" ") * 5000
        return self.handle(id, path)


class LeftPart(Tree):
    names = [(b".a.part", FILE), (b"a", FILE)]


class LongName(Tree):
    names = [(b"n" * 256, FILE), (b"a", FILE)]


class EndlessDots(Tree):
    def entries(self, path, asked):
        return [(b".", FOLDER), (b"..", FOLDER)] * 1000


class LinkAndFolder(Tree):
    names = [(b"d", LINK), (b"d", FOLDER)]

    def __init__(self):
        super().__init__()
        self.folders[b"/t/d"] = [(b"x", FILE)]
        self.files[b"/t/d/x"] = b"x"


class Endless(Tree):
    def entries(self, path, asked):
        return [(b"%d" % (asked * 2000 + k), FILE) for k in range(2000)]


class EndlessDepth(Tree):
    """Each folder has a folder."""
    def mode_of(self, path):
        return FOLDER

    def listed(self, id, handle):
        path, asked = self.handles[handle]
        self.folders[path] = [(b"d", FOLDER)]
        self.folders[path + b"/d"] = []
        return super().listed(id, handle)


class Grows(Server):
    def size_of(self, path):
        return 10


class Shrinks(Server):
    def size_of(self, path):
        return 1 << 40


class OneByte(Server):
    def read(self, path, offset, length):
        return super().read(path, offset, 1)


class TooMuch(Server):
    def read(self, path, offset, length):
        return b"x" * (length + 1)


class NoData(Server):
    def data(self, id, path, offset, length):
        return bytes([DATA]) + number(id) + string(b"")


class OtherKind(Server):
    def data(self, id, path, offset, length):
        return self.handle(id, path)


class OtherId(Server):
    def data(self, id, path, offset, length):
        return super().data(id + 77, path, offset, length)


class LongHandle(Server):
    def handle(self, id, what):
        return bytes([HANDLE]) + number(id) + string(b"h" * 257)


class OldVersion(Server):
    version = 2


class HugeFrame(Server):
    def data(self, id, path, offset, length):
        return super().data(id, path, offset, length) + b"x" * (1 << 21)


class EmptyFrame(Server):
    def data(self, id, path, offset, length):
        return b""


class RefusesReads(Server):
    def data(self, id, path, offset, length):
        return self.status(id, FAILURE)


class RefusesWrites(Server):
    def written(self, id, path, offset, piece):
        return self.status(id, FAILURE)


class RefusesFolder(Server):
    """A folder that can't be made."""
    def __init__(self):
        super().__init__()
        self.files = {}

    def answer(self, kind, body):
        if kind != MKDIR:
            return super().answer(kind, body)
        id, length = struct.unpack(">II", body[:8])
        path = body[8:8 + length]
        if path == b"/up/a":
            return self.status(id, FAILURE)
        self.folders[path] = []
        return self.status(id, OK)


class Breaks(Server):
    """The connection ends behind so many bytes."""
    def __init__(self, left):
        super().__init__()
        self.left = left

    def send(self, link, frame):
        link.sendall(frame[:self.left])
        self.left -= min(self.left, len(frame))
        if self.left == 0:
            raise Broken


class Counts(Server):
    """Counts the bytes that a whole run is answered with."""
    sent = 0

    def send(self, link, frame):
        self.sent += len(frame)
        link.sendall(frame)


failures = []
passed = 0


def expect(case, is_so, what):
    global passed
    if is_so:
        passed += 1
    else:
        failures.append(f"{case}: {what}")


def run(program, folder, server, words):
    """The status and the standard error of the program over this server."""
    path = os.path.join(folder, "socket")
    listener = socket.socket(socket.AF_UNIX)
    listener.bind(path)
    listener.listen()
    thread = threading.Thread(target=lambda: server.serve(listener.accept()[0]), daemon=True)
    thread.start()
    try:
        done = subprocess.run([program, "unix:" + path] + words, cwd=folder, capture_output=True, timeout=120, text=True, errors="replace")
    except subprocess.TimeoutExpired:
        return None, ""
    finally:
        listener.close()
        os.remove(path)
    thread.join(10)
    return done.returncode, done.stderr


def files_below(folder):
    """The files and links below a folder, by their paths."""
    found = {}
    for at, folders, names in os.walk(folder):
        for name in names + folders:
            path = os.path.join(at, name)
            if os.path.islink(path):
                found[os.path.relpath(path, folder)] = "link"
            elif os.path.isfile(path):
                with open(path, "rb") as f:
                    found[os.path.relpath(path, folder)] = f.read()
    return found


def get_tree(program, server, status, cause, wanted):
    """A tree that comes down: its status, its cause, and just these files."""
    case = type(server).__name__
    with tempfile.TemporaryDirectory() as folder:
        os.mkdir(os.path.join(folder, "in"))
        ended, told = run(program, folder, server, ["get", "-r", "-q", "/t", "in/t"])
        expect(case, ended == status, f"status {ended}, {status} wanted: {told[:200]}")
        expect(case, cause in told, f"{cause!r} isn't told: {told[:200]}")
        found = {path: bytes for path, bytes in files_below(folder).items() if not path.endswith(".part") or path in wanted}
        expect(case, found.keys() == wanted.keys(), f"there is {sorted(found)}, wanted was {sorted(wanted)}")
        for path in found.keys() & wanted.keys():
            expect(case, wanted[path] is None or found[path] == wanted[path], f"{path} has other bytes")
        return found


def get_file(program, server, status, cause, wanted):
    """A file that comes down: under its name there is this, or nothing."""
    case = type(server).__name__
    with tempfile.TemporaryDirectory() as folder:
        ended, told = run(program, folder, server, ["get", "/a", "a"])
        expect(case, ended == status, f"status {ended}, {status} wanted: {told[:200]}")
        expect(case, cause in told, f"{cause!r} isn't told: {told[:200]}")
        expect(case, files_below(folder).get("a") == wanted, "there are other bytes under the name")


def put_file(program, server, status, cause, wanted):
    """A file that goes up: under its name there is this, or nothing."""
    case = type(server).__name__
    with tempfile.TemporaryDirectory() as folder:
        with open(os.path.join(folder, "up"), "wb") as f:
            f.write(b"abc" * 100)
        ended, told = run(program, folder, server, ["put", "up", "/up"])
        expect(case, ended == status, f"status {ended}, {status} wanted: {told[:200]}")
        expect(case, cause in told, f"{cause!r} isn't told: {told[:200]}")
        expect(case, server.files.get(b"/up") == wanted, "there are other bytes under the name")
        if status in (0, 1):
            expect(case, not server.files.keys() - {b"/up", b"/a"}, f"another file is left: {sorted(server.files)}")


def put_tree(program, server, status, cause, wanted):
    """A tree of a folder with a file, and a file beside it, that goes up: its status, its cause, and just these files."""
    case = type(server).__name__
    with tempfile.TemporaryDirectory() as folder:
        os.makedirs(os.path.join(folder, "up", "a"))
        for name in ("a/b", "ab"):
            with open(os.path.join(folder, "up", name), "wb") as f:
                f.write(name.encode())
        ended, told = run(program, folder, server, ["put", "-r", "up", "/up"])
        expect(case, ended == status, f"status {ended}, {status} wanted: {told[:200]}")
        expect(case, cause in told, f"{cause!r} isn't told: {told[:200]}")
        expect(case, server.files == wanted, f"there is {sorted(server.files)}, wanted was {sorted(wanted)}")


def break_everywhere(program):
    """The connection breaks behind each byte of the server's answers, of a file that comes down and of one that goes up."""
    whole = Counts()
    get_file(program, whole, 0, "", whole.files[b"/a"])
    for left in range(1, whole.sent):
        get_file(program, Breaks(left), 7, "sftp_transfer:", None)
    whole = Counts()
    put_file(program, whole, 0, "", b"abc" * 100)
    for left in range(1, whole.sent):
        server = Breaks(left)
        # the rename may have been done before its status was cut off
        put_file(program, server, 7, "sftp_transfer:", server_left(server, left, whole.sent))


def server_left(server, left, whole):
    """What stands under the name: nothing, or all bytes where only the status of the rename was cut off."""
    return Either(None, b"abc" * 100) if left > whole - 30 else None


class Either:
    """One of two values."""
    def __init__(self, *values):
        self.values = values

    def __eq__(self, other):
        return other in self.values


def main():
    program = os.path.abspath(sys.argv[1])
    line = lambda name: (b"/t/" + name + b" ") * 5000
    get_tree(program, LeadsOut(), 1, "skipped: the name leads out of its directory", {"in/t/a": line(b"a"), "in/t/b": line(b"b")})
    found = get_tree(program, Twice(), 1, "another file is copied to the same path", {"in/t/a": None, "in/t/b": None})
    expect("Twice", len(set(found.get("in/t/a", b"").split(b"/"))) <= 3, "the bytes of two files are mixed")
    get_tree(program, LeftPart(), 0, "", {"in/t/a": line(b"a"), "in/t/.a.part": line(b".a.part")})
    get_tree(program, LongName(), 1, "skipped: the name has more than 255 bytes", {"in/t/a": line(b"a")})
    get_tree(program, EndlessDots(), 1, "more than 1000000 entries", {})
    get_tree(program, LinkAndFolder(), 1, "sftp_transfer:", {"in/t/d/x": b"x"})
    get_tree(program, Endless(), 1, "more than 1000000 entries", {})
    get_tree(program, EndlessDepth(), 1, "more than 64 nested directories", {})
    a = Server().files[b"/a"]
    get_file(program, Server(), 0, "", a)
    get_file(program, Grows(), 0, "", a)
    get_file(program, Shrinks(), 0, "", a)
    get_file(program, OneByte(), 0, "", a)
    for server in (TooMuch, OtherKind, OtherId, LongHandle, OldVersion, HugeFrame, EmptyFrame, RefusesReads):
        get_file(program, server(), 1, "sftp_transfer:", None)
    put_file(program, RefusesWrites(), 1, "the server refused the request: failure (status 4)", None)
    put_tree(program, RefusesFolder(), 1, "up/a", {b"/up/ab": b"ab"})
    break_everywhere(program)
    for failure in failures:
        print("hostile:", failure)
    print(f"hostile: {passed} passed, {len(failures)} failed")
    sys.exit(bool(failures))


if __name__ == "__main__":
    main()
