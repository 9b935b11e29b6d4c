#!/usr/bin/env python3
"""Runs sftp_transfer over servers that are allowed and odd, and ends it by a signal at each request: limits at their ends, a
VERSION with many extensions, one handle for all files, DATA of a few bytes, RENAMEs that are refused. Whatever happens,
a name has its old or its whole content.

    python3 tools/scenes.py PROGRAM
"""
import os, signal, socket, subprocess, sys, tempfile, threading

import hostile
from hostile import (
    CLOSE, DATA, EOF, FAILURE, FILE, HANDLE, INIT, MKDIR, NO_SUCH_FILE, READ, REMOVE, RENAME, VERSION, Server, Tree, number,
    string,
)

EXTENDED, EXTENDED_REPLY = 200, 201


class Limits(Server):
    """Answers the query for limits with these: the longest packet, READ and WRITE, and the number of handles."""
    def __init__(self, limits):
        super().__init__()
        self.limits = limits

    def answer(self, kind, body):
        if kind == INIT:
            return bytes([VERSION]) + number(3) + string(b"limits@openssh.com") + string(b"1")
        if kind == EXTENDED:
            return bytes([EXTENDED_REPLY]) + body[:4] + b"".join(limit.to_bytes(8, "big") for limit in self.limits)
        return super().answer(kind, body)


class Offers(Server):
    """Sends a VERSION with these extensions."""
    def __init__(self, pairs):
        super().__init__()
        self.pairs = pairs

    def answer(self, kind, body):
        if kind == INIT:
            return bytes([VERSION]) + number(3) + b"".join(string(name) + string(value) for name, value in self.pairs)
        return super().answer(kind, body)


class OneHandle(Tree):
    """Gives each file the same handle, and ten bytes to the first READ of each."""
    names = [(b"%d" % k, FILE) for k in range(20)]

    def opened(self, id, path, flags):
        return bytes([HANDLE]) + number(id) + string(b"same")

    def answer(self, kind, body):
        if kind == READ:
            id, offset = body[:4], int.from_bytes(body[12:20], "big")
            at = int.from_bytes(id, "big")
            return self.status(at, EOF) if offset else bytes([DATA]) + id + string(b"x" * 10)
        if kind == CLOSE:
            return self.status(int.from_bytes(body[:4], "big"), 0)
        return super().answer(kind, body)


class FewBytes(Server):
    def __init__(self, step):
        super().__init__()
        self.step = step
        self.files[b"/a"] = b"q" * 30000

    def read(self, path, offset, length):
        return super().read(path, offset, min(length, self.step))


class HasOld(Server):
    """A file has the name that another one is to get."""
    def __init__(self):
        super().__init__()
        self.files = {b"/up": b"old"}


def renamed(body):
    """The two names of a RENAME."""
    length = int.from_bytes(body[4:8], "big")
    return body[8:8 + length], body[12 + length:]


class RefusesRenames(HasOld):
    """Each RENAME is refused with this status."""
    def __init__(self, code):
        super().__init__()
        self.code = code

    def answer(self, kind, body):
        if kind == RENAME:
            return self.status(int.from_bytes(body[:4], "big"), self.code)
        return super().answer(kind, body)


class RefusesParts(HasOld):
    """Each RENAME of a part is refused, the first with FAILURE and later ones with this status."""
    def __init__(self, code):
        super().__init__()
        self.codes = [code, FAILURE]

    def answer(self, kind, body):
        if kind == RENAME and renamed(body)[0].endswith(b".part"):
            return self.status(int.from_bytes(body[:4], "big"), self.codes.pop() if self.codes[1:] else self.codes[0])
        return super().answer(kind, body)


class KeepsOld(HasOld):
    """Each REMOVE is refused."""
    def answer(self, kind, body):
        if kind == REMOVE:
            return self.status(int.from_bytes(body[:4], "big"), FAILURE)
        return super().answer(kind, body)


class RefusesBack(HasOld):
    """Each RENAME of a part is refused, and each one of a file that is aside."""
    def answer(self, kind, body):
        if kind == RENAME and renamed(body)[0].endswith((b".part", b".old")):
            return self.status(int.from_bytes(body[:4], "big"), FAILURE)
        return super().answer(kind, body)


class HasFolder(Server):
    """A folder has the name that a file is to get."""
    def __init__(self):
        super().__init__()
        self.files = {}
        self.folders[b"/up/ab"] = []
        self.moved = False

    def answer(self, kind, body):
        id = int.from_bytes(body[:4], "big")
        if kind == MKDIR:
            self.folders[body[8:8 + int.from_bytes(body[4:8], "big")]] = []
        if kind == RENAME:
            old, to = renamed(body)
            self.moved |= old in self.folders
            if to in self.folders or old in self.folders:
                return self.status(id, FAILURE)
        return super().answer(kind, body)


class LongNameOld(HasOld):
    """A name of 255 bytes has a file, and no name may have more."""
    name = b"/" + b"n" * 255

    def __init__(self):
        super().__init__()
        self.files = {self.name: b"old"}

    def answer(self, kind, body):
        if kind == RENAME and any(len(name) > 256 for name in renamed(body)):
            return self.status(int.from_bytes(body[:4], "big"), FAILURE)
        return super().answer(kind, body)


class Ends(Server):
    """Sends the program a signal when this request comes."""
    def __init__(self, files, at, sign):
        super().__init__()
        self.files = dict(files)
        self.left = at
        self.sign = sign
        self.started = None
        self.ready = threading.Event()

    def answer(self, kind, body):
        self.left -= 1
        if self.left == 0 and self.ready.wait(10):
            os.kill(self.started, self.sign)
        return super().answer(kind, body)


def allowed(program):
    """Servers that are odd: each copy succeeds, unless its RENAME is refused, and then the old file stays."""
    most = (1 << 64) - 1
    for limits in ((0, 0, 0, 0), (1, 1, 1, 1), (most,) * 4, (0, most, most, 0), (300, 1 << 63, 1 << 63, 1)):
        server = Limits(limits)
        hostile.get_file(program, server, 0, "", server.files[b"/a"])
        hostile.put_file(program, Limits(limits), 0, "", b"abc" * 100)
    for pairs in ([(b"n", b"v")] * 100000, [(b"n" * 1000000, b"1")], [(b"posix-rename@openssh.com", b"2")]):
        server = Offers(pairs)
        hostile.get_file(program, server, 0, "", server.files[b"/a"])
    hostile.get_tree(program, OneHandle(), 0, "", {"in/t/%d" % k: b"x" * 10 for k in range(20)})
    for step in (1, 7):
        server = FewBytes(step)
        hostile.get_file(program, server, 0, "", server.files[b"/a"])
    hostile.put_file(program, HasOld(), 0, "", b"abc" * 100)
    for code in (NO_SUCH_FILE, 3, FAILURE, 8):
        hostile.put_file(program, RefusesRenames(code), 1, f"(status {code})", b"old")
        hostile.put_file(program, RefusesParts(code), 1, f"(status {code})", b"old")
    kept_aside(program)


def kept_aside(program):
    """The old file stays aside if it can't be removed or renamed back, and a folder and a long name are no such case."""
    new = b"abc" * 100
    for server, status, named in ((KeepsOld(), 0, new), (RefusesBack(), 1, None)):
        with tempfile.TemporaryDirectory() as folder:
            with open(os.path.join(folder, "up"), "wb") as f:
                f.write(new)
            ended, told = hostile.run(program, folder, server, ["put", "up", "/up"])
        case = type(server).__name__
        hostile.expect(case, ended == status, f"status {ended}: {told[:200]}")
        hostile.expect(case, server.files.pop(b"/up", None) == named, "there are other bytes under the name")
        left = list(server.files.items())
        hostile.expect(case, len(left) == 1 and left[0][0].endswith(b".part.old") and left[0][1] == b"old", f"{left} is left")
    server = HasFolder()
    hostile.put_tree(program, server, 1, "up/ab", {b"/up/a/b": b"a/b"})
    hostile.expect("HasFolder", not server.moved, "the folder was renamed")
    server = LongNameOld()
    with tempfile.TemporaryDirectory() as folder:
        with open(os.path.join(folder, "up"), "wb") as f:
            f.write(new)
        ended, told = hostile.run(program, folder, server, ["put", "up", os.fsdecode(server.name)])
    hostile.expect("LongNameOld", ended == 0 and server.files == {server.name: new}, f"status {ended}: {told[:200]}")


def ended(program, way, at, sign):
    """One run that a signal ends at a request."""
    case = f"{way}, ended by {sign.name} at request {at}"
    new, old = b"new" * 100000, b"old"
    with tempfile.TemporaryDirectory() as folder:
        near = os.path.join(folder, "near")
        with open(near, "wb") as f:
            f.write(old if way == "get" else new)
        server = Ends({b"/far": new if way == "get" else old}, at, sign)
        path = os.path.join(folder, "socket")
        listener = socket.socket(socket.AF_UNIX)
        listener.bind(path)
        listener.listen()
        thread = threading.Thread(target=lambda: server.serve(listener.accept()[0]), daemon=True)
        thread.start()
        words = ["get", "/far", near] if way == "get" else ["put", near, "/far"]
        started = subprocess.Popen([program, "unix:" + path] + words, stderr=subprocess.DEVNULL)
        server.started = started.pid
        server.ready.set()
        status = started.wait(60)
        thread.join(10)
        listener.close()
        if way == "get":
            with open(near, "rb") as f:
                now = f.read()
        else:
            now = server.files.get(b"/far")
        hostile.expect(case, status in (0, -sign), f"status {status}")
        # without posix-rename the old file is aside before the new one gets its name
        between = way == "put" and now is None and {old, new} <= set(server.files.values())
        hostile.expect(case, now in (old, new) or between, f"{len(now or b'')} bytes have the name")
        hostile.expect(case, status != 0 or now == new, "the status is 0, and the name has the old bytes")


def main():
    program = os.path.abspath(sys.argv[1])
    allowed(program)
    for sign in (signal.SIGKILL, signal.SIGTERM, signal.SIGINT):
        for at in range(1, 19):
            ended(program, "get", at, sign)
            ended(program, "put", at, sign)
    for failure in hostile.failures:
        print("scenes:", failure)
    print(f"scenes: {hostile.passed} passed, {len(hostile.failures)} failed")
    sys.exit(bool(hostile.failures))


if __name__ == "__main__":
    main()
