#!/usr/bin/env python3
"""Runs programs over peers that follow the cases of tests/peers, and compares what they write with what is expected.

    python3 tools/peers.py [NAME=PATH ..]

A PATH is run in place of the program with this name. A case is a file of these lines:

    # TEXT              a comment
    program NAME        the program; without this line sftp_cli. Its arguments are `unix` and the path of a socket
    script LINE         a line of its standard input
    raw BYTES           the peer sends these bytes
    reply N TYPE BYTES  once the frame N has come, the peer sends a frame of this type with the id of that frame and
                        these fields; the hello is frame 0
    other N TYPE BYTES  the same with another id
    status N            the exit status
    text LINE           a line of standard output
    error LINE          the line of standard error, without the program's name

Bytes and types are hexadecimal digits; 61*256 are 256 bytes 61. After its last line the peer ends the connection. Each
case is run twice: the peer sends its bytes as they are, and one at a time. The connection of the case
opened-read-closed also ends after each of its bytes, and breaks at each of its frames.
"""
import glob, os, socket, struct, subprocess, sys, tempfile, threading, time

ROOT = os.path.dirname(os.path.dirname(os.path.abspath(__file__)))
CUT = "opened-read-closed"


def bytes_of(words):
    """The bytes of hexadecimal digits, some of them repeated."""
    found = b""
    for word in words:
        digits, _, count = word.partition("*")
        found += bytes.fromhex(digits) * int(count or 1)
    return found


class Case:
    """A case by its lines."""
    def __init__(self, path):
        self.name = os.path.basename(path).removesuffix(".peer")
        self.program, self.status, self.items = "sftp_cli", 0, []
        self.script = self.text = ""
        self.error = None
        for line in open(path, encoding="utf-8").read().splitlines():
            word, _, rest = line.partition(" ")
            if word == "program":
                self.program = rest
            elif word == "script":
                self.script += rest + "\n"
            elif word == "raw":
                self.items.append((None, 0, bytes_of(rest.split())))
            elif word in ("reply", "other"):
                frame, kind, *fields = rest.split()
                self.items.append((int(frame), int(word == "other"), bytes_of([kind]) + bytes_of(fields)))
            elif word == "status":
                self.status = int(rest)
            elif word == "text":
                self.text += rest + "\n"
            elif word == "error":
                self.error = rest
            elif word != "#":
                sys.exit(f"peers: {path}: unknown line {line!r}")


class Ended(Exception):
    """The peer does nothing more."""


class Peer:
    """The peer of a case. It sends at most `most` bytes, one at a time if `single`, and breaks at the frame `breaks`."""
    def __init__(self, case, most=None, single=False, breaks=None):
        self.items, self.most, self.single, self.breaks = case.items, most, single, breaks
        self.sent, self.ids, self.came = 0, [], b""

    def send(self, link, data):
        if self.most is not None:
            data = data[:self.most - self.sent]
        for piece in [data[k:k + 1] for k in range(len(data))] if self.single else [data]:
            link.sendall(piece)
            if self.single:
                time.sleep(0.0003)
        self.sent += len(data)
        if self.sent == self.most:
            raise Ended

    def id_of(self, link, frame):
        """The id of a frame, once it has come."""
        while len(self.ids) <= frame:
            if self.breaks == len(self.ids) and not self.came:
                link.recv(1, socket.MSG_PEEK)
                link.close()
                raise Ended
            if len(self.came) >= 4 and len(self.came) >= 4 + struct.unpack(">I", self.came[:4])[0]:
                length = struct.unpack(">I", self.came[:4])[0]
                self.ids.append(self.came[5:9])
                self.came = self.came[4 + length:]
                continue
            more = link.recv(1 if self.breaks is not None else 1 << 18)
            if not more:
                raise Ended
            self.came += more
        return self.ids[frame]

    def meet(self, listener):
        """Serves the first link of a listener, unless that is closed before."""
        try:
            link, _ = listener.accept()
        except OSError:
            return
        self.serve(link)

    def serve(self, link):
        try:
            if self.most == 0:
                raise Ended
            if self.breaks is not None:
                self.id_of(link, 0)
            for frame, other, data in self.items:
                if frame is not None:
                    id = bytearray(self.id_of(link, frame))
                    id[3] ^= other
                    data = struct.pack(">I", len(data) + 4) + data[:1] + bytes(id) + data[1:]
                self.send(link, data)
        except (Ended, OSError):
            pass
        try:
            link.shutdown(socket.SHUT_WR)
            while link.recv(1 << 18):
                pass
        except OSError:
            pass
        link.close()


failures = []
passed = 0


def run(programs, case, peer, what, status, text, error=None):
    """Runs a case's program over a peer, and notes whether its status and its text are these."""
    global passed
    with tempfile.TemporaryDirectory() as folder:
        path = os.path.join(folder, "socket")
        listener = socket.socket(socket.AF_UNIX)
        listener.bind(path)
        listener.listen()
        thread = threading.Thread(target=peer.meet, args=(listener,), daemon=True)
        thread.start()
        try:
            words = [programs[case.program], "unix", path]
            done = subprocess.run(words, input=case.script.encode(), capture_output=True, timeout=60)
        except subprocess.TimeoutExpired:
            failures.append(f"{case.name}, {what}: the program did not end")
            return
        finally:
            listener.shutdown(socket.SHUT_RDWR)
            listener.close()
        thread.join(10)
    said = done.stderr.decode(errors="replace")
    is_said = error is None or said == f"{case.program}: {error}\n"
    if done.returncode == status and done.stdout == text.encode() and is_said:
        passed += 1
    else:
        got = done.stdout.decode(errors="replace")
        wanted = text if error is None else f"{text}{case.program}: {error}\n"
        failures.append(f"{case.name}, {what}: status {done.returncode} instead of {status}; it wrote")
        failures[-1] += f"\n{got}{said}instead of\n{wanted}"


def cut_everywhere(programs, case):
    """The connection ends after each byte that the peer sends, and breaks at each frame that the program sends."""
    whole = Peer(case)
    run(programs, case, whole, "to count its bytes", case.status, case.text)
    for most in range(whole.sent):
        run(programs, case, Peer(case, most=most), f"ended after {most} bytes", 1, "error LinkEnded\n")
    for frame in range(len(whole.ids)):
        run(programs, case, Peer(case, breaks=frame), f"broken at frame {frame}", 1, "error LinkFault\n")


def main():
    cases = [Case(path) for path in sorted(glob.glob(f"{ROOT}/tests/peers/*.peer"))]
    programs = {case.program: f"{ROOT}/crates/{case.program}/out/{case.program}" for case in cases}
    programs.update(word.split("=", 1) for word in sys.argv[1:])
    for name, path in programs.items():
        programs[name] = os.path.abspath(path)
        if not os.access(path, os.X_OK):
            sys.exit(f"peers: {path} is missing: run 'rt ci' first, or 'rt run' in crates/{name}")
    for case in cases:
        run(programs, case, Peer(case), "as it is", case.status, case.text, case.error)
        run(programs, case, Peer(case, single=True), "a byte at a time", case.status, case.text, case.error)
        if case.name == CUT:
            cut_everywhere(programs, case)
    if not cases:
        failures.append("there are no cases in tests/peers")
    for failure in failures:
        print("peers:", failure)
    print(f"peers: {passed} passed, {len(failures)} failed")
    sys.exit(bool(failures))


if __name__ == "__main__":
    main()
