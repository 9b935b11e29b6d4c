#!/usr/bin/env python3
"""Serves masters of ssh that misbehave, each at a socket of its own in a directory.

    masters.py DIRECTORY

tools/ssh.sh starts it. Each master answers the first bytes that come with all that it says (OpenSSH's PROTOCOL.mux, and
RFC 4254 after the proxy mode has begun), then reads on and says no more.
"""
import os
import socket
import struct
import sys
import threading


def number(n):
    return struct.pack(">I", n)


def text(data):
    return number(len(data)) + data


def message(data):
    """A message of a channel: its length, a byte of padding, and the message."""
    return text(b"\0" + data)


HELLO = text(number(1) + number(4))
PROXY = text(number(0x8000000F) + number(0))
CONFIRMATION = message(b"\x5b" + number(0) + number(3) + number(0) + number(1 << 15))
WINDOW = message(b"\x5d" + number(0) + number(1 << 21))
SUCCESS = message(b"\x63" + number(0))
FAILURE = message(b"\x64" + number(0))
OPEN = HELLO + PROXY + CONFIRMATION + WINDOW + SUCCESS
VERSION = text(text(b"\2" + number(3)))

MASTERS = {
    # another version of the multiplexing protocol
    "version": text(number(1) + number(5)),
    # the proxy mode is refused
    "noproxy": HELLO + text(number(0x80000003) + number(0) + text(b"no")),
    # a server of another kind
    "other": b"SSH-2.0-OpenSSH_9.2\r\n",
    # nothing, and the end
    "ends": b"",
    # the channel is refused
    "nochannel": HELLO + PROXY + message(b"\x5c" + number(0) + number(1) + text(b"prohibited") + text(b"")),
    # the subsystem is refused
    "nosubsystem": HELLO + PROXY + CONFIRMATION + FAILURE,
    # a message of 40000 bytes
    "long": OPEN + number(40000) + b"\0" * 100,
    # bytes for another channel
    "foreign": OPEN + message(b"\x5e" + number(7) + text(b"x")),
    # a string that is cut off
    "short": OPEN + message(b"\x5e" + number(0) + number(9) + b"x"),
    # bytes after the end of the stream
    "after": OPEN + message(b"\x60" + number(0)) + message(b"\x5e" + number(0) + text(b"x")),
    # the end within a message
    "lost": OPEN + message(b"\x5e" + number(0) + VERSION)[:9],
    # a window over 4294967295 bytes
    "over": OPEN + message(b"\x5d" + number(0) + number(0xFFFFFFFF)),
    # a line of standard error, and the end
    "said": OPEN
    + message(b"\x5f" + number(0) + number(1) + text(b"This account is locked.\n"))
    + message(b"\x60" + number(0))
    + message(b"\x61" + number(0)),
    # tells that all the others are there
    "ready": b"",
}


def answer(connection, said):
    connection.settimeout(2)
    try:
        if connection.recv(12):
            connection.sendall(said)
        if said not in (MASTERS["ends"], MASTERS["lost"]):
            while connection.recv(4096):
                pass
    except OSError:
        pass
    connection.close()


def serve(listener, said):
    while True:
        connection, _ = listener.accept()
        threading.Thread(target=answer, args=(connection, said), daemon=True).start()


def main():
    for name, said in MASTERS.items():
        listener = socket.socket(socket.AF_UNIX)
        listener.bind(os.path.join(sys.argv[1], name))
        listener.listen(5)
        threading.Thread(target=serve, args=(listener, said), daemon=True).start()
    threading.Event().wait()


main()
