#!/usr/bin/env python3
"""Changes a tree at random, runs `sftp_transfer push` or `pull` with --delete over a server at a Unix socket, and compares
the two trees after each run. Every fifth run is killed first, at a moment by chance, and then made again.

    tools/trees.py PROGRAM SOCKET DIRECTORY [ROUNDS [ENTRIES [SEED]]]

If rsync is installed, a third tree is made like the source by `rsync -rlt --delete`, and compared too. The first line that
differs is printed, and the status is 1 then.
"""
import os
import random
import shutil
import signal
import stat
import subprocess
import sys
import time

NAMES = ["a", "b", "c", "data", "index.html", ".hidden", "with space", "ü", "-dash", "x" * 200, "new\nline"]


def entries(root):
    """Returns what a tree has: each path with its kind and content, and for files their size and second of change."""
    found = {}
    for folder, folders, files in os.walk(root):
        for name in folders + files:
            path = os.path.join(folder, name)
            info = os.lstat(path)
            below = os.path.relpath(path, root)
            if stat.S_ISLNK(info.st_mode):
                found[below] = ("link", os.readlink(path))
            elif stat.S_ISDIR(info.st_mode):
                found[below] = ("directory",)
            else:
                with open(path, "rb") as file:
                    found[below] = ("file", file.read(), int(info.st_mtime))
    return found


def remove(path):
    if os.path.isdir(path) and not os.path.islink(path):
        shutil.rmtree(path)
    else:
        os.unlink(path)


class Tree:
    """A tree that is changed at random."""

    def __init__(self, root, chance):
        self.root = root
        self.chance = chance
        self.clock = 1_000_000_000
        os.mkdir(root)

    def folders(self):
        return [folder for folder, _, _ in os.walk(self.root)]

    def some_path(self):
        folder = self.chance.choice(self.folders())
        name = f"{self.chance.choice(NAMES)}{self.chance.randrange(400)}"
        return os.path.join(folder, name)

    def write(self, path):
        size = self.chance.choice([0, 1, 10, 1000, 40000, 300000 if self.chance.random() < 0.02 else 5])
        with open(path, "wb") as file:
            file.write(self.chance.randbytes(size))
        self.clock += self.chance.randrange(1, 100)
        os.utime(path, (self.clock, self.clock))

    def make(self):
        path = self.some_path()
        if os.path.lexists(path):
            return
        kind = self.chance.random()
        if kind < 0.2 and path.count("/") < self.root.count("/") + 8:
            os.mkdir(path)
        elif kind < 0.3:
            os.symlink(self.chance.choice(["a", "../b", "c/d", "."]), path)
        else:
            self.write(path)

    def change(self):
        """Makes one change: something new, something removed, rewritten, replaced by another kind, or moved."""
        act = self.chance.random()
        paths = [p for p in entries_of(self.root)]
        if act < 0.35 or not paths:
            return self.make()
        path = self.chance.choice(paths)
        if not os.path.lexists(path):
            return None
        if act < 0.55:
            remove(path)
        elif act < 0.8:
            if os.path.isfile(path) and not os.path.islink(path):
                self.write(path)
        elif act < 0.9:
            remove(path)
            self.chance.choice([os.mkdir, self.write, lambda p: os.symlink("a", p)])(path)
        else:
            to = self.some_path()
            if not os.path.lexists(to) and not to.startswith(path + "/"):
                os.rename(path, to)
        return None


def entries_of(root):
    return [os.path.join(folder, name) for folder, folders, files in os.walk(root) for name in folders + files]


def difference(one, other):
    """Returns the first path at which two trees differ, or None."""
    for path in sorted(set(one) | set(other)):
        if one.get(path) != other.get(path):
            left, right = one.get(path), other.get(path)
            return f"{path!r}: {left and (left[0], left[-1])} and {right and (right[0], right[-1])}"
    return None


def run(program, socket, way, source, target, kill_after=None):
    options = ["--delete", "--delete-at-most", "1000000", "--links", "as-is", "-q"]
    command = [program, f"unix:{socket}", way, *options, source, target]
    process = subprocess.Popen(command, stdin=subprocess.DEVNULL, stderr=subprocess.PIPE)
    if kill_after is not None:
        time.sleep(kill_after)
        process.send_signal(signal.SIGKILL)
    _, told = process.communicate(timeout=120)
    return process.returncode, told


def main():
    program, socket, room = sys.argv[1:4]
    rounds = int(sys.argv[4]) if len(sys.argv) > 4 else 50
    size = int(sys.argv[5]) if len(sys.argv) > 5 else 2000
    seed = int(sys.argv[6]) if len(sys.argv) > 6 else 1
    chance = random.Random(seed)
    shutil.rmtree(room, ignore_errors=True)
    os.mkdir(room)
    tree = Tree(f"{room}/source", chance)
    while len(entries(tree.root)) < size:
        for _ in range(size // 10):
            tree.make()
    rsync = shutil.which("rsync")
    took = 0.0
    for number in range(rounds):
        way = "push" if number % 2 == 0 else "pull"
        target = f"{room}/{way}ed"
        for _ in range(chance.randrange(1, 60)):
            tree.change()
        if number % 5 == 4:
            run(program, socket, way, tree.root, target, kill_after=chance.random() * max(took, 0.05))
        began = time.time()
        status, told = run(program, socket, way, tree.root, target)
        took = time.time() - began
        wanted = entries(tree.root)
        found = difference(wanted, entries(target))
        if status != 0 or found:
            print(f"trees: round {number} of seed {seed}, {way}: status {status}, {found}\n{told.decode(errors='replace')[:500]}")
            return 1
        if rsync:
            subprocess.run([rsync, "-rlt", "--delete", f"{tree.root}/", f"{room}/rsynced/"], check=True)
            found = difference(entries(target), entries(f"{room}/rsynced"))
            if found:
                print(f"trees: round {number} of seed {seed}: rsync's tree differs, {found}")
                return 1
    print(f"trees: {rounds} rounds with {len(wanted)} entries at last")
    return 0


sys.exit(main())
