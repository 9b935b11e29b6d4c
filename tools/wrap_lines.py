#!/usr/bin/env python3
"""Breaks long lines of .antt files: comments at words, all else at spaces outside text in quotes, where the fewest brackets
are open. Imports stay on one line up to 200 columns: the toolchain's formatter gives a broken one a line for each name.

    python3 tools/wrap_lines.py FOLDER [--width N]

Lines over the width (120) are laid out within the width.
"""
import os, re, sys

def option(name, default):
    return int(sys.argv[sys.argv.index(name) + 1]) if name in sys.argv else default

WIDTH, IMPORTS = option("--width", 120), 200
BEFORE = ("→", "×", "⊎", "∙", "++", "&&", "||", "≡", "|", "in")
AFTER = ("=", "in", ",", ";", "then", "else", "↦", "→")


def breaks(text):
    """The places of spaces outside quotes, each with how many brackets are open there."""
    depth, quoted, places = 0, False, []
    for i, c in enumerate(text):
        if c == '"': quoted = not quoted
        elif quoted: continue
        elif c in "([{": depth += 1
        elif c in ")]}": depth -= 1
        elif c == " ": places.append((i, depth))
    return places


def rank(text, i):
    word_after = text[i + 1:].split(" ", 1)[0]
    word_before = text[:i].rsplit(" ", 1)[-1]
    if word_before.endswith((",", ";")) or word_before in ("=", "in", "then", "else", "↦"): return 0
    if word_after in BEFORE: return 0
    if word_before in AFTER: return 1
    return 2


def laid_out(line):
    indent = len(line) - len(line.lstrip())
    base, rest, out, first = " " * (indent + 4), line.strip(), [], True
    while True:
        lead = " " * indent if first else base
        if len(lead) + len(rest) <= WIDTH: return out + [lead + rest]
        room = WIDTH - len(lead)
        # where no word stands in front, a space inside the line alone counts
        places = [(i, d) for i, d in breaks(rest) if i <= room and i > 0]
        if not places: return out + [lead + rest]
        late = [p for p in places if p[0] >= room // 2] or places
        least = min(d for i, d in late)
        fit = [i for i, d in late if d == least]
        good = min(rank(rest, i) for i in fit)
        at = max(i for i in fit if rank(rest, i) == good)
        out.append(lead + rest[:at].rstrip())
        rest, first = rest[at:].strip(), False


def comment(lines):
    """A paragraph of comment lines, laid out anew."""
    indent = len(lines[0]) - len(lines[0].lstrip())
    words, out, now = " ".join(line.strip()[3:] for line in lines).split(" "), [], " " * indent + "--"
    for word in words:
        if len(now) + 1 + len(word) > WIDTH: out.append(now); now = " " * indent + "--"
        now += " " + word
    return out + [now]


def paragraphs(lines):
    """The lines of a file; comment lines of one paragraph stand together, every other line alone."""
    out = []
    for line in lines:
        is_comment = line.lstrip().startswith("-- ") and not line.lstrip().startswith("-- --")
        lead = line[:len(line) - len(line.lstrip())] + "-- "
        if is_comment and out and out[-1][0].startswith(lead) and not out[-1][0].startswith(lead + "--"): out[-1].append(line)
        else: out.append([line])
    return out


def import_line(line):
    head, names = line[:line.index("{") + 1], line[line.index("{") + 1:line.rindex("}")].split(", ")
    out, now = [], head
    for k, name in enumerate(names):
        piece = name + ("}" if k == len(names) - 1 else ",")
        if len(now) + 1 + len(piece) > WIDTH: out.append(now); now = "   "
        now += piece if now is head or now == head else " " + piece
    return out + [now]


def wrapped(lines):
    if max(len(line) for line in lines) <= WIDTH: return lines
    line = lines[0]
    if line.lstrip().startswith("-- "): return comment(lines)
    if line.startswith(("use ", "pub use ")) and "{" in line: return lines if len(line) <= IMPORTS else import_line(line)
    return laid_out(line)


def main():
    for at, folders, names in os.walk(sys.argv[1]):
        folders[:] = [f for f in folders if f != "out"]
        for name in names:
            if not name.endswith(".antt"): continue
            path = os.path.join(at, name)
            text = open(path, encoding="utf-8").read()
            out = [part for lines in paragraphs(text.split("\n")) for part in wrapped(lines)]
            now = "\n".join(out)
            strip = lambda t: re.sub(r"\s+", "", re.sub(r"(?m)^\s*--.*$", "", t))
            if strip(now) != strip(text): sys.exit(f"{path}: another text")
            if now != text: open(path, "w", encoding="utf-8").write(now)


main()
