#!/usr/bin/env python3
"""Draws how long many small files take, by sftp_transfer and by sftp, as an SVG.

    python3 tools/bench.py counts | tee counts.txt
    python3 tools/picture.py "WHERE AND WHEN IT WAS MEASURED" < counts.txt > docs/many-files.svg

The input has a line `files N sftp_transfer SECONDS sftp SECONDS` for each number of files. Both axes are logarithmic.
"""
import math, sys

WIDTH, HEIGHT, LEFT, RIGHT, TOP, BOTTOM = 720, 380, 70, 150, 46, 52
COLOURS = {"sftp": "#b3541e", "sftp_transfer": "#1f6f8b"}


def rows(lines):
    """The numbers of files, and the seconds of each program."""
    found = [line.split() for line in lines if line.startswith("files ")]
    return [int(words[1]) for words in found], {"sftp_transfer": [float(w[3]) for w in found], "sftp": [float(w[5]) for w in found]}


def scale(low, high, start, end):
    """A function from numbers to places on a logarithmic axis."""
    span = math.log10(high / low)
    return lambda x: start + (end - start) * math.log10(x / low) / span


def powers(low, high):
    """The powers of ten from one number to another."""
    return [10.0 ** k for k in range(math.floor(math.log10(low)), math.ceil(math.log10(high)) + 1)]


def text(x, y, words, extra=""):
    return f'<text x="{x:.1f}" y="{y:.1f}" {extra}>{words}</text>'


def draw(counts, seconds, caption):
    """The lines of the picture."""
    every = [s for one in seconds.values() for s in one]
    low, high = powers(min(every), max(every))[0], powers(min(every), max(every))[-1]
    across = scale(counts[0], counts[-1], LEFT, WIDTH - RIGHT)
    up = scale(low, high, HEIGHT - BOTTOM, TOP)
    out = [f'<svg xmlns="http://www.w3.org/2000/svg" viewBox="0 0 {WIDTH} {HEIGHT}" font-family="sans-serif" font-size="13" fill="#333">',
           f'<rect width="{WIDTH}" height="{HEIGHT}" fill="#fff"/>',
           text(LEFT, 24, "Seconds to copy files of 10,000 bytes from a server 10 ms away, each way", 'font-size="15"')]
    for y in powers(low, high):
        out.append(f'<line x1="{LEFT}" y1="{up(y):.1f}" x2="{WIDTH - RIGHT}" y2="{up(y):.1f}" stroke="#ddd"/>')
        out.append(text(LEFT - 8, up(y) + 4, f"{y:g} s", 'text-anchor="end"'))
    for x in counts:
        out.append(text(across(x), HEIGHT - BOTTOM + 18, f"{x:,}", 'text-anchor="middle"'))
    out.append(text((LEFT + WIDTH - RIGHT) / 2, HEIGHT - 14, f"files; {caption}", 'text-anchor="middle" font-size="12"'))
    for name, values in seconds.items():
        points = " ".join(f"{across(x):.1f},{up(y):.1f}" for x, y in zip(counts, values))
        out.append(f'<polyline points="{points}" fill="none" stroke="{COLOURS[name]}" stroke-width="2.5"/>')
        for x, y in zip(counts, values):
            out.append(f'<circle cx="{across(x):.1f}" cy="{up(y):.1f}" r="3.5" fill="{COLOURS[name]}"/>')
        label = "sftp -r" if name == "sftp" else name
        out.append(text(across(counts[-1]) + 10, up(values[-1]) + 4, f"{label}, {values[-1]:.1f} s", f'fill="{COLOURS[name]}"'))
    return out + ["</svg>"]


def main():
    counts, seconds = rows(sys.stdin)
    if not counts:
        sys.exit("picture: no line of the input begins with 'files'")
    print("\n".join(draw(counts, seconds, sys.argv[1] if len(sys.argv) > 1 else "measured once")))


main()
