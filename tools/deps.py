#!/usr/bin/env python3
"""Checks that crates.txt lists for each crate the crates that its own files cite, and no others.

    python3 tools/deps.py            prints the lines that differ; the status is 1 if there are any
    python3 tools/deps.py --write    writes crates.txt

The toolchain computes by itself what these crates stand on in turn.
"""
import os, re, sys

ROOT = os.path.dirname(os.path.dirname(os.path.abspath(__file__)))
KIT = "arrayvec atomic_table bitflags bytes clap hex indexmap itoa jiff lru mio regex serde_json sha2 slab thiserror".split()


def crates():
    """The heads of the lines of crates.txt by crate, in their order, and the crates that each lists."""
    heads, listed = {}, {}
    for line in open(f"{ROOT}/crates.txt", encoding="utf-8"):
        if line.strip() and not line.startswith("#"):
            head, deps = line.split(":", 1)
            heads[head.split()[0]], listed[head.split()[0]] = head, deps.split()
    return heads, listed


def cited(crate, known):
    """The crates that a crate's own files name."""
    found = set()
    for at, folders, names in os.walk(f"{ROOT}/crates/{crate}"):
        folders[:] = [f for f in folders if f not in ("out", "must-fail", "data")]
        for name in names:
            if not name.endswith((".rt", ".antt")):
                continue
            text = open(os.path.join(at, name), encoding="utf-8").read()
            found |= set(re.findall(r"\bRattle\.([a-z_0-9]+)\.", text))
            if name.endswith(".rt"):
                code = re.sub(r"//.*", "", text)
                found |= set(re.findall(r"(?<![\w:])([a-z_0-9]+)::", code))
    return found & known - {crate}


def main():
    heads, listed = crates()
    order = list(heads)
    known = set(order) | set(KIT) | {dep for deps in listed.values() for dep in deps}
    lines, wrong = ["# Each crate and the crates that its own files cite."], 0
    for crate in order:
        needs = cited(crate, known)
        deps = [dep for dep in reversed(order) if dep in needs] + sorted(needs - set(order))
        lines.append(f"{heads[crate]}: {' '.join(deps)}".rstrip())
        if set(deps) != set(listed[crate]):
            wrong += 1
            less, more = sorted(set(listed[crate]) - set(deps)), sorted(set(deps) - set(listed[crate]))
            print(f"{crate}: drop {' '.join(less) or '-'}; add {' '.join(more) or '-'}")
    if "--write" in sys.argv:
        with open(f"{ROOT}/crates.txt", "w", encoding="utf-8") as out:
            out.write("\n".join(lines) + "\n")
    elif wrong:
        sys.exit(1)


main()
