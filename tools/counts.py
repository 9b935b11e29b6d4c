#!/usr/bin/env python3
"""Counts what the code of this repository is measured by, and names the places.

    python3 tools/counts.py [--all]      of each measure the ten worst places, or all
    python3 tools/counts.py --crates     a table of the crates instead: lines, edits that must be refused, functions, clauses

- functions with more than six clauses, premises counted, by crate; tests are left out
- lines over 120 columns in documents, in specs/ and, imports left out, in proofs/
- files with more than 500 lines, in crates/ and tools/
- crates with more than five edits that must be refused, and with more than 100 functions
- words that were to go, and words that the specs/ of more than one crate define, worked rows left out
- facts of one word, bare participles, and words of the old dialect; what public items lack
- crates, the first words of their names, and those with edits that must be refused
"""
import os, re, sys
from collections import defaultdict

from prose import dialect, lacking, bare_words

ROOT = os.path.dirname(os.path.dirname(os.path.abspath(__file__)))
CLAUSES, LINES, EDITS, FUNCTIONS, WIDTH = 6, 500, 5, 100, 120
FUNCTION = re.compile(r"^(\s*)(?:pub(?:\([a-z ]+\))? )?(?:final )?(?:const )?(?:unsafe )?fn (\w+)")
WORD = re.compile(r"(?:(?:abbrev|unfoldable|opaque) )*pub (?:(record|data) )?([^\W\d][\w'\-]*)(?(1)|(?=.* :(?: |$)|$))")
# Words that had two senses, verbs without their object, and names that nobody else uses: no definition has them.
GONE = """Place Desk Contents amid went Ran Said spent behind orphan loose planned
Keeps Takes Gives Leaves Asks Begins Closes Holds Stays Goes Sends Steps""".split()
NAMED = re.compile(r"\s*(?:pub(?:\([a-z]+\))? )?(?:struct|enum|trait|fn|type|const) (\w+)")


def files(*ends):
    """The files of crates/ and tools/ with one of these endings, but for what was built: crate, part of the crate, path, lines."""
    for at, folders, names in os.walk(ROOT):
        folders[:] = sorted(f for f in folders if f not in (".git", "out"))
        for name in sorted(names):
            path = os.path.relpath(os.path.join(at, name), ROOT)
            parts = path.split(os.sep)
            if name.endswith(ends) and parts[0] in ("crates", "tools"):
                lines = open(os.path.join(at, name), encoding="utf-8").read().split("\n")
                yield parts[1], parts[2] if len(parts) > 3 else "", path, lines[:-1]


def is_test(crate, path):
    return crate.startswith("test_") or path.endswith("/tests.rt") or "/tests/" in path


def functions(lines):
    """Of each function outside `#[cfg(test)]` its name, its line, and how many clauses its head has."""
    tested = None
    for at, line in enumerate(lines):
        if "#[cfg(test)]" in line and lines[at + 1].rstrip().endswith("{"):
            tested = re.match(r"\s*", line)[0] + "}"
        if line == tested:
            tested = None
        found = FUNCTION.match(line)
        if found and tested is None and "#[test]" not in lines[at - 1]:
            yield found[2], at + 1, clauses(lines, at, found[1])


def clauses(lines, at, indent):
    """How many clauses stand before the body: clauses are indented once more than `fn`, and the body opens by `{` below it."""
    count = 0
    for k in range(at, len(lines)):
        line = lines[k]
        clause = re.match(indent + r"    (requires|ensures)\b", line)
        count += bool(clause)
        opens = line.endswith(("{", "{}")) and not clause and (count == 0 or line.startswith(indent + "{"))
        if opens or (line.endswith(";") and (count == 0 or re.match(indent + r"    \S", line))) or (k > at and line == indent + "}"):
            break
    return count


def wide(lines, width):
    return [k for k, line in enumerate(lines, 1) if len(line) > width]


def documents():
    for folder in ("", "docs"):
        for name in sorted(os.listdir(os.path.join(ROOT, folder))):
            if name.endswith(".md"):
                yield os.path.join(folder, name)
    for crate in sorted(os.listdir(f"{ROOT}/crates")):
        if os.path.exists(f"{ROOT}/crates/{crate}/README.md"):
            yield f"crates/{crate}/README.md"


def told(title, places, count=None):
    """Prints a measure and its places, the worst first: pairs of a number and a text."""
    places = sorted(places, key=lambda place: (-place[0], place[1]))
    print(f"{title}: {len(places) if count is None else count}")
    for number, text in places if "--all" in sys.argv else places[:10]:
        print(f"{number:6} {text}")


def table():
    """Lines of each part of each crate, comments and empty lines among them, its edits, functions and their clauses."""
    rows = defaultdict(lambda: defaultdict(int))
    for crate, part, path, lines in files(".rt", ".antt", ".edit"):
        row = rows[crate]
        if path.startswith("tools") or path.endswith(".edit"):
            row["edits"] += path.endswith(".edit")
        elif part == "src" and is_test(crate, path):
            row["tests"] += len(lines)
        else:
            row[part] += len(lines)
            for _, _, count in functions(lines) if part == "src" else ():
                row["functions"] += 1
                row["clauses"] += count
    columns = "src tests specs proofs edits functions clauses".split()
    rows["all"] = {column: sum(row[column] for row in rows.values()) for column in columns}
    print(f"{'crate':18}" + "".join(f"{column:>10}" for column in columns))
    for crate in rows:
        if any(rows[crate][column] for column in columns):
            print(f"{crate:18}" + "".join(f"{rows[crate][column]:10}" for column in columns))


def main():
    if "--crates" in sys.argv:
        return table()
    many, over, broad_specs, broad_proofs, long = defaultdict(int), [], [], [], []
    edits, words, has, gone = defaultdict(int), defaultdict(set), defaultdict(int), []
    for crate, part, path, lines in files(".rt", ".antt", ".edit", ".py", ".sh"):
        if path.endswith(".edit"):
            edits[crate] += 1
            continue
        if len(lines) > LINES:
            long.append((len(lines), path))
        if part in ("src", "specs") and not is_test(crate, path):
            found = [(k, (NAMED if part == "src" else WORD).match(line)) for k, line in enumerate(lines, 1)]
            gone += [(k, f"{path} {it[it.lastindex]}") for k, it in found if it and it[it.lastindex] in GONE]
        if part == "src" and not is_test(crate, path):
            for name, line, count in functions(lines):
                has[crate] += 1
                if count > CLAUSES:
                    many[crate] += 1
                    over.append((count, f"{path}:{line} {name}"))
        if part == "specs":
            broad_specs += [(len(lines[k - 1]), f"{path}:{k}") for k in wide(lines, WIDTH)]
            if not re.search(r"(Rows|RowWords|PlanWords|Lib)\.antt$", path):
                for found in filter(None, map(WORD.match, lines)):
                    words[found[2]].add(crate)
        if part == "proofs":
            broad_proofs += [(len(lines[k - 1]), f"{path}:{k}") for k in wide(lines, WIDTH) if "use Rattle" not in lines[k - 1]]
    broad = []
    for path in documents():
        lines = open(os.path.join(ROOT, path), encoding="utf-8").read().split("\n")
        broad += [(len(lines[k - 1]), f"{path}:{k}") for k in wide(lines, WIDTH)]
    twice = [(len(crates), f"{word}: {' '.join(sorted(crates))}") for word, crates in words.items() if len(crates) > 1]

    told(f"functions of {sum(has.values())} with over {CLAUSES} clauses", over)
    told("of these by crate", [(n, crate) for crate, n in many.items()], sum(many.values()))
    told(f"lines over {WIDTH} columns in documents", broad)
    told(f"lines over {WIDTH} columns in specs/", broad_specs)
    told(f"lines over {WIDTH} columns in proofs/, but for imports", broad_proofs)
    told(f"files over {LINES} lines", long)
    told(f"crates with over {EDITS} edits that must be refused", [(n, crate) for crate, n in edits.items() if n > EDITS])
    told(f"crates with over {FUNCTIONS} functions", [(n, crate) for crate, n in has.items() if n > FUNCTIONS])
    rooms = {crate.split("_")[0] for crate in os.listdir(f"{ROOT}/crates")}
    told("crates", [(1, room) for room in rooms], len(os.listdir(f"{ROOT}/crates")))
    told("first words of their names", [], len(rooms))
    told("crates with edits that must be refused", [(n, crate) for crate, n in edits.items()])
    for title, places in {**bare_words(ROOT), **dialect(ROOT), **lacking(ROOT)}.items():
        told(title, places)
    told("words that were to go", gone)
    told("words that more than one crate defines", twice)


main()
