#!/usr/bin/env python3
"""How much a reader has to believe for one definition: all definitions of specs/ that it cites, and those that they cite.

    python3 tools/believe.py [CRATE FILE NAME]      by crates, for one definition: sftp_cli Printed IsPrinted if it is left out
    python3 tools/believe.py --table                the table of docs/PROVED.md: a line for each headline
    python3 tools/believe.py --heads                writes the first line of each file of specs/
    python3 tools/believe.py --check                whether docs/PROVED.md has this table, and each file its first line

Definitions of the standard library are not counted, and of Rust types only their number. Comments and imports are no lines.

A file of specs/ with definitions below a headline begins with `-- believed`. If only some of its definitions are, the line names
those that are (`-- believed: ..`) or those that are not (`-- believed, except ..`), whichever are fewer.
"""
import os, re, sys, textwrap
from collections import defaultdict

ROOT = os.path.dirname(os.path.dirname(os.path.abspath(__file__)))
WORD = re.compile(r"[^\W\d][\w'\-]*")
DECLARATION = re.compile(r"((?:abbrev|unfoldable|opaque|pub|record|data)\s+)*(◌[^\s(){}]+|[^\s(){}:=◌]+(?:◌[^\s(){}:=]*)*)(?=[\s({:]|$)")
IMPORT = re.compile(r"(?:pub )?use Rattle\.(\w+)\.specs\.([\w.]+?)(?:\.\{(.*)\}| as (\w+))$")


def statements(text):
    """The lines of a file without comments, each import joined to one line."""
    joined = ""
    for line in text.split("\n"):
        if line.startswith("--") or not line.strip():
            continue
        joined += line
        if re.match(r"(pub )?use ", joined) and joined.count("{") > joined.count("}"):
            continue
        yield joined
        joined = ""


def unnested(lines):
    """The lines with those of an unnamed module moved to the left, each with the module's parameters, or with an empty text."""
    outer = ""
    for line in lines:
        if line.startswith("module _"):
            outer = line
        elif outer and line.startswith("  "):
            yield line[2:], outer
        else:
            outer = ""
            yield line, outer


def declared(line):
    """The name that a line declares: it has a word of a declaration, or a type before any equation."""
    found = DECLARATION.match(line)
    if found and not line.startswith(" ") and (found[1] or " : " in line.split(" = ")[0]):
        return found[2]
    return None


class Module:
    """A file of specs/: the lines of each definition, the names that it imports, and the modules that it names by a word."""

    def __init__(self, text):
        self.definitions, self.names, self.modules, self.outer = defaultdict(list), {}, {}, {}
        current = None
        for line, outer in unnested(statements(text)):
            found = IMPORT.match(line)
            if found and found[3] is not None:
                for item in filter(None, (item.strip() for item in found[3].split(","))):
                    name, _, alias = item.partition(" as ")
                    self.names[alias or name] = (f"{found[1]}.{found[2]}", name)
            elif found:
                self.modules[found[4]] = f"{found[1]}.{found[2]}"
            elif not re.match(r"(pub )?(use|mod) ", line):
                current = declared(line) or current
                if current:
                    self.definitions[current].append(line)
                    self.outer[current] = outer


def modules():
    """All files of specs/, by crate and path."""
    found = {}
    for crate in sorted(os.listdir(f"{ROOT}/crates")):
        base = f"{ROOT}/crates/{crate}/specs"
        for at, _, names in os.walk(base):
            for name in names:
                path = os.path.join(at, name)
                if name.endswith(".antt") and name != "Lib.antt":
                    inner = os.path.relpath(path, base)[:-5].replace(os.sep, ".")
                    found[f"{crate}.{inner}"] = Module(open(path, encoding="utf-8").read())
    return found


def cited(files, module, name, types):
    """The definitions that one of them names; the declared types go to their own set."""
    here = files[module]
    text = "\n".join([here.outer[name], *here.definitions[name]])
    wanted = [(here.modules[a], b) for a, b in re.findall(r"\b(\w+)\.([^\W\d][\w'\-]*)", text) if a in here.modules]
    operators = [word for word in (*here.definitions, *here.names) if "◌" in word and word.strip("◌") in text.split()]
    for word in {*WORD.findall(text), *operators}:
        if word in here.definitions:
            wanted.append((module, word))
        elif word in here.names:
            wanted.append(here.names[word])
    for at, word in wanted:
        # what a file hands on stands elsewhere
        while at in files and word not in files[at].definitions and word in files[at].names:
            at, word = files[at].names[word]
        if ".declared." in at:
            types.add(at)
        elif at in files and word in files[at].definitions:
            yield at, word


# What a program or a call of the library promises: who promises it, and the crate, the file and the name of its definition.
HEADLINES = [
    ("`sftp_cli script`, the text of a run", "sftp_cli", "Printed", "IsPrinted"),
    ("`sftp_cli`, every ending", "sftp_cli", "Ended", "ProgramEnds"),
    ("`sftp_mirror`", "sftp_mirror", "Ended", "ProgramEnds"),
    ("`sftp_view`", "sftp_view", "Ended", "ProgramEnds"),
    ("`sftp_share`", "sftp_share", "Ended", "ShareEnds"),
    ("`sftp_serve`", "sftp_serve", "Logs", "ServesStream"),
    ("`sftp_transfer`, its exit status", "sftp_transfer", "Ended", "ProgramEnds"),
    ("`copy_all`, which copies the files of `sftp_transfer`", "transfer_pool", "Told", "CopiesAll"),
    ("`make_plan`, the plan of `push` and `pull`", "transfer_sync", "Theorems", "IsSync"),
    ("`run_plan`, the run of such a plan", "transfer_sync", "Runs", "RunsPlan"),
    ("`run_lanes`", "sftp_lanes", "Reported", "IsReport"),
    ("`run_shared`", "session_threads", "Reports", "RunsShared"),
    ("`Sftp::finish`", "sftp_client", "Waits", "HasFinished"),
    ("`Sftp::flush`", "sftp_client", "Sessions", "FlushesQueue"),
    ("`Sftp::take`", "sftp_client", "Sessions", "TakesOrKept"),
    ("a poll of any call of the library", "plan_state", "Calls", "StepsByPlan"),
    ("`Core::poll`", "sftp_core", "Core", "after_poll"),
]


def cone(files, crate, file, name):
    """The definitions below one, itself included, and the declared types that they name."""
    seen, types, todo = set(), set(), [(f"{crate}.{file}", name)]
    if name not in files[f"{crate}.{file}"].definitions:
        sys.exit(f"believe: {crate}/specs/{file}.antt does not define {name}")
    while todo:
        one = todo.pop()
        if one not in seen:
            seen.add(one)
            todo += cited(files, *one, types)
    return seen, types


def table(files):
    """The lines of the table of docs/PROVED.md."""
    lines = ["| What is promised by | Its definition | Definitions | Lines |", "|---|---|---|---|"]
    for who, crate, file, name in HEADLINES:
        seen, _ = cone(files, crate, file, name)
        count = sum(len(files[module].definitions[word]) for module, word in seen)
        lines.append(f"| {who} | `{name}`, crates/{crate}/specs/{file}.antt | {len(seen)} | {count} |")
    return "\n".join(lines)


HEAD = "-- believed"


def head(definitions, seen):
    """The first lines of a file by its definitions and those of them that are below a headline; none if there are none."""
    others = [name for name in definitions if name not in seen]
    if not seen:
        return []
    if not others:
        return [HEAD]
    names = [name for name in definitions if name in seen]
    start, chosen = (f"{HEAD}: ", names) if len(names) <= len(others) else (f"{HEAD}, except ", others)
    return textwrap.wrap(start + ", ".join(chosen), 118, subsequent_indent="--   ", break_on_hyphens=False)


def body(lines):
    """The lines of a file without its head."""
    if lines and lines[0].startswith(HEAD):
        lines = lines[1:]
        while lines and lines[0].startswith("--   "):
            lines = lines[1:]
    return lines


def heads(files):
    """The path of each file of specs/, its text now, and the text that it is to have."""
    seen = set()
    for _, crate, file, name in HEADLINES:
        seen |= cone(files, crate, file, name)[0]
    for module, found in files.items():
        crate, _, file = module.partition(".")
        path = f"{ROOT}/crates/{crate}/specs/{file.replace('.', '/')}.antt"
        text = open(path, encoding="utf-8").read()
        first = head(list(found.definitions), {name for at, name in seen if at == module})
        yield path, text, "\n".join(first + body(text.split("\n")))


def by_crates(files, crate, file, name):
    """Prints how many definitions, lines and files of each crate are below a definition."""
    seen, types = cone(files, crate, file, name)
    rows = defaultdict(lambda: [0, 0, set()])
    for module, word in seen:
        row = rows[module.split(".")[0]]
        row[0] += 1
        row[1] += len(files[module].definitions[word])
        row[2].add(module)
    print(f"{'crate':18} definitions  lines  files")
    for one in sorted(rows):
        print(f"{one:18} {rows[one][0]:11}  {rows[one][1]:5}  {len(rows[one][2]):5}")
    total = [sum(r[0] for r in rows.values()), sum(r[1] for r in rows.values()), sum(len(r[2]) for r in rows.values())]
    kinds = len({t.split(".TheVariants")[0] for t in types})
    print(f"{'all':18} {total[0]:11}  {total[1]:5}  {total[2]:5}, of {len(rows)} crates, and {kinds} Rust types")


def main():
    files = modules()
    if sys.argv[1:] == ["--table"]:
        print(table(files))
    elif sys.argv[1:] == ["--check"]:
        if table(files) not in open(f"{ROOT}/docs/PROVED.md", encoding="utf-8").read():
            sys.exit("believe: the table of docs/PROVED.md is not that of tools/believe.py --table")
        stale = [os.path.relpath(path, ROOT) for path, text, wanted in heads(files) if text != wanted]
        if stale:
            sys.exit("believe: the first line is not that of tools/believe.py --heads: " + " ".join(stale))
        print("believe: the table of docs/PROVED.md and the first lines of specs/ are up to date")
    elif sys.argv[1:] == ["--heads"]:
        for path, text, wanted in heads(files):
            if text != wanted:
                open(path, "w", encoding="utf-8").write(wanted)
    else:
        by_crates(files, *(sys.argv[1:4] if len(sys.argv) > 3 else ("sftp_cli", "Printed", "IsPrinted")))


main()
