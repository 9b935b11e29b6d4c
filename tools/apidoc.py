#!/usr/bin/env python3
"""Writes docs/API.md: the public items of the crates for users, each with the first sentence of its comment.

    python3 tools/apidoc.py            writes the page
    python3 tools/apidoc.py --check    compares it with the crates; the status is 1 if it differs

An item is listed with the crate that defines it. Methods that a trait declares are listed with the trait.
"""
import glob, os, re, sys, textwrap

ROOT = os.path.dirname(os.path.dirname(os.path.abspath(__file__)))
PAGE = f"{ROOT}/docs/API.md"
CRATES = """ssh_encoding sftp_values sftp_model sftp_wire sftp_meta sftp_link link_duplex ssh_channel sftp_core sftp_file sftp_fs
sftp_fs_read sftp_buffered sftp_streams sftp_client sftp_lanes session_seats sftp_tasks session_threads""".split()

ITEM = re.compile(r"\s*pub (?:const |unsafe )*(fn|struct|enum|trait|type|const|static) ([A-Za-z_0-9]+)")
TRAIT_FN = re.compile(r"\s*fn ([a-z_0-9]+)")
BLOCK = re.compile(r"impl(?:<.*?>)? ([A-Za-z_0-9]+)(?:<.*>)? \{|impl.* for .*\{|(pub )?trait ([A-Za-z_0-9]+)")


def sentence(comment):
    """The first sentence of a comment's lines."""
    text = " ".join(comment)
    found = re.match(r"(.*?[.:!?])(?:\s|$)", text)
    return (found.group(1) if found else text).rstrip(":")


def head(path):
    """The first sentence of the comment of a crate or a module."""
    lines = [l[3:].strip() for l in open(path, encoding="utf-8") if l.startswith("//!")]
    return " ".join(lines[: lines.index("")] if "" in lines else lines)


def items(path):
    """The public items of a file: the block in which each is, its kind, its name and its sentence."""
    block, trait, comment, found, ended = "", False, [], [], False
    for line in open(path, encoding="utf-8"):
        line = line.rstrip("\n")
        doc = re.match(r"\s*/// ?(.*)", line)
        if doc:
            ended = ended or not doc.group(1)
            if not ended:
                comment.append(doc.group(1).strip())
            continue
        if re.match(r"\s*#\[", line):
            continue
        if not line.startswith(" "):
            start = BLOCK.match(line)
            if start:
                block = start.group(1) or (start.group(3) if start.group(2) else "")
                trait = bool(start.group(2))
        item = ITEM.match(line)
        if item and (not line.startswith(" ") or block):
            found.append((block if line.startswith(" ") else "", item.group(1), item.group(2), sentence(comment)))
        elif comment and trait and TRAIT_FN.match(line):
            found.append((block, "fn", TRAIT_FN.match(line).group(1), sentence(comment)))
        comment, ended = [], False
        if line == "}":
            block, trait = "", False
    return found


def exported(crate):
    """The names that a crate's root exports of its own modules, and those that it has itself."""
    text = open(f"{ROOT}/crates/{crate}/src/lib.rt", encoding="utf-8").read()
    modules = re.findall(r"^(?:pub )?mod ([a-z_0-9]+);", text, re.M)
    names = set()
    for module, list_ in re.findall(r"pub use ([a-z_0-9:]+)::(\{[^}]*\}|[A-Za-z_0-9*]+);", text):
        if module.split("::")[0] in modules or module.startswith("crate"):
            names |= set(re.findall(r"[A-Za-z_0-9*]+", list_))
    return names, set(re.findall(r"^pub mod ([a-z_0-9]+);", text, re.M))


def lines_of(crate):
    """The lines of a crate: its head, its items, and their methods below them."""
    names, public = exported(crate)
    top, methods = {}, {}
    for path in sorted(glob.glob(f"{ROOT}/crates/{crate}/src/**/*.rt", recursive=True)):
        module = os.path.splitext(os.path.relpath(path, f"{ROOT}/crates/{crate}/src"))[0]
        opened = module.split("/")[0] in public
        for block, kind, name, text in items(path):
            if not text:
                continue
            if block:
                methods.setdefault(block, []).append((name, text))
            elif name in names or opened or module == "lib" or "*" in names:
                label = f"{module.replace('/', '::')}::{name}" if opened and name not in names else name
                top[label] = (kind, name, text)
    out = [f"## {crate}", "", *textwrap.wrap(head(f"{ROOT}/crates/{crate}/src/lib.rt"), 120), ""]
    for label, (kind, name, text) in sorted(top.items()):
        out += wrapped("- ", f"{kind} `{label}`: {text}")
        if kind in ("struct", "enum", "trait"):
            for method, said in sorted(set(methods.get(name, []))):
                out += wrapped("  - ", f"`{method}`: {said}")
    return out + [""]


def wrapped(mark, text):
    """An entry of a list, within 120 columns."""
    return textwrap.wrap(text, 120, initial_indent=mark, subsequent_indent=" " * len(mark), break_long_words=False,
                         break_on_hyphens=False)


def page():
    out = ["# Public items of the crates for users", "",
           "tools/apidoc.py writes this page. An item's own comment has its units, its errors and what is unchanged after each.",
           ""]
    for crate in CRATES:
        out += lines_of(crate)
    return "\n".join(out).rstrip() + "\n"


def main():
    text = page()
    if "--check" not in sys.argv:
        open(PAGE, "w", encoding="utf-8").write(text)
        return 0
    if not os.path.exists(PAGE) or open(PAGE, encoding="utf-8").read() != text:
        print("apidoc: docs/API.md is not up to date (python3 tools/apidoc.py)")
        return 1
    return 0


sys.exit(main())
