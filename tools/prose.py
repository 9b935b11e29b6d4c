"""What tools/counts.py counts of words: definitions, the prose of the old dialect, and what public items lack."""
import os, re
from collections import defaultdict

DEFINITION = re.compile(r"^((?:(?:abbrev|unfoldable|opaque|pub|record|data)\s+)+)([^\W\d][\w'\-]*)(.*)$")
IRREGULAR = """begun bound brought built cut dealt done drawn found gave given got grown heard held hidden kept known led left lent
made met put said sent shown shrunk sold sought spent split taken told written""".split()
# The words that docs/WORDS.md and english usage replace, each by a pattern.
OLD = re.compile("|".join([
    r"want of memory", r"memory (?:was|were|is) wanting", r"\bstarv\w+", r"\btells?\b", r"\btold\b", r"\bbehind\b", r"\bstands?\b", r"\bstood\b",
    r"\bbears?\b", r"\bso many\b", r"\bbegun\b", r"\blets? go\b", r"\bgoes on\b", r"\bjust\b", r"\bbut for\b", r"\bwherever\b", r"\bfolders?\b",
    r"\bthe outside\b", r"\bdeeds?\b", r"\bcouriers?\b", r"\banew\b", r"\bthe other way round\b", r"\bboth ways\b", r"\bis for its caller to\b",
    r"\bwhatever came of\b", r"\bin its own words\b", r"\banswers (?:Ok|Err|None|Some|true|false)\b"]), re.I)
PUBLIC = re.compile(r"pub (?:final |const )*(fn|struct|enum|trait) (\w+)")


def sources(root, part, ending):
    """The files of one part of all crates, with their lines; files that the toolchain wrote are left out."""
    for at, folders, names in os.walk(f"{root}/crates"):
        folders[:] = sorted(f for f in folders if f not in ("out", "declared", "data"))
        for name in sorted(names):
            path = os.path.relpath(os.path.join(at, name), root)
            if name.endswith(ending) and f"/{part}/" in path:
                yield path, open(os.path.join(at, name), encoding="utf-8").read().split("\n")


def bare_words(root):
    """Facts of one word, and functions that are named by a bare participle."""
    facts, participles = [], []
    for path, lines in sources(root, "specs", ".antt"):
        if re.search(r"(Rows|RowWords|PlanWords|Lib)\.antt$", path):
            continue
        for k, line in enumerate(lines):
            found = DEFINITION.match(line)
            if not found or "pub" not in found[1]:
                continue
            if re.fullmatch(r"[A-Z][a-z]+", found[2]) and is_fact(found[3], lines[k + 1:]):
                facts.append((1, f"{path}:{k + 1} {found[2]}"))
            if re.fullmatch(r"[a-z]+(ed|ing)", found[2]) or found[2] in IRREGULAR:
                if found[2] not in ("string", "nothing"):
                    participles.append((1, f"{path}:{k + 1} {found[2]}"))
    return {"facts of one word": facts, "functions named by a bare participle": participles}


def is_fact(rest, below):
    """Whether a signature is that of a relation or a test: a type of values that are no types themselves."""
    for line in below:
        if not line.startswith(" ") or " where" in rest or re.match(r"\s+pub ", line):
            break
        rest += " " + line.strip()
    rest = rest.split(" where")[0].strip()
    if not rest.endswith("Type 0"):
        return False
    left = re.sub(r"[({][^(){}]*: Type \d[)}]|Type \d\s*→", "", rest[:-6])
    return bool(re.search(r"[({\w]", left.replace(":", "")))


def plain(text):
    """A text without what stands between backticks."""
    return re.sub(r"`[^`]*`", "", text)


def dialect(root):
    """Words of the old dialect in comments, error texts, help texts, pages and manuals."""
    places = defaultdict(list)
    for path, lines in sources(root, "src", ".rt"):
        for k, line in enumerate(lines, 1):
            comment = re.match(r"\s*//[/!]?(.*)", line)
            text = comment[1] if comment else line.split("#[error", 1)[1] if "#[error" in line else ""
            places["comments of src/ and error texts"] += [(k, f"{path}: {word}") for word in OLD.findall(plain(text))]
    for path, lines in sources(root, "specs", ".antt"):
        for k, line in enumerate(lines, 1):
            text = line[2:] if line.startswith("--") else ""
            places["comments of specs/"] += [(k, f"{path}: {word}") for word in OLD.findall(plain(text))]
    pages = [f"docs/{name}" for name in sorted(os.listdir(f"{root}/docs")) if name.endswith((".md", ".1"))]
    pages += ["README.md"] + [f"crates/{crate}/README.md" for crate in sorted(os.listdir(f"{root}/crates"))]
    for path in pages:
        if os.path.exists(f"{root}/{path}"):
            for k, line in enumerate(open(f"{root}/{path}", encoding="utf-8"), 1):
                places["pages and manuals"] += [(k, f"{path}: {word}") for word in OLD.findall(plain(line))]
    return {f"words of the old dialect in {where}": found for where, found in places.items()}


def doc_above(lines, k):
    """The comment above a line, past its attributes."""
    k -= 1
    while k >= 0 and lines[k].strip().startswith("#["):
        k -= 1
    doc = []
    while k >= 0 and lines[k].strip().startswith("///"):
        doc.append(lines[k])
        k -= 1
    return "\n".join(doc)


def result_of(lines, k):
    """What the function whose head begins at a line returns."""
    head = ""
    for line in lines[k:k + 14]:
        if re.match(r"\s*(requires|ensures)\b", line):
            break
        head += line + " "
        if line.rstrip().endswith(("{", ";")):
            break
    found = re.search(r"->\s*(\S.*)", head)
    return found[1] if found else ""


def lacking(root):
    """Modules without a head, public functions that return a Result without a section on errors, public types without an example."""
    heads, errors, examples = [], [], []
    for path, lines in sources(root, "src", ".rt"):
        crate = path.split("/")[1]
        if not lines[0].startswith("//!"):
            heads.append((1, path))
        for k, line in enumerate(lines):
            found = PUBLIC.match(line.strip())
            if not found:
                continue
            doc = doc_above(lines, k)
            if found[1] == "fn" and re.match(r"(Poll<)?(Option<)?(io::)?Result<", result_of(lines, k)) and "# Errors" not in doc:
                errors.append((k + 1, f"{path} {found[2]}"))
            apart = crate.startswith(("test_", "example_", "bench_")) or "tests" in path
            if found[1] != "fn" and not apart and not line.startswith(" ") and not re.search(r"[Ee]xample|Used (?:in|by)|\.rt`|Rows`", doc):
                examples.append((k + 1, f"{path} {found[2]}"))
    return {"modules without a head": heads, "public functions with a Result and no section on errors": errors,
            "public types without an example": examples}
