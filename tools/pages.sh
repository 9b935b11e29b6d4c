#!/bin/sh
# Compares the pages with the repository: crates.txt with what the crates cite, the table of docs/PROVED.md with the
# definitions, docs/API.md with the public items, docs/ARCHITECTURE.md with the crates that exist, and the examples that
# comments name with the files.
set -u
cd "$(dirname "$0")/.." || exit 1

failed=0
python3 tools/deps.py || { echo "pages: crates.txt lists other crates than these cite (python3 tools/deps.py --write)"; failed=1; }
python3 tools/believe.py --check || failed=1
python3 tools/apidoc.py --check || failed=1
for crate in crates/*/; do
    name=$(basename "$crate")
    if ! grep -q "\`$name\`" docs/ARCHITECTURE.md; then
        echo "pages: docs/ARCHITECTURE.md does not name the crate $name"
        failed=1
    fi
done
for example in $(grep -rhoE 'Example: `[^`]+`' crates/*/src --include='*.rt' | cut -d'`' -f2 | sort -u); do
    if ! [ -e "$example" ]; then
        echo "pages: a comment names the example $example, which doesn't exist"
        failed=1
    fi
done
[ $failed -eq 0 ] && echo "pages: ok"
[ $failed -eq 0 ]
