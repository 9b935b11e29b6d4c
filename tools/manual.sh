#!/bin/sh
# Whether the manual page names each word that the definition of scripts knows, and each status of the program.
set -u
cd "$(dirname "$0")/.." || exit 1

page=docs/sftp_cli.1
scripts="crates/script_grammar/specs/Scripts.antt crates/script_words/specs/Fields.antt"
missing=0
words=$(sed -n 's/.*bytes_eq [a-z]* (codes "\([^"]*\)").*/\1/p' $scripts | sort -u)
if [ -z "$words" ]; then
    echo "manual: no word of scripts was found in $scripts"
    exit 1
fi
for word in $words; do
    # a word stands by itself, and a `-` in it may be written with a backslash
    if ! sed 's/\\-/-/g; s/\\f[BRIP]/ /g' $page | grep -qE "(^|[^a-z_-])$word([^a-z_-]|\$)"; then
        echo "manual: $page does not name the word $word"
        missing=$((missing + 1))
    fi
done
for status in 0 1 2 3 4 5 6; do
    if ! grep -qx "\.B $status" $page; then
        echo "manual: $page does not name the status $status"
        missing=$((missing + 1))
    fi
done
if [ "$missing" -eq 0 ]; then
    echo "manual: each word and each status is named"
fi
[ "$missing" -eq 0 ]
