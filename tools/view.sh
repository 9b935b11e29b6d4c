#!/bin/sh
# Runs the program of crates/sftp_view on each case of tests/view, and compares what it writes and its status: NAME.words has
# its words, one a line, NAME.list is its standard input, NAME.stdout what is wanted. The status that is wanted is 2 where that
# text begins with `line `, and 0 else, or what NAME.status says. Another program than the one that `rt ci` built may be given as
# an argument.
set -u
case ${1-} in
'' | /*) program=${1-} ;;
*) program=$PWD/$1 ;;
esac
cd "$(dirname "$0")/.." || exit 1

program=${program:-$PWD/crates/sftp_view/out/sftp_view}
cases=$PWD/tests/view

if ! [ -x "$program" ]; then
    echo "view: $program is missing: run 'rt ci' first, or 'rt run' in crates/sftp_view"
    exit 1
fi

room=$(mktemp -d) || exit 1
trap 'rm -rf "$room"' EXIT
found=0
passed=0
failed=0

for list in "$cases"/*.list; do
    [ -f "$list" ] || continue
    found=$((found + 1))
    wanted=${list%.list}
    set --
    while IFS= read -r word; do
        set -- "$@" "$word"
    done <"$wanted.words"
    (cd "$room" && timeout 60 "$program" "$@" <"$list" >stdout 2>stderr)
    status=$?
    if [ -f "$wanted.status" ]; then
        due=$(cat "$wanted.status")
    elif head -c 5 "$wanted.stdout" | grep -q '^line '; then
        due=2
    else
        due=0
    fi
    if cmp -s "$wanted.stdout" "$room/stdout" && [ "$status" = "$due" ]; then
        passed=$((passed + 1))
        continue
    fi
    failed=$((failed + 1))
    echo "${wanted#"$cases"/}: FAILED, status $status where $due is wanted; the lines that differ:"
    diff "$wanted.stdout" "$room/stdout" | head -n 40
    head -n 10 "$room/stderr"
done

if [ "$found" -eq 0 ]; then
    echo "view: there are no cases in $cases"
    failed=$((failed + 1))
fi
echo "view: $passed passed, $failed failed"
[ "$failed" -eq 0 ]
