#!/bin/sh
# Runs the server of crates/sftp_serve on each stream of tests/streams, as a whole and a byte at a time, and compares what it
# answers, its status, and the line of standard error. In a case `word` is a word of the command line, `>` a frame that the
# client sends and `<` its answer, in hexadecimal digits, `status` the status to end with, and `error` the line, where there is
# one. Another program than the one that `rt ci` built may be given as an argument.
set -u
case ${1-} in
'' | /*) program=${1-} ;;
*) program=$PWD/$1 ;;
esac
cd "$(dirname "$0")/.." || exit 1

program=${program:-$PWD/crates/sftp_serve/out/sftp_serve}
streams=$PWD/tests/streams

if ! [ -x "$program" ]; then
    echo "streams: $program is missing: run 'rt ci' first, or 'rt run' in crates/sftp_serve"
    exit 1
fi

room=$(mktemp -d) || exit 1
trap 'rm -rf "$room"' EXIT
found=0
passed=0
failed=0

# the bytes of hexadecimal digits, each written by itself, with a pause before it
bytes() {
    for digits in $(tr -d ' \n' | sed 's/../& /g'); do
        [ "$1" = 0 ] || sleep "$1"
        printf "\\$(printf %03o "0x$digits")"
    done
}

# runs the program with words on standard input, and keeps what it writes and its status
run() {
    timeout 60 "$program" "$@" >"$room/answers" 2>"$room/errors"
    echo $? >"$room/status"
}

# says whether what was kept is what is wanted
tell() {
    if cmp -s "$room/wanted" "$room/answers" && cmp -s "$room/due" "$room/status" && cmp -s "$room/line" "$room/errors"; then
        passed=$((passed + 1))
        return
    fi
    failed=$((failed + 1))
    echo "streams: $1: FAILED, status $(cat "$room/status") where $(cat "$room/due") is wanted; wanted, answered and said:"
    od -An -tx1 "$room/wanted" | head -n 10
    echo and
    od -An -tx1 "$room/answers" | head -n 10
    head -n 10 "$room/errors"
}

# what is wanted of words that a stream isn't asked for: the status, and the line of standard error
want() {
    echo "$1" >"$room/due"
    printf '%s' "$2" >"$room/line"
}

for stream in "$streams"/*.stream; do
    [ -f "$stream" ] || continue
    found=$((found + 1))
    sed -n 's/^> //p' "$stream" >"$room/sent"
    sed -n 's/^< //p' "$stream" | bytes 0 >"$room/wanted"
    sed -n 's/^status //p' "$stream" >"$room/due"
    sed -n 's/^error /sftp_serve: /p' "$stream" >"$room/line"
    sed -n 's/^word //p' "$stream" >"$room/words"
    set --
    while IFS= read -r word; do
        set -- "$@" "$word"
    done <"$room/words"
    bytes 0 <"$room/sent" >"$room/stream"
    run "$@" <"$room/stream"
    tell "$(basename "$stream" .stream)"
    bytes 0.002 <"$room/sent" | run "$@"
    tell "$(basename "$stream" .stream), a byte at a time"
done

# the two words that ask for a text
printf 'tilfrjon 0.1.0\n' >"$room/wanted"
want 0 ''
run --version </dev/null
tell 'the word --version'
run --help </dev/null
cp "$room/answers" "$room/wanted"
grep -q "^Usage: sftp_serve " "$room/answers" || echo 'no usage' >"$room/wanted"
tell 'the word --help'

# a stream that can't be read
printf '' >"$room/wanted"
want 3 'sftp_serve: the connection failed
'
run <&-
tell 'no standard input'

# answers that can't be written
if [ -c /dev/full ]; then
    printf '' >"$room/wanted"
    want 3 'sftp_serve: the connection failed
'
    printf '\000\000\000\005\001\000\000\000\003' | timeout 60 "$program" >/dev/full 2>"$room/errors"
    echo $? >"$room/status"
    printf '' >"$room/answers"
    tell 'a full device'
fi

if [ "$found" -eq 0 ]; then
    echo "streams: there are no streams in $streams"
    failed=$((failed + 1))
fi
echo "streams: $passed passed, $failed failed"
[ "$failed" -eq 0 ]
