#!/bin/sh
# Runs the program of crates/sftp_share. First on each script of tests/scripts that has no turns and no words of its own: the status
# and the lines of outcomes, files and directories are those of NAME.stdout, and so is the whole text of a script with one lane
# whose calls wait for each reply before they ask again. Then on each of tests/share, a number of times: NAME.left is what is
# wanted apart from the frames. The status that is wanted is 2 where that begins with `line `, and 0 else, or what NAME.status
# says. Another program than the one that `rt ci` built may be given as an argument.
set -u
case ${1-} in
'' | /*) program=${1-} ;;
*) program=$PWD/$1 ;;
esac
cd "$(dirname "$0")/.." || exit 1

program=${program:-$PWD/crates/sftp_share/out/sftp_share}

if ! [ -x "$program" ]; then
    echo "share: $program is missing: run 'rt ci' first, or 'rt run' in crates/sftp_share"
    exit 1
fi

room=$(mktemp -d) || exit 1
trap 'rm -rf "$room"' EXIT
passed=0
failed=0

# runs the program on a script, and keeps its output and its status
run() {
    timeout 60 "$program" <"$1" >"$room/stdout" 2>"$room/stderr"
    status=$?
}

# the status that is wanted, by a case's name and its text
due() {
    if [ -f "$1.status" ]; then
        cat "$1.status"
    elif head -c 5 "$2" | grep -q '^line '; then
        echo 2
    else
        echo 0
    fi
}

# what a part showed, by the texts that are to be the same
tell() {
    if [ "$status" = "$2" ] && cmp -s "$3" "$4"; then
        passed=$((passed + 1))
        return
    fi
    failed=$((failed + 1))
    echo "share: $1: FAILED, status $status where $2 is wanted; the lines that differ:"
    diff "$3" "$4" | head -n 20
    head -n 5 "$room/stderr"
}

# apart from the frames
left_of() {
    grep -v '^[<>] ' "$1" >"$2"
    return 0
}

# ---- the scripts of tests/scripts

# calls that ask again before a reply came, or leave requests behind
ahead='^(fs_read|fs_write|list|clone|buf_write|buf_write_all) '
found=0
for script in tests/scripts/*/*.script; do
    name=${script%.script}
    if [ -f "$name.words" ] || grep -qE '^(step|flush|take|cancel)( |$)' "$script"; then
        continue
    fi
    found=$((found + 1))
    run "$script"
    left_of "$name.stdout" "$room/wanted"
    left_of "$room/stdout" "$room/left"
    tell "${name#tests/}" "$(due "$name" "$name.stdout")" "$room/wanted" "$room/left"
    if [ "$(grep -c '^lane$' "$script")" -le 1 ] && ! grep -qE "$ahead" "$script" &&
        [ "$(grep -c '^open ' "$script")" -le 1 ]; then
        tell "${name#tests/} byte for byte" "$(due "$name" "$name.stdout")" "$name.stdout" "$room/stdout"
    fi
done
if [ "$found" -eq 0 ]; then
    echo "share: there are no scripts in tests/scripts"
    failed=$((failed + 1))
fi

# ---- the scripts of tests/share

found=0
for script in tests/share/*.script; do
    [ -f "$script" ] || continue
    found=$((found + 1))
    name=${script%.script}
    for _ in 1 2 3 4 5; do
        run "$script"
        left_of "$room/stdout" "$room/left"
        tell "${name#tests/}" "$(due "$name" "$name.left")" "$name.left" "$room/left"
    done
done
if [ "$found" -eq 0 ]; then
    echo "share: there are no scripts in tests/share"
    failed=$((failed + 1))
fi

# ---- words, and an input and an output that fail

printf '' >"$room/nothing"
printf 'line 0 words\n' >"$room/words"
timeout 60 "$program" script <"$room/nothing" >"$room/stdout" 2>"$room/stderr"
status=$?
tell 'a word that is none' 2 "$room/words" "$room/stdout"
timeout 60 "$program" --version >"$room/stdout" 2>"$room/stderr"
status=$?
printf 'tilfrjon 0.1.0\n' >"$room/version"
tell 'its version' 0 "$room/version" "$room/stdout"
timeout 60 "$program" <&- >"$room/stdout" 2>"$room/stderr"
status=$?
tell 'no standard input' 3 "$room/nothing" "$room/stdout"
printf 'sftp_share: standard input failed\n' >"$room/why"
tell 'and why' 3 "$room/why" "$room/stderr"
if [ -e /dev/full ]; then
    timeout 60 "$program" <tests/share/sixteen-lanes.script 2>"$room/stderr" >/dev/full
    status=$?
    printf 'sftp_share: standard output failed\n' >"$room/why"
    tell 'a full output, and why' 4 "$room/why" "$room/stderr"
fi

echo "share: $passed passed, $failed failed"
[ "$failed" -eq 0 ]
