#!/bin/sh
# Looks for races in the programs whose threads share a session: by tools/races.py, which makes them anew for ThreadSanitizer, over the
# server in memory, over replies that are laid out, and over OpenSSH's SFTP server at a Unix socket, where that and socat are there;
# and by valgrind's helgrind and drd over those that `rt ci` built, where there are such. It takes some minutes, is no part of the gate,
# and installs nothing. The lock round a session is made of atomic numbers and of the system's futex, which ThreadSanitizer follows and
# valgrind doesn't: so what helgrind and drd report is counted and shown, and the status is that of ThreadSanitizer's runs alone.
set -u
cd "$(dirname "$0")/.." || exit 1
server=/usr/lib/openssh/sftp-server
room=$(mktemp -d) || exit 1
room=$(cd "$room" && pwd -P)
listener=
trap '[ -n "$listener" ] && kill $listener 2>/dev/null; rm -rf "$room"' EXIT
found=0

# the hexadecimal digits of a name in the room
at() {
    printf %s "$room/$1" | od -An -v -tx1 | tr -d ' \n'
}

# sixteen lanes, each of which writes two files in a directory of its own and reads them, by a function that spells names
lanes() {
    lane=0
    while [ $lane -lt 16 ]; do
        folder=$("$1" "d$lane")
        printf 'lane\nmkdir %s\n' "$folder"
        for file in 61 62; do
            printf 'fs_write %s2f%s 68656c6c6f\nfs_read %s2f%s 9\nstat %s\n' "$folder" $file "$folder" $file "$folder"
        done
        lane=$((lane + 1))
    done
}

# those of a name in memory
named() {
    printf %s "$1" | od -An -v -tx1 | tr -d ' \n'
}

# ---- ThreadSanitizer

look() {
    echo "sanitize: $1"
    shift
    python3 tools/races.py "$@"
    case $? in
    0) ;;
    1) found=1 ;;
    *) echo "sanitize: skipped" ;;
    esac
}

lanes named >"$room/memory"
lanes at >"$room/disk"
look 'sixteen lanes over the server in memory' sftp_share <"$room/memory"
look 'eight lanes over the server in memory, twice' example_threads runs 2 </dev/null
look 'eight lanes over replies that are laid out' example_threads sheet </dev/null
if [ -x "$server" ] && command -v socat >/dev/null; then
    socat "UNIX-LISTEN:$room/socket,fork" "EXEC:$server" 2>/dev/null &
    listener=$!
    look "sixteen lanes over OpenSSH's server" example_threads unix "$room/socket" <"$room/disk"
else
    echo "sanitize: over OpenSSH's server: skipped, the server or socat is missing"
fi

# ---- valgrind

check() {
    tool=$1
    words=$2
    input=$3
    shift 3
    echo "sanitize: $tool, $words"
    timeout 600 valgrind --tool="$tool" "$@" <"$input" >"$room/text" 2>"$room/err"
    echo "status $?, lines $(wc -l <"$room/text")"
    grep -E 'ERROR SUMMARY|Possible data race|Conflicting (load|store)' "$room/err" | sed 's/^==[0-9]*== //; s/0x[0-9A-F]*/../; s/thread #[0-9]*/a thread/' |
        sort | uniq -c | sort -rn | head -n 5
}

for tool in helgrind drd; do
    for crate in sftp_share example_threads; do
        program=crates/$crate/out/$crate
        if ! command -v valgrind >/dev/null || ! [ -x "$program" ]; then
            echo "sanitize: $tool, $crate: skipped, valgrind or $program is missing"
        elif [ $crate = sftp_share ]; then
            check $tool 'sixteen lanes over the server in memory' "$room/memory" "$program"
        elif [ -n "$listener" ]; then
            find "$room" -mindepth 1 -type d -exec rm -rf {} +
            check $tool "sixteen lanes over OpenSSH's server" "$room/disk" "$program" unix "$room/socket"
        fi
    done
done
[ $found -eq 0 ] && echo 'sanitize: ThreadSanitizer found no race'
exit $found
