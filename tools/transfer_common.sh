# What tools/transfer.sh and tools/transfer_safe.sh have in common: OpenSSH's server at a Unix socket, servers that end, and
# how a run is made and what it left is looked at. A script that reads it has set `name`.
set -u
cd "$(dirname "$0")/.." || exit 1

case ${1-} in
'' | /*) program=${1-} ;;
*) program=$PWD/$1 ;;
esac
program=${program:-$PWD/crates/sftp_transfer/out/sftp_transfer}
server=/usr/lib/openssh/sftp-server

missing=
[ -x "$server" ] || missing="$missing openssh-sftp-server ($server)"
command -v socat >/dev/null || missing="$missing socat"
if [ -n "$missing" ]; then
    echo "$name: skipped, missing:$missing"
    exit 0
fi
if ! [ -x "$program" ]; then
    echo "$name: $program is missing: run 'rt ci' first, or 'rt run' in crates/sftp_transfer"
    exit 1
fi

room=$(mktemp -d) || exit 1
room=$(cd "$room" && pwd -P)
mkdir "$room/far" "$room/near"
# a server, and three that end after so many bytes of what they are told: some READs, some WRITEs, or some files
printf '#!/bin/sh\nstdbuf -o0 head -c 400 | %s\n' "$server" >"$room/hears_reads"
printf '#!/bin/sh\nstdbuf -o0 head -c 3000000 | %s\n' "$server" >"$room/hears_writes"
printf '#!/bin/sh\nstdbuf -o0 head -c 40000 | %s\n' "$server" >"$room/hears_files"
chmod +x "$room/hears_reads" "$room/hears_writes" "$room/hears_files"
socat "UNIX-LISTEN:$room/socket,fork" "EXEC:$server" 2>/dev/null &
first=$!
socat "UNIX-LISTEN:$room/reads,fork" "EXEC:$room/hears_reads" 2>/dev/null &
second=$!
socat "UNIX-LISTEN:$room/writes,fork" "EXEC:$room/hears_writes" 2>/dev/null &
third=$!
socat "UNIX-LISTEN:$room/ends,fork" "EXEC:$room/hears_files" 2>/dev/null &
sixth=$!
socat "UNIX-LISTEN:$room/silent,fork" EXEC:'sleep 60' 2>/dev/null &
seventh=$!
trap 'kill $first $second $third $sixth $seventh 2>/dev/null; rm -rf "$room"' EXIT
for each in socket reads writes ends silent; do
    tries=0
    while ! [ -S "$room/$each" ] && [ $tries -lt 100 ]; do
        sleep 0.1
        tries=$((tries + 1))
    done
done
passed=0
failed=0

# copies a file over one of the servers, and keeps the status and what was told
run() {
    socket=$1
    shift
    timeout 60 "$program" "unix:$room/$socket" "$@" >"$room/out" 2>"$room/err"
    status=$?
}

# says what a part showed
tell() {
    if [ "$2" -eq 0 ]; then
        passed=$((passed + 1))
        return
    fi
    failed=$((failed + 1))
    echo "$name: $1: FAILED, status $status; standard error:"
    cut -c1-200 "$room/err"
}

# whether two trees are the same, links as links
same() {
    diff -r --no-dereference "$1" "$2" >"$room/out" 2>&1
}

# whether each file that has a name in one directory is the same in another
whole() {
    find "$1" -type f ! -name '.*.part' -printf '%P\n' >"$room/want"
    while read -r name; do
        cmp -s "$1/$name" "$2/$name" || return 1
    done <"$room/want"
}

# the line about files that were not started
rest='^sftp_transfer: [0-9]* more files were not copied$'
