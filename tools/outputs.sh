#!/bin/sh
# Runs each program with a standard output that can't be written: a full device, a pipe that nobody reads, and a closed
# descriptor. The status is that of the manual page, and a line on standard error names the program and the cause. Over a
# Unix socket neither the text nor a message goes into the socket, though its number is free. The parts over a socket are
# skipped if socat or OpenSSH's SFTP server is missing.
set -u
cd "$(dirname "$0")/.." || exit 1

server=/usr/lib/openssh/sftp-server
room=$(mktemp -d) || exit 1
room=$(cd "$room" && pwd -P)
listeners=
trap 'for one in $listeners; do kill "$one" 2>/dev/null; done; rm -rf "$room"' EXIT
passed=0
failed=0

for name in sftp_cli sftp_mirror sftp_view sftp_share sftp_serve sftp_transfer; do
    if ! [ -x "crates/$name/out/$name" ]; then
        echo "outputs: $name is missing: run 'rt ci' first, or 'rt run' in crates/$name"
        exit 1
    fi
done

# Compares a status and standard error with what is wanted.
tell() {
    printf '%s' "${3:+$3
}" >"$room/wanted"
    if [ "$status" = "$2" ] && cmp -s "$room/wanted" "$room/err"; then
        passed=$((passed + 1))
        return
    fi
    failed=$((failed + 1))
    echo "outputs: $1: FAILED, status $status instead of $2; standard error has"
    cut -c1-200 "$room/err"
    echo "instead of"
    printf '%s\n' "$3"
}

# Runs a program with each output that fails. The arguments are the status, the message, the input and the command; in
# the message CAUSE is the cause that the system gives.
refuse() {
    wanted=$1
    message=$2
    input=$3
    name=$4
    shift 4
    program="crates/$name/out/$name"
    if [ -c /dev/full ]; then
        timeout 60 "$program" "$@" <"$input" >/dev/full 2>"$room/err"
        status=$?
        tell "$name $* with a full output" "$wanted" "$(cause 'No space left on device (os error 28)')"
    fi
    # Both ends are open first, so that no open waits; then only the one that is written.
    rm -f "$room/pipe"
    mkfifo "$room/pipe"
    exec 3<>"$room/pipe" 4>"$room/pipe" 3>&-
    timeout 60 "$program" "$@" <"$input" >&4 2>"$room/err" 4>&-
    status=$?
    exec 4>&-
    tell "$name $* with an output that nobody reads" "$wanted" "$(cause 'Broken pipe (os error 32)')"
    timeout 60 "$program" "$@" <"$input" >&- 2>"$room/err"
    status=$?
    tell "$name $* with a closed output" "$wanted" "$(cause 'Bad file descriptor (os error 9)')"
}

# Returns the message with the cause in its place.
cause() {
    printf '%s' "$message" | sed "s/CAUSE/$1/"
}

printf 'lane\nfs_write 61 6869\n' >"$room/script"
printf 'up 61 0203\n' >"$room/list"
printf 'file 61 6869\nget 61\n' >"$room/operations"
printf '\000\000\000\005\001\000\000\000\003' >"$room/hello"

for name in sftp_cli sftp_mirror sftp_view sftp_share; do
    refuse 4 "$name: standard output failed" /dev/null "$name" --help
done
refuse 3 'sftp_serve: the connection failed' /dev/null sftp_serve --help
refuse 3 'sftp_transfer: standard output: CAUSE' /dev/null sftp_transfer --help
refuse 4 'sftp_cli: standard output failed' "$room/script" sftp_cli script
refuse 4 'sftp_cli: standard output failed' /dev/null sftp_cli bulk 1 2 3
refuse 4 'sftp_mirror: standard output failed' "$room/list" sftp_mirror copy 1 1
refuse 4 'sftp_view: standard output failed' "$room/operations" sftp_view view 2 1
refuse 4 'sftp_share: standard output failed' "$room/script" sftp_share
refuse 3 'sftp_serve: the connection failed' "$room/hello" sftp_serve

# ---- over a socket

missing=
[ -x "$server" ] || missing="$missing openssh-sftp-server ($server)"
command -v socat >/dev/null || missing="$missing socat"
if [ -n "$missing" ]; then
    echo "outputs: nothing runs over a socket, missing:$missing"
    echo "outputs: $passed passed, $failed failed"
    [ "$failed" -eq 0 ]
    exit
fi

# Listens at a socket with a command for each client.
listen() {
    socat "UNIX-LISTEN:$room/$1,fork" "EXEC:$2" 2>/dev/null &
    listeners="$listeners $!"
    tries=0
    while ! [ -S "$room/$1" ] && [ $tries -lt 100 ]; do
        sleep 0.1
        tries=$((tries + 1))
    done
}

# What the server is told goes through a file, too.
printf '#!/bin/sh\ntee "%s" | %s\n' "$room/told" "$server" >"$room/told_server"
chmod +x "$room/told_server"
listen socket "$room/told_server"

hex() {
    printf %s "$1" | od -An -v -tx1 | tr -d ' \n'
}
printf 'lane\nfs_write %s 6869\n' "$(hex "$room/file")" >"$room/script"
printf 'up %s 0203\n' "$(hex "$room/copy")" >"$room/list"
mkdir "$room/folder"
printf hello >"$room/folder/name"

refuse 4 'sftp_cli: standard output failed' "$room/script" sftp_cli unix "$room/socket"
refuse 4 'sftp_mirror: standard output failed' "$room/list" sftp_mirror unix "$room/socket" 1 1
refuse 3 'sftp_transfer: standard output: CAUSE' /dev/null sftp_transfer "unix:$room/socket" list "$room/folder"

# Compares a status, and checks that the server was told nothing but frames of which none has this text.
untold() {
    if [ "$status" = "$2" ] && ! grep -q -a "$3" "$room/told"; then
        passed=$((passed + 1))
        return
    fi
    failed=$((failed + 1))
    echo "outputs: $1: FAILED, status $status instead of $2, or the server was told a text of the program"
}

timeout 60 crates/sftp_cli/out/sftp_cli unix "$room/socket" <"$room/script" >&- 2>&-
status=$?
untold 'sftp_cli without output and error' 4 'lane 0\|standard output'
timeout 60 crates/sftp_cli/out/sftp_cli unix "$room/socket" <&- >"$room/text" 2>"$room/err"
status=$?
tell 'sftp_cli without an input' 3 'sftp_cli: standard input failed'
timeout 60 crates/sftp_mirror/out/sftp_mirror unix "$room/socket" 1 1 <"$room/list" >&- 2>&-
status=$?
untold 'sftp_mirror without output and error' 4 'copied\|standard output'
timeout 60 crates/sftp_transfer/out/sftp_transfer "unix:$room/socket" get "$room/folder/name" "$room/got" <&- >&- 2>&-
status=$?
untold 'sftp_transfer without the standard streams' 0 'sftp_transfer'
cmp "$room/folder/name" "$room/got" || failed=$((failed + 1))
timeout 60 crates/sftp_transfer/out/sftp_transfer "unix:$room/socket" get "$room/folder/none" "$room/got" <&- >&- 2>&-
status=$?
untold 'sftp_transfer that reports a failure nowhere' 1 'sftp_transfer'
cmp "$room/folder/name" "$room/got" || failed=$((failed + 1))

echo "outputs: $passed passed, $failed failed"
[ "$failed" -eq 0 ]
