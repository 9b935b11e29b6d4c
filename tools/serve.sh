#!/bin/sh
# Runs OpenSSH's sftp, and the program of crates/sftp_cli through socat, over the server of crates/sftp_serve: files of 0 to
# 8000000 bytes up and down, listings, directories, renames, what is removed, and what the server refuses or doesn't know; and
# compares the files and the names with what is wanted. Then python3 opens as many handles as there may be. It installs nothing:
# where sftp, socat or python3 is missing it says so, and that part is passed over. Other programs than those that `rt ci` built
# may be given as arguments, the server first.
set -u
case ${1-} in
'' | /*) server=${1-} ;;
*) server=$PWD/$1 ;;
esac
case ${2-} in
'' | /*) client=${2-} ;;
*) client=$PWD/$2 ;;
esac
cd "$(dirname "$0")/.." || exit 1
server=${server:-$PWD/crates/sftp_serve/out/sftp_serve}
client=${client:-$PWD/crates/sftp_cli/out/sftp_cli}

if ! [ -x "$server" ]; then
    echo "serve: $server is missing: run 'rt ci' first, or 'rt run' in crates/sftp_serve"
    exit 1
fi

room=$(mktemp -d) || exit 1
room=$(cd "$room" && pwd -P)
listener=
trap '[ -z "$listener" ] || kill $listener 2>/dev/null; rm -rf "$room"' EXIT
passed=0
failed=0

# says what a part showed
tell() {
    if [ "$2" -eq 0 ]; then
        passed=$((passed + 1))
        return
    fi
    failed=$((failed + 1))
    echo "serve: $1: FAILED; what was said:"
    cut -c1-200 "$room/said"
}

# runs the commands of standard input by sftp, over a server that is given the words
sftp_over() {
    cat >"$room/commands"
    (cd "$room" && timeout 60 sftp -D "$server $1" -b commands >said 2>&1)
}

# the hexadecimal digits of what standard input holds, or `-`
hex() {
    digits=$(od -An -v -tx1 | tr -d ' \n')
    echo "${digits:--}"
}

# what sftp said, without its commands
lines() {
    grep -v '^sftp>' "$room/said" | tr -d '\r'
}

sizes='0 1 32768 261121 8000000'
for size in $sizes; do
    head -c "$size" /dev/urandom >"$room/up$size"
done

# ---- OpenSSH's sftp

by_sftp() {
    # a directory is made, and each file goes up, is renamed into it and comes down: in pieces of 32768 bytes, and of as many as
    # the limits allow
    for words in "" "'server ext posix-rename' 'server limits 262144 261120 261120 0'"; do
        {
            echo mkdir d
            for size in $sizes; do
                printf 'put up%s a%s\nrename a%s d/b%s\nget d/b%s down%s\n' "$size" "$size" "$size" "$size" "$size" "$size"
            done
            echo ls -1 d
            for size in $sizes; do
                echo "rm d/b$size"
            done
            printf 'rmdir d\nls -1\n'
        } | sftp_over "$words"
        tell "sftp's commands over the words ($words)" $?
        for size in $sizes; do
            cmp -s "$room/up$size" "$room/down$size"
            tell "a file of $size bytes over the words ($words)" $?
            rm -f "$room/down$size"
        done
        for size in $sizes; do
            echo "d/b$size"
        done | LC_ALL=C sort >"$room/wanted"
        lines | grep -v '^Uploading\|^Fetching\|^Removing' | LC_ALL=C sort | cmp -s "$room/wanted" -
        tell "a listing over the words ($words)" $?
    done

    # what the words say is there, and what is refused
    sftp_over "'file 612f62 6869' 'dir 64'" <<END
ls -1
get a/b first
mkdir a/c
rename a/b a/c/e
ls -1 a/c
-rmdir a
rm a/c/e
rmdir a/c
-rmdir a/none
-get a/b
ls -1 a
END
    tell 'names' $?
    printf hi | cmp -s - "$room/first"
    tell 'a first file' $?
    cat >"$room/wanted" <<END
a
d
a/c/e
remote rmdir "/a": Failure
remote rmdir "/a/none": No such file or directory
File "/a/b" not found.
END
    lines | grep -v '^Fetching\|^Removing' | diff "$room/wanted" - >>"$room/said"
    tell 'listings and refusals' $?

    # what the server doesn't know is refused, and the session goes on
    sftp_over "'file 61 6869'" <<END
-ln a b
-ln -s a b
get a after
END
    tell 'requests that are not known' $?
    printf hi | cmp -s - "$room/after"
    tell 'a file after them' $?

    # with --long a tree of 200 files is listed and fetched as it is: 10 directories with 20 files each, of 0 to 19 bytes
    rm -rf "$room/tree" "$room/got"
    mkdir "$room/tree"
    words=--long
    for d in 0 1 2 3 4 5 6 7 8 9; do
        mkdir "$room/tree/d$d"
        for f in 0 1 2 3 4 5 6 7 8 9 10 11 12 13 14 15 16 17 18 19; do
            head -c "$f" /dev/zero | tr '\0' "$d" >"$room/tree/d$d/f$f"
            name=$(printf 't/d%s/f%s' "$d" "$f" | hex)
            words="$words 'file $name $(hex <"$room/tree/d$d/f$f")'"
        done
    done
    printf 'get -r t got\nls -l t/d3\nls -l t\n' | sftp_over "$words"
    tell 'sftp -r of a tree' $?
    diff -r "$room/tree" "$room/got" >>"$room/said" 2>&1
    tell 'a tree of 200 files' $?
    {
        for d in 0 1 2 3 4 5 6 7 8 9; do
            printf 'drwxr-xr-x    1 root     root     %8d Jan  1  1970 d%s\n' 0 "$d"
        done
        for f in 0 1 2 3 4 5 6 7 8 9 10 11 12 13 14 15 16 17 18 19; do
            printf -- '-rw-r--r--    1 root     root     %8d Jan  1  1970 f%s\n' "$f" "$f"
        done
    } | LC_ALL=C sort >"$room/wanted"
    lines | grep 'Jan  1  1970' | LC_ALL=C sort | diff "$room/wanted" - >>"$room/said"
    tell 'ls -l of a tree' $?

    # a word that is refused ends it before anything is said
    echo ls | sftp_over "'server cut 4'"
    [ $? -ne 0 ] && grep -q '^sftp_serve: word 1 mode' "$room/said"
    tell 'a refused word' $?
}

# ---- the client of crates/sftp_cli

# runs the script of standard input over the server, and keeps the outcomes of its calls
cli_over() {
    timeout 60 "$client" unix "$room/socket" >"$room/text" 2>"$room/said"
    status=$?
    grep '^lane' "$room/text" >"$room/outcomes"
    cut -c1-200 "$room/outcomes" >>"$room/said"
    return $status
}

by_cli() {
    printf '#!/bin/sh\nexec "%s" "server limits 262144 261120 261120 0" "server ext posix-rename"\n' "$server" >"$room/served"
    chmod +x "$room/served"
    socat "UNIX-LISTEN:$room/socket,fork" "EXEC:$room/served" 2>/dev/null &
    listener=$!
    tries=0
    while ! [ -S "$room/socket" ] && [ $tries -lt 100 ]; do
        sleep 0.1
        tries=$((tries + 1))
    done
    for size in $sizes; do
        hex <"$room/up$size" >"$room/digits"
        {
            printf 'lane\nmkdir 64\nfs_write 61 '
            tr -d '\n' <"$room/digits"
            printf '\nrename 61 642f62\nstat 642f62\nfs_read 642f62 100\nremove 642f62\nrmdir 64\nstat 64\n'
        } | cli_over
        tell "sftp_cli's calls on a file of $size bytes" $?
        {
            printf 'lane 0 call 0 done\nlane 0 call 1 done\nlane 0 call 2 done\n'
            printf 'lane 0 call 3 meta 00000001%016x\nlane 0 call 4 read ' "$size"
            cat "$room/digits"
            printf 'lane 0 call 5 done\nlane 0 call 6 done\nlane 0 call 7 refused sftp 2\n'
        } >"$room/wanted"
        cmp -s "$room/wanted" "$room/outcomes"
        tell "sftp_cli's outcomes on a file of $size bytes" $?
    done
}

# ---- a client of python3

# 4096 handles of one file are opened. Then an OPEN and an OPENDIR are refused with status 4, and create nothing; other requests
# are answered as before. A CLOSE makes room for one handle, also of a directory, and one that fails makes none
by_python() {
    timeout 60 python3 - "$server" >"$room/said" 2>&1 <<'END'
import struct, subprocess, sys

INIT, OPEN, CLOSE, READ, OPENDIR, STAT = 1, 3, 4, 5, 11, 17
VERSION, STATUS, HANDLE, DATA, ATTRS = 2, 101, 102, 103, 105
server = subprocess.Popen([sys.argv[1], "file 61 6869", "dir 64"], stdin=subprocess.PIPE, stdout=subprocess.PIPE)
count = 0


def text(content):
    return struct.pack(">I", len(content)) + content


def answer(body):
    server.stdin.write(text(body))
    server.stdin.flush()
    (length,) = struct.unpack(">I", server.stdout.read(4))
    return server.stdout.read(length)


# the rest of the answer, whose kind, id and first bytes are those wanted
def want(kind, fields, wanted, first=b""):
    global count
    count += 1
    number = struct.pack(">I", count)
    got = answer(bytes([kind]) + number + fields)
    due = bytes([wanted]) + number + first
    if not got.startswith(due):
        sys.exit("request %d: %s in place of %s" % (count, got[:32].hex(), due.hex()))
    return got[len(due):]


def status(code):
    return STATUS, struct.pack(">I", code)


opens = text(b"a") + struct.pack(">II", 1, 0)
creates = text(b"new") + struct.pack(">II", 26, 0)
if answer(bytes([INIT]) + struct.pack(">I", 3))[0] != VERSION:
    sys.exit("no version")
handles = [want(OPEN, opens, HANDLE) for _ in range(4096)]
if len(set(handles)) != 4096:
    sys.exit("a handle twice")
want(OPEN, opens, *status(4))
want(OPENDIR, text(b"d"), *status(4))
want(OPEN, creates, *status(4))
want(STAT, text(b"new"), *status(2))
want(STAT, text(b"a"), ATTRS)
want(READ, handles[4095] + struct.pack(">QI", 0, 9), DATA, text(b"hi"))
want(CLOSE, handles[0], *status(0))
want(CLOSE, handles[0], *status(4))
opened = want(OPEN, opens, HANDLE)
want(OPEN, opens, *status(4))
want(CLOSE, opened, *status(0))
listed = want(OPENDIR, text(b"d"), HANDLE)
want(OPENDIR, text(b"d"), *status(4))
want(CLOSE, listed, *status(0))
want(OPEN, opens, HANDLE)
server.stdin.close()
sys.exit(server.wait())
END
    tell 'as many handles as there may be' $?
}

if command -v sftp >/dev/null; then
    by_sftp
else
    echo "serve: there is no sftp, so OpenSSH's client is passed over"
fi
if ! command -v socat >/dev/null; then
    echo "serve: there is no socat, so sftp_cli is passed over"
elif ! [ -x "$client" ]; then
    echo "serve: $client is missing: run 'rt ci' first, or 'rt run' in crates/sftp_cli"
    failed=$((failed + 1))
else
    by_cli
fi
if command -v python3 >/dev/null; then
    by_python
else
    echo "serve: there is no python3, so its client is passed over"
fi
echo "serve: $passed passed, $failed failed"
[ $failed -eq 0 ]
