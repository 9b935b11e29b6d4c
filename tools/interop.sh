#!/bin/sh
# Runs the program over OpenSSH's SFTP server: each call that this server knows, files up and down, with a buffer too, and a long
# listing; and compares what it prints, and the real files, with what is wanted. It installs nothing: where the server or socat is
# missing it says which, and passes. Another program than the one that `rt ci` built may be given as an argument.
set -u
cd "$(dirname "$0")/.." || exit 1

case ${1-} in
'' | /*) program=${1-} ;;
*) program=$PWD/$1 ;;
esac
program=${program:-$PWD/crates/sftp_cli/out/sftp_cli}
server=/usr/lib/openssh/sftp-server

missing=
[ -x "$server" ] || missing="$missing openssh-sftp-server ($server)"
command -v socat >/dev/null || missing="$missing socat"
if [ -n "$missing" ]; then
    echo "interop: skipped, missing:$missing"
    exit 0
fi
if ! [ -x "$program" ]; then
    echo "interop: $program is missing: run 'rt ci' first, or 'rt run' in crates/sftp_cli"
    exit 1
fi

room=$(mktemp -d) || exit 1
room=$(cd "$room" && pwd -P)
socat "UNIX-LISTEN:$room/socket,fork" "EXEC:$server" 2>/dev/null &
listener=$!
socat "UNIX-LISTEN:$room/silent,fork" EXEC:'sleep 60' 2>/dev/null &
silent=$!
trap 'kill $listener $silent 2>/dev/null; rm -rf "$room"' EXIT
tries=0
while ! { [ -S "$room/socket" ] && [ -S "$room/silent" ]; } && [ $tries -lt 100 ]; do
    sleep 0.1
    tries=$((tries + 1))
done
passed=0
failed=0

# the hexadecimal digits of what standard input holds
hex() {
    od -An -v -tx1 | tr -d ' \n'
}

# those of a name in the room
at() {
    printf %s "$room/$1" | hex
}

# runs a script over the server, and keeps its text and the lines of its outcomes
run() {
    timeout 60 "$program" unix "$room/socket" <"$room/script" >"$room/text"
    status=$?
    grep '^lane' "$room/text" >"$room/outcomes"
}

# says what a part showed
tell() {
    if [ "$2" -eq 0 ]; then
        passed=$((passed + 1))
        return
    fi
    failed=$((failed + 1))
    echo "interop: $1: FAILED, status $status; the outcomes:"
    cut -c1-200 "$room/outcomes"
}

# ---- a file is read; what the server says of itself and its handles is its own

printf hello >"$room/file"
cat >"$room/script" <<END
lane
open 0 r $(at file)
read 0 100
read 0 1
close 0
lane
open 0 r $(at missing)
read 0 1
END
cat >"$room/wanted" <<END
lane 0 call 0 opened
lane 0 call 1 read 68656c6c6f
lane 0 call 2 end
lane 0 call 3 done
lane 1 call 0 refused sftp 2
lane 1 call 1 nofile
END
run
[ $status -eq 0 ] && diff "$room/wanted" "$room/outcomes" && grep -q '^< data 0000000568656c6c6f$' "$room/text"
tell 'a file is opened, read and closed' $?

# ---- each call; of attributes only that they were told, and of a listing only which names it has

cat >"$room/script" <<END
lane
mkdir $(at d)
cwd $(at d)
fs_write 61 68656c6c6f
open 0 rw $(at d/a)
read_all 0 5
write 0 20776f726c64
write_all 0 21
meta 0
set_len 0 8
set_perm 0 384
sync 0
seek 0 start 0
read 0 100
clone 0 1
seek 1 cur -2
read 1 3
open 2 rwc $(at d/b)
seek 0 start 0
copy 0 2 5
close 0
close 1
close 2
stat 61
lstat 61
set_stat 62 2 -
hard_link 61 63
symlink 61 73
read_link 73
canonicalize 73
rename 62 65
remove 63
remove 73
mkdir 78
rmdir 78
list - 100
stat 78
END
cat >"$room/wanted" <<END
lane 0 call 0 done
lane 0 call 1 done
lane 0 call 2 done
lane 0 call 3 opened
lane 0 call 4 read 68656c6c6f
lane 0 call 5 count 6
lane 0 call 6 done
lane 0 call 7 meta
lane 0 call 8 done
lane 0 call 9 done
lane 0 call 10 done
lane 0 call 11 count 0
lane 0 call 12 read 68656c6c6f20776f
lane 0 call 13 done
lane 0 call 14 count 6
lane 0 call 15 read 776f
lane 0 call 16 opened
lane 0 call 17 count 0
lane 0 call 18 done
lane 0 call 19 done
lane 0 call 20 done
lane 0 call 21 done
lane 0 call 22 meta
lane 0 call 23 meta
lane 0 call 24 done
lane 0 call 25 done
lane 0 call 26 done
lane 0 call 27 path $(at d/a)
lane 0 call 28 path $(at d/a)
lane 0 call 29 done
lane 0 call 30 done
lane 0 call 31 done
lane 0 call 32 done
lane 0 call 33 done
lane 0 call 34 names
lane 0 call 35 refused sftp 2
END
run
names=$(sed -n 's/^lane 0 call 34 names//p' "$room/outcomes" | tr ' ' '\n' | sort | tr -d '\n')
sed -e 's/ meta .*/ meta/' -e 's/ names.*/ names/' "$room/outcomes" >"$room/got"
[ $status -eq 0 ] && diff "$room/wanted" "$room/got" && [ "$names" = 2e2e2e6165 ] &&
    [ "$(cat "$room/d/a")" = 'hello wo' ] && [ "$(cat "$room/d/e")" = he ] && [ "$(ls "$room/d" | tr '\n' ' ')" = 'a e ' ] &&
    [ "$(stat -c %a "$room/d/a")" = 600 ]
tell 'each call' $?

# ---- each call on a buffered file; a write that is refused is told by the flush behind it, and the file has the others

printf 'hello world' >"$room/buffered"
cat >"$room/script" <<END
lane
open 0 rw $(at buffered)
buffer 0 8
buf_read 0 3
buf_seek 0 cur 2
buf_read 0 100
buf_read 0 100
buf_read 0 1
buf_seek 0 start 0
buf_write 0 4a
buf_write_all 0 4f42
buf_flush 0
buf_read 0 2
unbuffer 0
read 0 3
buf_flush 0
close 0
lane
open 1 w $(printf /dev/full | hex)
buffer 1 1
buf_write 1 00
buf_flush 1
buf_flush 1
buf_read 1 1
close 1
END
cat >"$room/wanted" <<END
lane 0 call 0 opened
lane 0 call 1 done
lane 0 call 2 read 68656c
lane 0 call 3 count 5
lane 0 call 4 read 20776f
lane 0 call 5 read 726c64
lane 0 call 6 end
lane 0 call 7 count 0
lane 0 call 8 count 1
lane 0 call 9 done
lane 0 call 10 done
lane 0 call 11 read 6c6f
lane 0 call 12 done
lane 0 call 13 read 20776f
lane 0 call 14 nofile
lane 0 call 15 done
lane 1 call 0 opened
lane 1 call 1 done
lane 1 call 2 count 1
lane 1 call 3 refused sftp 4
lane 1 call 4 done
lane 1 call 5 refused io NotReadable
lane 1 call 6 done
END
run
[ $status -eq 0 ] && diff "$room/wanted" "$room/outcomes" && [ "$(cat "$room/buffered")" = 'JOBlo world' ]
tell 'each call on a buffered file' $?

# ---- a read that was cancelled is the next one's, and a flush that was cancelled leaves its statuses to the next one

cat >"$room/script" <<END
lane
open 0 rw $(at buffered)
buffer 0 8
buf_read 0 1
buf_read 0 3
buf_write 0 58
buf_flush 0
buf_flush 0
close 0
step 0
flush
take
step 0
step 0
step 0
flush
cancel 0
step 0
take
step 0
step 0
step 0
flush
step 0
cancel 0
END
cat >"$room/wanted" <<END
lane 0 call 0 opened
lane 0 call 1 done
lane 0 call 2 cancelled
lane 0 call 3 read 4a4f42
lane 0 call 4 count 1
lane 0 call 5 cancelled
lane 0 call 6 done
lane 0 call 7 done
END
run
[ $status -eq 0 ] && diff "$room/wanted" "$room/outcomes" && [ "$(cat "$room/buffered")" = 'JOBXo world' ] &&
    [ "$(grep -c '^> read' "$room/text")" -eq 1 ]
tell 'calls on a buffered file that are cancelled' $?

# ---- files go up and come down whole, in two lanes at once

mkdir "$room/up"
for size in 0 1 255 262144 8000000; do
    head -c $size /dev/urandom >"$room/source"
    content=$(hex <"$room/source")
    {
        echo 'option read_window 64'
        echo lane
        echo "fs_write $(at up/whole) ${content:--}"
        echo "open 0 r $(at up/whole)"
        echo "read_all 0 $size"
        echo "fs_read $(at up/whole) 1000"
        echo "stat $(at up/whole)"
        echo lane
        echo "open 0 wc $(at up/parts)"
        echo "write_all 0 6162"
        echo "write_parts 0 63 - 64"
        echo "close 0"
    } >"$room/script"
    run
    printf 'lane 0 call %s\n' "2 read ${content:--}" "3 read ${content:--}" >"$room/wanted"
    grep '^lane 0 call [23] ' "$room/outcomes" >"$room/got"
    [ $status -eq 0 ] && cmp "$room/wanted" "$room/got" && cmp "$room/source" "$room/up/whole" && [ "$(cat "$room/up/parts")" = abcd ]
    tell "a file of $size bytes" $?
done

# ---- a file comes down by a whole read with 64 READs under way at once

head -c 8000000 /dev/urandom >"$room/up/window"
{
    printf 'option read_window 64\nlane\nfs_read %s 1000\nstep 0\nflush\ntake\n' "$(at up/window)"
    for round in 1 2 3 4; do
        yes 'step 0' | head -n 64
        echo flush
        yes take | head -n 64
    done
} >"$room/script"
run
printf 'lane 0 call 0 read %s\n' "$(hex <"$room/up/window")" | cmp - "$room/outcomes" && [ $status -eq 0 ] &&
    [ "$(grep -n '^> read' "$room/text" | sed -n 2p | cut -d: -f1)" -lt "$(grep -n '^< data' "$room/text" | sed -n 1p | cut -d: -f1)" ]
tell 'a whole read with many READs under way' $?

# ---- buffered files go up through a window of requests, and come down in more reads than requests

for size in 0 1 255 262144 8000000; do
    head -c $size /dev/urandom >"$room/source"
    content=$(hex <"$room/source")
    {
        echo lane
        echo "open 0 wc $(at up/buffered)"
        echo 'buffer 0 4096'
        echo "buf_write_all 0 ${content:--}"
        echo 'buf_flush 0'
        echo 'close 0'
        echo "open 0 r $(at up/buffered)"
        echo 'buffer 0 262144'
        yes 'buf_read 0 200000' | head -n $((size / 100000 + 3))
        echo 'close 0'
    } >"$room/script"
    rm -f "$room/up/buffered"
    run
    printf %s "$content" >"$room/wanted"
    sed -n 's/^lane 0 call [0-9]* read //p' "$room/outcomes" | tr -d '\n' >"$room/got"
    printf 'lane 0 call %s\n' '0 opened' '1 done' '2 done' '3 done' '4 done' '5 opened' '6 done' >"$room/first"
    head -n 7 "$room/outcomes" | cmp - "$room/first" && [ $status -eq 0 ] && cmp "$room/wanted" "$room/got" &&
        cmp "$room/source" "$room/up/buffered" && ! grep -q refused "$room/outcomes" && grep -q ' end$' "$room/outcomes"
    tell "a buffered file of $size bytes" $?
done

# ---- a listing of 1,000 entries and the two that stand for the directory and its parent

mkdir "$room/many"
(cd "$room/many" && seq 1000 | xargs touch)
printf 'lane\nlist %s 1000\n' "$(at many)" >"$room/script"
run
sed -n 's/^lane 0 call 0 names //p' "$room/outcomes" | tr ' ' '\n' | sort >"$room/got"
{
    printf '2e\n2e2e\n'
    seq 1000 | while read -r name; do printf '%s\n' "$(printf %s "$name" | hex)"; done
} | sort >"$room/wanted"
[ $status -eq 0 ] && cmp "$room/wanted" "$room/got"
tell 'a listing of 1,000 entries' $?

# ---- large pieces come down and go up at once: the server writes a reply before it reads on, and the program does not wait for it

head -c 250000 /dev/urandom >"$room/large"
content=$(hex <"$room/large")
for pairs in 4 16; do
    rm -rf "$room/both"
    mkdir "$room/both"
    {
        for pair in $(seq $pairs); do
            printf 'lane\nopen 0 r %s\nread 0 250000\nclose 0\n' "$(at large)"
            printf 'lane\nopen 0 wc %s\nwrite 0 %s\nclose 0\n' "$(at "both/$pair")" "$content"
        done
        lanes=$(seq 0 $((2 * pairs - 1)))
        for lane in $lanes; do echo "step $lane"; done
        echo flush
        for lane in $lanes; do echo take; done
        for lane in $lanes; do printf 'step %s\nstep %s\n' "$lane" "$lane"; done
        echo flush
    } >"$room/script"
    for turn in $(seq 20); do
        rm -f "$room"/both/*
        run
        copied=0
        for pair in $(seq $pairs); do
            cmp "$room/large" "$room/both/$pair" && copied=$((copied + 1))
        done
        sed -n 's/^lane [0-9]* call 1 read //p' "$room/outcomes" >"$room/got"
        [ $status -eq 0 ] && [ $copied -eq $pairs ] && [ "$(wc -l <"$room/got")" -eq $pairs ] &&
            [ "$(sort -u "$room/got")" = "$content" ] &&
            [ "$(grep -c ' call 1 count 250000$' "$room/outcomes")" -eq $pairs ]
        tell "$pairs large pieces down and $pairs up at once, run $turn" $?
    done
done

# ---- a server that is silent is given up after the time limit, and one that answers is not

printf 'lane\nstat %s\n' "$(at file)" >"$room/script"
: >"$room/outcomes"
timeout 20 "$program" unix "$room/silent" --timeout 1 <"$room/script" >"$room/text" 2>"$room/err"
status=$?
[ $status -eq 1 ] && [ "$(cat "$room/text")" = 'error LinkFault' ] &&
    [ "$(cat "$room/err")" = 'sftp_cli: the server was silent for 1 seconds' ]
tell 'a silent server' $?
timeout 2 "$program" unix "$room/silent" --timeout 0 <"$room/script" >"$room/text" 2>"$room/err"
status=$?
[ $status -eq 124 ] && ! [ -s "$room/text" ] && ! [ -s "$room/err" ]
tell 'a silent server without a time limit' $?
for limit in 0 1 86400; do
    timeout 60 "$program" unix "$room/socket" --timeout $limit <"$room/script" >"$room/text" 2>"$room/err"
    status=$?
    grep '^lane' "$room/text" >"$room/outcomes"
    [ $status -eq 0 ] && grep -q '^lane 0 call 0 meta ' "$room/outcomes" && ! [ -s "$room/err" ]
    tell "a server with a time limit of $limit" $?
done

# ---- 200 files of 0 to 100,000 bytes are copied up by 16 lanes, and down again

mirror=$PWD/crates/sftp_mirror/out/sftp_mirror
if [ -x "$mirror" ]; then
    mkdir "$room/mirrored" "$room/kept"
    number=0
    while [ $number -lt 200 ]; do
        head -c $((number * number * 100000 / 39601)) /dev/urandom >"$room/kept/$number"
        content=$(hex <"$room/kept/$number")
        echo "up $(at "mirrored/$number") ${content:--}"
        number=$((number + 1))
    done >"$room/list"
    timeout 60 "$mirror" unix "$room/socket" 16 4096 <"$room/list" >"$room/outcomes"
    status=$?
    [ $status -eq 0 ] && [ "$(grep -c '^copied ' "$room/outcomes")" -eq 200 ] && diff -r "$room/kept" "$room/mirrored"
    tell '200 files are copied up' $?

    sed 's/^up \([^ ]*\) .*/down \1 1000/' "$room/list" >"$room/downs"
    timeout 60 "$mirror" unix "$room/socket" 16 4096 <"$room/downs" >"$room/outcomes"
    status=$?
    sed 's/^up /got /' "$room/list" >"$room/wanted"
    [ $status -eq 0 ] && cmp "$room/wanted" "$room/outcomes"
    tell 'and down again' $?

    head -c 300000 /dev/urandom >"$room/large"
    printf 'down %s 9\nup %s %s\n' "$(at large)" "$(at copy)" "$(hex <"$room/large")" >"$room/list"
    printf 'got %s %s\n' "$(at large)" "$(hex <"$room/large")" >"$room/wanted"
    for turn in $(seq 20); do
        rm -f "$room/copy"
        timeout 60 "$mirror" unix "$room/socket" 2 8 <"$room/list" >"$room/outcomes"
        status=$?
        [ $status -eq 0 ] && grep -qxF -f "$room/wanted" "$room/outcomes" && cmp "$room/large" "$room/copy"
        tell "a large file down and one up at once, run $turn" $?
    done

    timeout 20 "$mirror" unix "$room/silent" 2 8 --timeout 1 <"$room/list" >"$room/text" 2>"$room/err"
    status=$?
    [ $status -eq 1 ] && [ "$(cat "$room/text")" = 'error LinkFault' ] &&
        [ "$(cat "$room/err")" = 'sftp_mirror: the server was silent for 1 seconds' ]
    tell 'files over a silent server' $?
    timeout 60 "$mirror" unix "$room/socket" 2 8 --timeout 20 <"$room/list" >"$room/outcomes" 2>"$room/err"
    status=$?
    [ $status -eq 0 ] && ! [ -s "$room/err" ]
    tell 'files with a time limit' $?
else
    echo "interop: $mirror is missing: no list of files was copied"
fi

echo "interop over OpenSSH's server: $passed passed, $failed failed"
[ "$failed" -eq 0 ]
