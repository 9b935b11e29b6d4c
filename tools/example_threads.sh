#!/bin/sh
# Runs the program of crates/example_threads: a hundred runs of eight lanes over the server in memory, whose receipts are compared with
# their journals; five of eight lanes over replies that are laid out beforehand, whose outcomes are those that these replies bring;
# if there is python3, a server that sends one invalid frame and then neither reads nor writes, and one that answers late, while no
# thread may be busy; and, if there are OpenSSH's SFTP server and socat, sixteen lanes in threads over it, with 1,000 files up and
# 1,000 down that are compared, twenty runs of four and of sixteen lanes that read large files beside as many that write them, eight
# threads that submit and cancel calls, a process that may create no thread, and servers that end in the middle or are killed, after
# which each thread ends. It installs nothing: if a program is missing it says which, and skips that part. Another program than the
# one that `rt ci` built may be given.
set -u
case ${1-} in
'' | /*) program=${1-} ;;
*) program=$PWD/$1 ;;
esac
cd "$(dirname "$0")/.." || exit 1
program=${program:-$PWD/crates/example_threads/out/example_threads}
server=/usr/lib/openssh/sftp-server

if ! [ -x "$program" ]; then
    echo "example_threads: $program is missing: run 'rt ci' first, or 'rt run' in crates/example_threads"
    exit 1
fi

room=$(mktemp -d) || exit 1
room=$(cd "$room" && pwd -P)
listeners=
trap 'kill $listeners 2>/dev/null; rm -rf "$room"' EXIT
passed=0
failed=0

# says what a part showed
tell() {
    if [ "$2" -eq 0 ]; then
        passed=$((passed + 1))
        return
    fi
    failed=$((failed + 1))
    echo "example_threads: $1: FAILED"
    head -n 5 "$room/err"
}

# ---- receipts and journals

timeout 300 "$program" runs 100 2>"$room/err"
tell 'a hundred runs of eight lanes' $?

# ---- replies that are laid out beforehand

# the outcomes that they bring: a size spelled by the lane's letter and the call's number, MKDIR done, REMOVE refused, a file written
awk 'BEGIN {
    for (lane = 0; lane < 8; lane++)
        for (k = 0; k < 200; k++) {
            outcome = "done"
            if (k % 4 == 0) outcome = sprintf("meta 00000001000000000000%02x%02x", 97 + lane, k)
            if (k % 4 == 2) outcome = "refused sftp 2"
            print "lane", lane, "call", k, outcome
        }
}' >"$room/wanted"
for _ in 1 2 3 4 5; do
    timeout 60 "$program" sheet >"$room/text" 2>"$room/err" &&
        grep '^lane' "$room/text" >"$room/outcomes" && cmp "$room/wanted" "$room/outcomes" >>"$room/err" &&
        [ "$(grep -c '^> ' "$room/text")" -eq 2400 ] && [ "$(grep -c '^< ' "$room/text")" -eq 2400 ]
    tell 'replies that are laid out' $?
done

# the hexadecimal digits of what standard input holds
hex() {
    od -An -v -tx1 | tr -d ' \n'
}

# ---- servers that stop and that are late

# Serves one connection at a socket. VERSION comes at once. After sixteen requests `stops` answers each OPEN, waits until the WRITEs
# fill the socket, notes the time, sends a frame of length 0, and then neither reads nor writes. `late` waits three seconds, and then
# answers each request with SSH_FX_NO_SUCH_FILE.
cat >"$room/server.py" <<'END'
import socket, struct, sys, time

path, kind, noted = sys.argv[1:]
listener = socket.socket(socket.AF_UNIX)
listener.bind(path)
listener.listen(1)
peer = listener.accept()[0]


def exactly(count):
    data = b""
    while len(data) < count:
        more = peer.recv(count - len(data))
        if not more:
            sys.exit(1)
        data += more
    return data


def frame():
    return exactly(struct.unpack(">I", exactly(4))[0])


def send(body):
    peer.sendall(struct.pack(">I", len(body)) + body)


frame()
send(b"\x02\x00\x00\x00\x03")
requests = [frame() for _ in range(16)]
if kind == "stops":
    for body in requests:
        if body[0] == 3:
            send(b"\x66" + body[1:5] + b"\x00\x00\x00\x01h")
    time.sleep(0.5)
    with open(noted, "w") as file:
        file.write(str(time.time_ns() // 1000000))
    peer.sendall(b"\x00\x00\x00\x00")
    time.sleep(60)
else:
    time.sleep(3)
    for body in requests:
        send(b"\x65" + body[1:5] + b"\x00\x00\x00\x02" + 8 * b"\x00")
END

# waits for a socket
await() {
    tries=0
    while ! [ -S "$room/$1" ] && [ $tries -lt 100 ]; do
        sleep 0.1
        tries=$((tries + 1))
    done
}

# runs the server of Python's
answer() {
    python3 "$room/server.py" "$room/$1.socket" "$1" "$room/noted" 2>"$room/served" &
    listeners="$listeners $!"
    await "$1.socket"
}

if command -v python3 >/dev/null; then
    # one lane asks for attributes, and fifteen write 600,000 bytes in all: the sender waits inside `send`
    part=$(head -c 40000 /dev/urandom | hex)
    {
        printf 'lane\nstat 2f\n'
        for lane in 1 2 3 4 5 6 7 8 9 a b c d e f; do
            printf 'lane\nfs_write 6%s %s\n' $lane "$part"
        done
    } >"$room/writes"
    answer stops
    timeout 30 "$program" unix "$room/stops.socket" <"$room/writes" >"$room/text" 2>"$room/err"
    status=$?
    took=$(($(date +%s%N) / 1000000 - $(cat "$room/noted" 2>/dev/null || echo 0)))
    [ $status -eq 1 ] && [ "$(wc -l <"$room/err")" -eq 1 ] && grep -q ': the server sent an invalid reply$' "$room/err" &&
        [ $took -lt 1000 ]
    tell "a server that stops after an invalid frame, status $status, after $took ms" $?

    lane=0
    while [ $lane -lt 16 ]; do
        lane=$((lane + 1))
        printf 'lane\nstat 2f\n'
    done >"$room/stats"
    answer late
    (
        timeout 30 "$program" counts "$room/late.socket" <"$room/stats" >"$room/text" 2>"$room/err"
        echo $? >"$room/status"
        times >"$room/times"
    )
    # user and system time of the children, in milliseconds
    busy=$(tail -n 1 "$room/times" | awk '{ split($1, u, "[ms]"); split($2, s, "[ms]")
        print int(((u[1] + s[1]) * 60 + u[2] + s[2]) * 1000) }')
    status=$(cat "$room/status")
    [ "$status" -eq 0 ] && [ "$busy" -lt 300 ]
    tell "a server that answers late, status $status, after $busy ms of processor time" $?
else
    echo "example_threads: servers that stop and that are late: skipped, missing: python3"
fi

# ---- over OpenSSH's server

missing=
[ -x "$server" ] || missing="$missing openssh-sftp-server ($server)"
command -v socat >/dev/null || missing="$missing socat"
if [ -n "$missing" ]; then
    echo "example_threads: $passed passed, $failed failed; over OpenSSH's server: skipped, missing:$missing"
    [ "$failed" -eq 0 ]
    exit
fi

# serves a command at a socket
serve() {
    socat "UNIX-LISTEN:$room/$1,fork" "EXEC:$2" 2>/dev/null &
    listeners="$listeners $!"
    await "$1"
}

# those of a name in the room
at() {
    printf %s "$room/$1" | hex
}

serve socket "$server"

# Each of sixteen lanes makes a directory, and writes its share of 1,000 files there and reads as many that are there; those that go up
# and those that come down are alike, so that the two folders are compared. One in fifty has more bytes than one request carries here.
mkdir "$room/up" "$room/down"
LC_ALL=C awk -v room="$room" -v base="$(at '')" 'BEGIN {
    for (i = 32; i < 127; i++) hex[sprintf("%c", i)] = sprintf("%02x", i)
    for (lane = 0; lane < 16; lane++) system("mkdir " room "/down/" lane)
    for (lane = 0; lane < 16; lane++) {
        printf "lane\nmkdir %s\n", base spelled("up/" lane) >(room "/script")
        print "lane", lane, "call 0 done" >(room "/wanted")
        call = 1
        for (file = lane; file < 1000; file += 16) {
            name = lane "/" file
            lines = file % 50 == 7 ? 4000 : file * 7 % 300
            bytes = ""
            text = ""
            for (k = 0; k < lines; k++) {
                line = name "/" k
                text = text line "\n"
                bytes = bytes spelled(line) "0a"
            }
            printf "%s", text >(room "/down/" name)
            close(room "/down/" name)
            if (bytes == "") bytes = "-"
            print "fs_write", base spelled("up/" name), bytes >(room "/script")
            print "fs_read", base spelled("down/" name), 100 >(room "/script")
            print "lane", lane, "call", call++, "done" >(room "/wanted")
            print "lane", lane, "call", call++, "read", bytes >(room "/wanted")
        }
    }
}
function spelled(text, all, i) {
    all = ""
    for (i = 1; i <= length(text); i++) all = all hex[substr(text, i, 1)]
    return all
}'
timeout 120 "$program" unix "$room/socket" <"$room/script" >"$room/text" 2>"$room/err" &&
    grep '^lane' "$room/text" >"$room/outcomes" && cmp "$room/wanted" "$room/outcomes" >>"$room/err"
tell 'sixteen lanes, 1,000 files up and 1,000 down' $?
[ "$(find "$room/up" -type f | wc -l)" -eq 1000 ] && diff -r "$room/down" "$room/up" >"$room/err"
tell 'the files that went up' $?

# ---- large files both ways at once: the server writes a whole reply before it reads on

head -c 250000 /dev/urandom >"$room/large"
part=$(hex <"$room/large")
for lanes in 4 16; do
    lane=0
    while [ $lane -lt $lanes ]; do
        lane=$((lane + 1))
        printf 'lane\nfs_read %s 100\nfs_read %s 100\n' "$(at large)" "$(at large)"
        printf 'lane\nfs_write %s %s\n' "$(at "large$lane")" "$part"
    done >"$room/both"
    run=0
    while [ $run -lt 20 ]; do
        run=$((run + 1))
        rm -f "$room"/large[0-9]*
        timeout 60 "$program" counts "$room/socket" <"$room/both" >"$room/text" 2>"$room/err"
        status=$?
        lane=0
        while [ $status -eq 0 ] && [ $lane -lt $lanes ]; do
            lane=$((lane + 1))
            cmp "$room/large" "$room/large$lane" >"$room/err" || status=1
        done
        tell "$lanes lanes that read and $lanes that write 250,000 bytes, run $run, status $status" $status
    done
done

# ---- threads of the program's own

for run in 1 2 3; do
    timeout 60 "$program" calls "$room/socket" >"$room/text" 2>"$room/err"
    status=$?
    [ $status -eq 0 ] && [ "$(cat "$room/text")" = 'calls 1600 cancelled 400' ]
    tell "eight threads that submit and cancel calls, run $run, status $status" $?
done

# ---- a process that may create no thread, or one: the run ends, and waits for nobody

if [ "$(id -u)" -eq 0 ] && command -v setpriv >/dev/null && command -v prlimit >/dev/null; then
    mkdir "$room/shown"
    cp "$program" "$room/shown/program"
    chmod 755 "$room" "$room/shown" "$room/shown/program"
    chmod 777 "$room/socket"
    printf 'lane\nstat 2f\nlane\nstat 2f\n' >"$room/two"
    for most in 1 2; do
        timeout 30 setpriv --reuid=65533 --clear-groups prlimit --nproc=$most:$most "$room/shown/program" \
            unix "$room/socket" <"$room/two" >"$room/text" 2>"$room/err"
        status=$?
        [ $status -eq 1 ] && [ "$(wc -l <"$room/err")" -eq 1 ]
        tell "a user with at most $most threads, status $status" $?
    done
else
    echo "example_threads: a process that may create no thread: skipped, as it needs root, setpriv and prlimit"
fi

# ---- servers that end in the middle: after so many bytes of what they are told, or of what they tell

# Behind `head` the server of `tells` is killed, since it would wait for requests if all its replies had gone into the pipe.
for part in 'hears 5' 'hears 40' 'hears 3000' 'hears 100000' 'tells 3000' 'tells 100000'; do
    kind=${part% *}
    bytes=${part#* }
    if [ "$kind" = hears ]; then
        printf '#!/bin/sh\nstdbuf -o0 head -c %s | %s\n' "$bytes" "$server" >"$room/$kind$bytes"
    else
        printf '#!/bin/sh\nsh -c '\''echo $$ >%s/teller; exec %s'\'' | {\n    stdbuf -o0 head -c %s\n    kill -9 $(cat %s/teller)\n}\n' \
            "$room" "$server" "$bytes" "$room" >"$room/$kind$bytes"
    fi
    chmod +x "$room/$kind$bytes"
    rm -rf "$room/up"
    mkdir "$room/up"
    serve "$kind$bytes.socket" "$room/$kind$bytes"
    timeout 60 "$program" unix "$room/$kind$bytes.socket" <"$room/script" >"$room/text" 2>"$room/err"
    status=$?
    [ $status -eq 1 ] && [ "$(wc -l <"$room/err")" -eq 1 ]
    tell "a server that $kind $bytes bytes, status $status" $?
done

# ---- one that is killed while files go up and down: behind them each lane has two thousand calls more, so that it is in the middle

printf '#!/bin/sh\necho $$ >%s/server\nexec %s\n' "$room" "$server" >"$room/named"
chmod +x "$room/named"
rm -rf "$room/up"
mkdir "$room/up"
serve killed.socket "$room/named"
awk -v call="stat $(printf %s /tmp | hex)" '
function more() { for (k = 0; k < 2000; k++) print call }
$1 == "lane" && NR > 1 { more() }
{ print }
END { more() }' "$room/script" >"$room/long"
"$program" unix "$room/killed.socket" <"$room/long" >"$room/text" 2>"$room/err" &
runner=$!
(sleep 60 && kill -9 $runner) 2>/dev/null &
watch=$!
tries=0
while [ "$(find "$room/up" -type f | wc -l)" -lt 300 ] && kill -0 $runner 2>/dev/null && [ $tries -lt 1000 ]; do
    sleep 0.01
    tries=$((tries + 1))
done
[ -d /proc/$runner/task ] && threads=$(ls /proc/$runner/task | wc -l) || threads=0
kill -9 "$(cat "$room/server")" 2>/dev/null
killed=$?
wait $runner
status=$?
kill $watch 2>/dev/null
[ $killed -eq 0 ] && [ $status -eq 1 ] && [ "$(wc -l <"$room/err")" -eq 1 ] &&
    grep -qE ': (the server ended the connection|the connection failed)$' "$room/err"
tell "a server that is killed, status $status" $?
went=$(find "$room/up" -type f | wc -l)
[ "$went" -ge 300 ] && [ "$threads" -ge 18 ]
tell "while $threads threads ran and $went files had gone up" $?

echo "example_threads: $passed passed, $failed failed"
[ "$failed" -eq 0 ]
