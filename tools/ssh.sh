#!/bin/sh
# Runs sftp_transfer over the control socket of real ssh connections, and the front tools/tilfrjon, over an sshd of this
# machine: a key, a key with a passphrase, a password, a wrong one, a host key that is unknown, a jump host; files that use
# up the window of the channel many times, two runs at once, a subsystem that is missing, a master that ends in the middle,
# and masters that misbehave (tools/masters.py). It installs nothing: where sshd or ssh is missing it says which, and passes.
# Another program than the one that `rt ci` built may be given as an argument.
set -u
cd "$(dirname "$0")/.." || exit 1
case ${1-} in
'' | /*) program=${1-} ;;
*) program=$PWD/$1 ;;
esac
program=${program:-$PWD/crates/sftp_transfer/out/sftp_transfer}
front=$PWD/tools/tilfrjon
masters=$PWD/tools/masters.py
sshd=$(command -v sshd || echo /usr/sbin/sshd)
server=/usr/lib/openssh/sftp-server

missing=
[ -x "$sshd" ] || missing="$missing openssh-server"
[ -x "$server" ] || missing="$missing openssh-sftp-server"
command -v ssh >/dev/null || missing="$missing openssh-client"
if [ -n "$missing" ]; then
    echo "ssh: skipped, missing:$missing"
    exit 0
fi
if ! [ -x "$program" ]; then
    echo "ssh: $program is missing: run 'rt ci' first, or 'rt run' in crates/sftp_transfer"
    exit 1
fi
# sshd wants this directory if it runs as root
if [ "$(id -u)" -eq 0 ] && ! [ -d /run/sshd ] && ! mkdir /run/sshd 2>/dev/null; then
    echo "ssh: skipped, missing: /run/sshd"
    exit 0
fi

room=$(mktemp -d) || exit 1
room=$(cd "$room" && pwd -P)
chmod 755 "$room"
passed=0
failed=0
status=0
other=
helper=

# whether an sshd listens on the port
listens() {
    python3 - "$1" <<'END' 2>/dev/null
import socket, sys
socket.create_connection(("127.0.0.1", int(sys.argv[1])), 1).close()
END
}
# starts an sshd of this name and with these further lines, on a free port, which is left in `port`
serve() {
    name=$1
    tries=0
    while [ $tries -lt 20 ]; do
        port=$((20000 + ($$ + tries * 977 + 1$(date +%S) * 31) % 10000))
        tries=$((tries + 1))
        listens "$port" && continue
        cat >"$room/$name.conf" <<END
Port $port
ListenAddress 127.0.0.1
HostKey $room/hostkey
PidFile $room/$name.pid
AuthorizedKeysFile $room/keys
StrictModes no
UsePAM no
PermitRootLogin yes
MaxSessions 4
$2
END
        "$sshd" -f "$room/$name.conf" -E "$room/$name.log" || continue
        waits=0
        while [ $waits -lt 50 ]; do
            listens "$port" && return 0
            sleep 0.1
            waits=$((waits + 1))
        done
    done
    return 1
}
stop() {
    ssh -S "$room/m" -O exit t 2>/dev/null
    for pid in "$room"/*.pid; do
        [ -f "$pid" ] && kill "$(cat "$pid")" 2>/dev/null
    done
    [ -n "$helper" ] && kill "$helper" 2>/dev/null
    [ -n "$other" ] && userdel "$other" 2>/dev/null
    rm -rf "$room"
}
trap stop EXIT
trap 'exit 1' HUP INT TERM

# says what a part showed
tell() {
    if [ "$2" -eq 0 ]; then
        passed=$((passed + 1))
        return
    fi
    failed=$((failed + 1))
    echo "ssh: $1: FAILED, status $status; standard error:"
    cut -c1-200 "$room/err"
}
# runs the program over the master
run() {
    timeout 120 "$program" "ssh:$room/m" "$@" >"$room/out" 2>"$room/err"
    status=$?
}
# runs the front with this configuration of ssh
front() {
    SFTP_TRANSFER=$program timeout 120 "$front" -F "$room/ssh.conf" "$@" >"$room/out" 2>"$room/err" </dev/null
    status=$?
}

ssh-keygen -q -t ed25519 -N '' -f "$room/hostkey" && ssh-keygen -q -t ed25519 -N '' -f "$room/key" &&
    ssh-keygen -q -t ed25519 -N 'open sesame' -f "$room/locked" && ssh-keygen -q -t ed25519 -N '' -f "$room/stranger" ||
    exit 1
cat "$room/key.pub" "$room/locked.pub" >"$room/keys"
serve first "PasswordAuthentication no
Subsystem sftp $server" || { echo "ssh: sshd does not start" && cat "$room/first.log" && exit 1; }
first=$port
serve bare 'PasswordAuthentication no' || exit 1
bare=$port
# what answers the questions of ssh: the passphrase, the password that a file has, and the question about a host key
cat >"$room/answer" <<END
#!/bin/sh
case \$1 in
*yes/no*) echo yes ;;
*passphrase*) echo 'open sesame' ;;
*assword*) cat "$room/password" ;;
esac
END
chmod +x "$room/answer"
export SSH_ASKPASS="$room/answer" SSH_ASKPASS_REQUIRE=force DISPLAY=:0
host() {
    cat <<END
Host $1
  HostName 127.0.0.1
  Port $2
  User $3
  IdentityFile $room/$4
  IdentitiesOnly yes
  UserKnownHostsFile $room/$5
  StrictHostKeyChecking $6
  NumberOfPasswordPrompts 1
END
}
me=$(id -un)
{
    host t "$first" "$me" key known accept-new
    host locked "$first" "$me" locked known accept-new
    host stranger "$first" "$me" stranger known accept-new
    host asks "$first" "$me" key new ask
    host unknown "$first" "$me" key none yes
    host bare "$bare" "$me" key known accept-new
    host far "$first" "$me" key known accept-new
    echo '  ProxyJump t'
} >"$room/ssh.conf"
# a jump takes the same configuration
sed "s|ProxyJump t|ProxyCommand ssh -F $room/ssh.conf -W %h:%p t|" "$room/ssh.conf" >"$room/with_jump" &&
    mv "$room/with_jump" "$room/ssh.conf"

# ---- the link over a master

ssh -F "$room/ssh.conf" -fNM -S "$room/m" t 2>"$room/err" || { echo "ssh: no connection" && cat "$room/err" "$room/first.log" && exit 1; }
mkdir -p "$room/near/sub" "$room/far" "$room/back"
head -c 64000000 /dev/urandom >"$room/near/large"
echo x >"$room/near/sub/small"
: >"$room/near/empty"
run put -r "$room/near" "$room/far/"
[ $status -eq 0 ] && diff -r "$room/near" "$room/far/near" >"$room/out"
tell 'a tree goes up' $?
run get -r "$room/far/near" "$room/back/"
[ $status -eq 0 ] && diff -r "$room/near" "$room/back/near" >"$room/out"
tell 'and comes down' $?
run list -l "$room/far/near/sub"
[ $status -eq 0 ] && [ "$(cat "$room/out")" = '-            2 small' ]
tell 'a listing' $?
timeout 120 "$program" "ssh:$room/m" get "$room/far/near/large" "$room/one" 2>"$room/err" &
one=$!
run get "$room/far/near/large" "$room/two"
wait $one && [ $status -eq 0 ] && cmp "$room/one" "$room/two" && cmp "$room/one" "$room/near/large"
tell 'two runs at once over one connection' $?
run get "$room/far/missing" "$room/three"
[ $status -eq 1 ] && grep -q "^sftp_transfer: $room/far/missing: " "$room/err"
tell 'a file that is missing' $?
# the master ends once the copy has begun, which has one request in flight, so that it isn't done before
(
    tries=0
    while [ -z "$(find "$room/cut" -name '*.part' 2>/dev/null)" ] && [ $tries -lt 1000 ]; do
        sleep 0.01
        tries=$((tries + 1))
    done
    ssh -S "$room/m" -O exit t 2>/dev/null
) &
run get --window 1 "$room/far/near/large" "$room/far/near/large" "$room/cut"
wait $!
[ $status -eq 7 ] && grep -q '^sftp_transfer: ssh: the connection to the master was lost$' "$room/err" &&
    ! [ -e "$room/cut/large" ]
tell 'a master that ends in the middle' $?
run list /
[ $status -eq 6 ] && [ "$(wc -l <"$room/err")" -eq 1 ]
tell 'no master' $?
ssh -F "$room/ssh.conf" -fNM -S "$room/b" bare 2>"$room/err"
timeout 20 "$program" "ssh:$room/b" list / >"$room/out" 2>"$room/err"
status=$?
[ $status -eq 6 ] && grep -q 'the server has no such subsystem' "$room/err"
tell 'a server without the subsystem' $?
ssh -S "$room/b" -O exit bare 2>/dev/null

# ---- the front

echo hello >"$room/far/file"
front get "t:$room/far/file" "$room/got"
[ $status -eq 0 ] && [ "$(cat "$room/got")" = hello ] && ! [ -s "$room/err" ]
tell 'the front, with a key' $?
front put -r "$room/near/sub" "$room/near/empty" "t:$room/far/into"
[ $status -eq 0 ] && cmp "$room/near/sub/small" "$room/far/into/sub/small" && [ -e "$room/far/into/empty" ]
tell 'the front, several sources up' $?
front list "t:$room/far/into"
[ $status -eq 0 ] && [ "$(sort "$room/out" | tr '\n' ' ')" = 'empty sub ' ]
tell 'the front, a listing' $?
front mkdir -p "t:$room/far/www/releases"
[ $status -eq 0 ] && [ -d "$room/far/www/releases" ]
tell 'the front, directories' $?
front push --delete "$room/near/sub" "t:$room/far/www/releases/1"
[ $status -eq 0 ] && diff -r "$room/near/sub" "$room/far/www/releases/1"
tell 'the front, a directory that is made like another' $?
front push -n --delete --exclude '*.none' "$room/near/sub" "t:$room/far/www/releases/1"
[ $status -eq 0 ] && ! [ -s "$room/out" ]
tell 'the front, nothing that changed' $?
front link releases/1 "t:$room/far/www/next"
front move "t:$room/far/www/next" "t:$room/far/www/current"
[ $status -eq 0 ] && [ "$(readlink "$room/far/www/current")" = releases/1 ]
tell 'the front, a link that gets its name' $?
front chmod 700 "t:$room/far/www"
[ $status -eq 0 ] && [ "$(stat -c %a "$room/far/www")" = 700 ]
tell 'the front, permissions' $?
front pull "t:$room/far/www/releases/1" "$room/pulled"
[ $status -eq 0 ] && diff -r "$room/near/sub" "$room/pulled"
tell 'the front, a local directory that is made like another' $?
mkdir "$room/near/slow"
for each in 1 2 3 4; do
    head -c 100000 /dev/urandom >"$room/near/slow/$each"
done
(
    waits=0
    while ! find "$room/far/www/slow" -name '.*.part' 2>/dev/null | grep -q . && [ $waits -lt 200 ]; do
        sleep 0.05
        waits=$((waits + 1))
    done
    pkill -f "^ssh.*-fNM -S .*tilfrjon.*-- t$"
) &
front push --again 5 --rate 100000 --files 1 "$room/near/slow" "t:$room/far/www/slow"
[ $status -eq 0 ] && diff -r "$room/near/slow" "$room/far/www/slow" && grep -q 'trying again in 1 s' "$room/err"
tell 'the front, a connection that is lost' $?
front push --again x "$room/near/slow" "t:$room/far/www/slow"
[ $status -eq 2 ] && grep -q "the number of '--again' is from 0 to 1000" "$room/err"
tell 'the front, a number of tries that is none' $?
front remove -r "t:$room/far/www"
[ $status -eq 0 ] && ! [ -e "$room/far/www" ]
tell 'the front, a tree that is removed' $?
front get "locked:$room/far/file" "$room/got"
[ $status -eq 0 ] && [ "$(cat "$room/got")" = hello ]
tell 'the front, with a key that has a passphrase' $?
front get "asks:$room/far/file" "$room/got"
[ $status -eq 0 ] && grep -q 127.0.0.1 "$room/new"
tell 'the front, with a host key that is accepted' $?
front get "unknown:$room/far/file" "$room/not"
[ $status -eq 6 ] && grep -q 'Host key verification failed' "$room/err" && ! [ -e "$room/not" ]
tell 'the front, with a host key that is refused' $?
front get "stranger:$room/far/file" "$room/not"
[ $status -eq 6 ] && grep -q 'Permission denied' "$room/err" && ! [ -e "$room/not" ]
tell 'the front, with a key that the server does not know' $?
front get "far:$room/far/file" "$room/got"
[ $status -eq 0 ] && [ "$(cat "$room/got")" = hello ]
tell 'the front, over a jump host' $?
front get "t:$room/far/missing" "$room/not"
[ $status -eq 1 ] && ! [ -e "$room/not" ]
tell 'the front, a file that is missing' $?
front get "$room/far/file" "$room/not"
[ $status -eq 2 ]
tell 'the front, without a host' $?
if [ "$(id -u)" -eq 0 ] && command -v useradd >/dev/null && command -v openssl >/dev/null; then
    other=tilfrjon$$
    secret=$(openssl rand -hex 8)
    if useradd -M -N -s /bin/sh -p "$(openssl passwd -6 "$secret")" "$other" 2>"$room/err"; then
        serve words "PasswordAuthentication yes
PubkeyAuthentication no
Subsystem sftp $server" || exit 1
        host words "$port" "$other" stranger known accept-new >>"$room/ssh.conf"
        chmod 644 "$room/far/file"
        echo "$secret" >"$room/password"
        front get "words:$room/far/file" "$room/got"
        [ $status -eq 0 ] && [ "$(cat "$room/got")" = hello ]
        tell 'the front, with a password' $?
        echo wrong >"$room/password"
        front get "words:$room/far/file" "$room/not"
        [ $status -eq 6 ] && grep -q 'Permission denied' "$room/err" && ! [ -e "$room/not" ]
        tell 'the front, with a wrong password' $?
    else
        other=
    fi
fi

# ---- masters that misbehave

if command -v python3 >/dev/null; then
    mkdir "$room/fakes"
    python3 "$masters" "$room/fakes" 2>/dev/null &
    helper=$!
    waits=0
    while ! [ -S "$room/fakes/ready" ] && [ $waits -lt 100 ]; do
        sleep 0.1
        waits=$((waits + 1))
    done
    while read -r name want text; do
        timeout 20 "$program" "ssh:$room/fakes/$name" list / >"$room/out" 2>"$room/err"
        status=$?
        [ $status -eq "$want" ] && grep -q -- "$text" "$room/err" && ! [ -s "$room/out" ]
        tell "a master that misbehaves: $name" $?
    done <<END
version 6 speaks version 5 of the multiplexing protocol
noproxy 6 refuses its proxy mode
other 6 not a control socket
ends 6 not a control socket
nochannel 6 refused a channel (reason 1)
nosubsystem 6 no such subsystem
long 7 a message of 40000 bytes
foreign 7 a message for channel 7
short 7 a message that is not one of SSH
after 7 the link ended while a reply was due
lost 7 the connection to the master was lost
over 7 a window that is too large
said 7 .
END
fi

echo "ssh over a real sshd: $passed passed, $failed failed"
[ $failed -eq 0 ]
