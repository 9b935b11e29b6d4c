#!/bin/sh
# Runs sftp_transfer over OpenSSH's SFTP server where something could be lost or written elsewhere: symbolic links in the
# place of directories and parts, links that lead out of a tree, targets that are no files, long names, full disks, two
# runs at once on one target, and a server whose names lead out of their directory. It installs nothing: if the server or
# socat is missing it says which, and passes. Another program than the one that `rt ci` built may be given as an argument.
name=transfer_safe
. "$(dirname "$0")/transfer_common.sh"

head -c 100001 /dev/urandom >"$room/far/file"
head -c 8000000 /dev/urandom >"$room/near/big"

# ---- links that stand in the way are not followed

mkdir "$room/outside" "$room/near/trap"
printf 'safe' >"$room/outside/x"
mkdir "$room/far/trap" "$room/far/trap/sub"
printf 'new' >"$room/far/trap/sub/x"
ln -s "$room/outside" "$room/near/trap/sub"
run socket get -r "$room/far/trap/." "$room/near/trap"
[ $status -eq 1 ] && [ "$(ls -A "$room/outside")" = x ] && [ "$(cat "$room/outside/x")" = safe ]
tell 'a link in the place of a folder' $?
run socket get -r "$room/far/trap/sub" "$room/near/trap"
[ $status -eq 1 ] && [ "$(ls -A "$room/outside")" = x ] && [ "$(cat "$room/outside/x")" = safe ]
tell 'a link in the place of the directory that is copied' $?
run socket get -r -q "$room/far/trap/sub" "$room/near/trap/sub/"
[ $status -eq 0 ] && [ "$(cat "$room/outside/sub/x")" = new ]
tell 'a link to a directory as the target' $?
rm -rf "$room/outside/sub" "$room/near/trap/sub"
mkdir "$room/near/trap/sub"
ln -s "$room/outside/x" "$room/near/trap/sub/.x.part"
run socket get -r -q "$room/far/trap/." "$room/near/trap"
[ $status -eq 0 ] && [ "$(cat "$room/outside/x")" = safe ] && [ "$(cat "$room/near/trap/sub/x")" = new ]
tell 'a link in the place of a part' $?
mkdir "$room/far/shared"
ln -s "$room/outside/x" "$room/far/shared/.x.part"
run socket put -q "$room/near/trap/sub/x" "$room/far/shared/x"
[ $status -eq 0 ] && [ "$(cat "$room/outside/x")" = safe ] && [ "$(cat "$room/far/shared/x")" = new ] &&
    ! [ -L "$room/far/shared/x" ]
tell 'a link in the place of a part on the server' $?

# ---- links that lead out of the tree

mkdir "$room/far/links" "$room/far/links/sub"
echo x >"$room/far/links/file"
ln -s file "$room/far/links/within"
ln -s ../file "$room/far/links/sub/within"
ln -s ../file "$room/far/links/out"
ln -s ../../links/file "$room/far/links/sub/out"
ln -s "$room/outside/x" "$room/far/links/absolute"
run socket get -r -q "$room/far/links" "$room/near/links"
[ $status -eq 1 ] && [ "$(readlink "$room/near/links/within" "$room/near/links/sub/within" | tr '\n' ' ')" = 'file ../file ' ] &&
    [ "$(find "$room/near/links" -type l | wc -l)" -eq 2 ] && [ "$(wc -l <"$room/err")" -eq 3 ] &&
    [ "$(grep -c ': skipped: the link leads out of the tree (--links as-is copies it)$' "$room/err")" -eq 3 ]
tell 'links that lead out of the tree' $?
run socket get -r -q "$room/far/links/." "$room/near/links" --links as-is
[ $status -eq 0 ] && same "$room/far/links" "$room/near/links"
tell 'links as they are' $?

# ---- targets that are no files, long names, full disks

mkfifo "$room/near/pipe" "$room/far/pipe"
run socket get "$room/far/file" "$room/near/pipe"
[ $status -eq 1 ] && [ -p "$room/near/pipe" ] && grep -q 'neither a file nor a link to one' "$room/err"
tell 'a pipe as the local target' $?
run socket put "$room/near/big" "$room/far/pipe"
[ $status -eq 1 ] && [ -p "$room/far/pipe" ] && grep -q 'neither a file nor a directory' "$room/err"
tell 'a pipe as the target on the server' $?
mkdir "$room/far/long"
for size in 228 232 233 249 255; do
    echo $size >"$room/far/long/$(printf "%0${size}d" $size)"
done
printf x >"$room/far/long/$(printf '\303\274%.0s' $(seq 127))"
run socket get -r -q "$room/far/long" "$room/near/long"
[ $status -eq 0 ] && same "$room/far/long" "$room/near/long" && ! [ -s "$room/err" ]
tell 'long names down' $?
run socket put -r -q "$room/near/long" "$room/far/long"
[ $status -eq 0 ] && same "$room/near/long" "$room/far/long/long" && ! [ -s "$room/err" ]
tell 'long names up' $?
mkdir "$room/full" "$room/far/forty"
if mount -t tmpfs -o size=8m tmpfs "$room/full" 2>"$room/err"; then
    for n in $(seq 40); do
        head -c 500000 /dev/urandom >"$room/far/forty/$n"
    done
    run socket get -r -q "$room/far/forty" "$room/full/forty" --files 4
    [ $status -eq 1 ] && [ "$(ls -A "$room/full/forty" | wc -l)" -ge 10 ] && whole "$room/full/forty" "$room/far/forty" &&
        [ -z "$(find "$room/full" -name '*.part')" ] && grep -q "$rest" "$room/err" && [ "$(wc -l <"$room/err")" -le 6 ]
    tell 'a full local disk' $?
    rm -rf "$room/full/forty"
    run socket put -r -q "$room/far/forty" "$room/full/forty" --files 4
    [ $status -eq 1 ] && [ "$(ls -A "$room/full/forty" | wc -l)" -ge 10 ] && whole "$room/full/forty" "$room/far/forty" &&
        [ -z "$(find "$room/full" -name '*.part')" ]
    tell 'a full disk of the server' $?
    umount "$room/full"
fi

# ---- files that are written through to the disk before they have their names

printf '#!/bin/sh\nexec %s -e -l DEBUG3 2>>%s\n' "$server" "$room/log" >"$room/logs"
chmod +x "$room/logs"
socat "UNIX-LISTEN:$room/logged,fork" "EXEC:$room/logs" 2>/dev/null &
ninth=$!
socat "UNIX-LISTEN:$room/unsynced,fork" "EXEC:$server -P fsync" 2>/dev/null &
tenth=$!
trap 'kill $first $second $third $sixth $seventh $ninth $tenth 2>/dev/null; rm -rf "$room"' EXIT
for each in logged unsynced; do
    tries=0
    while ! [ -S "$room/$each" ] && [ $tries -lt 100 ]; do
        sleep 0.1
        tries=$((tries + 1))
    done
done
run logged put --sync "$room/near/big" "$room/far/synced"
[ $status -eq 0 ] && cmp -s "$room/near/big" "$room/far/synced" && ! [ -s "$room/err" ] &&
    [ "$(grep -oE '^(fsync|posix-rename) ' "$room/log" | tr -d '\n')" = 'fsync posix-rename ' ]
tell 'a file of the server is written through to the disk' $?
run unsynced put --sync "$room/near/big" "$room/far/synced"
[ $status -eq 0 ] && grep -q 'the server does not offer fsync@openssh.com' "$room/err"
tell 'a server that writes nothing through to the disk' $?
run socket get --sync "$room/far/file" "$room/near/synced"
[ $status -eq 0 ] && cmp -s "$room/far/file" "$room/near/synced" && ! [ -s "$room/err" ]
tell 'a local file is written through to the disk' $?
if command -v strace >/dev/null; then
    timeout 60 strace -o "$room/calls" -e trace=fsync,rename "$program" "unix:$room/socket" get --sync "$room/far/file" \
        "$room/near/synced" 2>"$room/err"
    status=$?
    [ $status -eq 0 ] && [ "$(grep -oE '^(fsync|rename)' "$room/calls" | tr '\n' ' ')" = 'fsync rename fsync ' ]
    tell 'a local file and then its directory are written through to the disk' $?
fi

# ---- two runs at once on one target: in the end it is one of the two files, whole

head -c 30000000 /dev/zero >"$room/near/zeros"
head -c 30000000 /dev/zero | tr '\0' x >"$room/near/letters"
cp "$room/near/zeros" "$room/near/letters" "$room/far"
# whether a file is one of the two
is_one() {
    cmp -s "$1" "$room/near/zeros" || cmp -s "$1" "$room/near/letters"
}
socat "UNIX-LISTEN:$room/plain,fork" "EXEC:$server -P posix-rename" 2>/dev/null &
eighth=$!
tries=0
while ! [ -S "$room/plain" ] && [ $tries -lt 100 ]; do
    sleep 0.1
    tries=$((tries + 1))
done
for case in 'socket get far near' 'socket put near far' 'plain put near far'; do
    # shellcheck disable=SC2086
    set -- $case
    timeout 60 "$program" "unix:$room/$1" "$2" "$room/$3/zeros" "$room/$4/twice" >"$room/out" 2>&1 &
    one=$!
    run "$1" "$2" "$room/$3/letters" "$room/$4/twice" --window 2
    wait $one
    other=$?
    [ $other -le 1 ] && [ $status -le 1 ] && [ $((other + status)) -le 1 ] && is_one "$room/$4/twice" &&
        ! ls "$room/$4"/.twice* >"$room/out" 2>&1
    tell "two runs at once, $1 $2" $?
done
# a run that is killed leaves the name to the other
for case in 'get far near' 'put near far'; do
    # shellcheck disable=SC2086
    set -- $case
    timeout 60 "$program" "unix:$room/socket" "$1" "$room/$2/zeros" "$room/$3/killed" --window 1 --limit 1 >"$room/out" 2>&1 &
    one=$!
    sleep 0.1
    run socket "$1" "$room/$2/letters" "$room/$3/killed"
    kill -9 $one 2>/dev/null
    wait $one 2>/dev/null
    [ $status -eq 0 ] && is_one "$room/$3/killed"
    tell "a run beside one that is killed, $1" $?
done
kill $eighth 2>/dev/null
rm -f "$room/near/zeros" "$room/near/letters" "$room/far/zeros" "$room/far/letters"

# ---- a server whose names lead out of their folder

# a number in four bytes, and a text behind its length
word() {
    printf "\\$(printf %03o $(($1 >> 24 & 255)))\\$(printf %03o $(($1 >> 16 & 255)))\\$(printf %03o $(($1 >> 8 & 255)))\\$(printf %03o $(($1 & 255)))"
}
text() {
    word ${#1}
    printf %s "$1"
}
# one frame, of a type, with standard input as the rest of its body
frame() {
    cat >"$room/body"
    word $(($(wc -c <"$room/body") + 1))
    printf "\\$(printf %03o "$1")"
    cat "$room/body"
}
# an entry of a listing: its name, and its mode
entry() {
    text "$1"
    text "$1"
    word 4
    word "$2"
}
# a server that answers one walk: what the root is, its handle, its entries, the end, and that it is closed
hostile() {
    word 3 | frame 2
    { word 0; word 4; word 16877; } | frame 105
    { word 0; text h; } | frame 102
    { word 1; word $#; for name; do entry "$name" 33188; done; } | frame 104
    { word 1; word 1; text end; text en; } | frame 101
    { word 0; word 0; text ok; text en; } | frame 101
}
hostile ../escaped /escaped a/b .. . '' >"$room/script"
socat "UNIX-LISTEN:$room/evil" "SYSTEM:cat $room/script; sleep 1" 2>/dev/null &
fourth=$!
tries=0
while ! [ -S "$room/evil" ] && [ $tries -lt 100 ]; do
    sleep 0.1
    tries=$((tries + 1))
done
mkdir "$room/near/cage"
run evil get -r evil "$room/near/cage/target"
kill $fourth 2>/dev/null
[ $status -eq 1 ] && [ "$(ls -A "$room/near/cage")" = target ] && [ -z "$(ls -A "$room/near/cage/target")" ] &&
    [ "$(grep -c ': skipped: the name leads out of its directory$' "$room/err")" -eq 4 ]
tell 'names that would lead out of the target' $?

echo "transfer_safe over OpenSSH's server: $passed passed, $failed failed"
[ "$failed" -eq 0 ]
