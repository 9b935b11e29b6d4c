#!/bin/sh
# Runs sftp_transfer over OpenSSH's SFTP server: files of several sizes and trees down and up, and compares them; what is
# listed; what is left if a file is missing or the server ends in the middle; what continues after a part, and what is read
# back; permissions and times. It installs nothing: if the server or socat is missing it says which, and passes. Another
# program than the one that `rt ci` built may be given as an argument.
name=transfer
. "$(dirname "$0")/transfer_common.sh"

for size in 0 1 32768 100001 8000000; do
    head -c $size /dev/urandom >"$room/far/file"
    run socket get "$room/far/file" "$room/near/file"
    [ $status -eq 0 ] && cmp "$room/far/file" "$room/near/file" && ! [ -s "$room/out" ] && ! [ -s "$room/err" ] &&
        [ "$(ls -A "$room/near")" = file ]
    tell "a file of $size bytes down" $?
    head -c $size /dev/urandom >"$room/near/other"
    run socket put "$room/near/other" "$room/far/other"
    [ $status -eq 0 ] && cmp "$room/near/other" "$room/far/other" && ! [ -s "$room/out" ] && ! [ -s "$room/err" ] &&
        [ "$(ls -A "$room/far" | tr '\n' ' ')" = 'file other ' ]
    tell "a file of $size bytes up" $?
    rm -f "$room/near/file" "$room/near/other"
done

# ---- standard input and output as the connection

head -c 100001 /dev/urandom >"$room/far/file"
status=0
timeout 60 socat "EXEC:$server" "EXEC:$program stdio get $room/far/file $room/near/file" 2>"$room/err"
cmp "$room/far/file" "$room/near/file" && ! [ -s "$room/err" ]
tell 'a file down over standard input and output' $?
rm -f "$room/near/file"

# two pipes, and files that are larger than what pipes hold: the server writes a reply before it reads on
head -c 3000000 /dev/urandom >"$room/far/large"
mkfifo "$room/requests" "$room/replies"
for way in get put; do
    case $way in
    get) set -- "$room/far/large" "$room/near/large" ;;
    put) set -- "$room/near/large" "$room/far/again" ;;
    esac
    timeout 60 "$server" <"$room/requests" >"$room/replies" 2>/dev/null &
    timeout 60 "$program" stdio $way "$@" >"$room/requests" <"$room/replies" 2>"$room/err"
    status=$?
    wait $!
    [ $status -eq 0 ] && cmp "$1" "$2" && ! [ -s "$room/err" ]
    tell "a large file over two pipes by $way" $?
done
rm -f "$room/far/large" "$room/far/again" "$room/near/large"

# a pipe that the program had blocks again for who has it later
exec 5<>"$room/requests" 6<>"$room/replies"
timeout 60 "$server" <"$room/requests" >"$room/replies" 2>/dev/null 5>&- 6>&- &
timeout 60 "$program" stdio get "$room/far/file" "$room/near/file" <&6 >&5 2>"$room/err"
status=$?
kill $! 2>/dev/null
timeout 1 head -c 1 <&6 >"$room/out" 2>"$room/out"
[ $? -eq 124 ] && [ $status -eq 0 ] && cmp "$room/far/file" "$room/near/file" && ! [ -s "$room/out" ]
tell 'pipes block again after the program' $?
exec 5>&- 6>&-
rm -f "$room/near/file" "$room/requests" "$room/replies"

# two pipes by their names; the server may open its ends in any order
mkfifo "$room/requests" "$room/replies"
for order in 1 2; do
    case $order in
    1) sh -c "timeout 60 $server <'$room/requests' >'$room/replies'" 2>/dev/null & ;;
    2) sh -c "timeout 60 $server >'$room/replies' <'$room/requests'" 2>/dev/null & ;;
    esac
    timeout 60 "$program" "files:$room/replies:$room/requests" get "$room/far/file" "$room/near/file" 2>"$room/err"
    status=$?
    wait $!
    [ $status -eq 0 ] && cmp "$room/far/file" "$room/near/file" && ! [ -s "$room/err" ]
    tell "a file down over two named pipes, order $order" $?
    rm -f "$room/near/file"
done
sh -c "timeout 60 $server <'$room/requests' >'$room/replies'" 2>/dev/null &
timeout 60 "$program" "files:$room/replies:$room/requests" list "$room/far" >"$room/out" 2>"$room/err"
status=$?
wait $!
[ $status -eq 0 ] && grep -qx file "$room/out" && ! [ -s "$room/err" ]
tell 'a listing over two named pipes' $?
rm -f "$room/requests" "$room/replies"
timeout 60 "$program" "files:$room/far/file:$room/far/file" list >"$room/out" 2>"$room/err"
status=$?
[ $status -eq 6 ] && [ "$(wc -l <"$room/err")" -eq 1 ]
tell 'files that are no pipes' $?

timeout 60 "$program" stdio get "$room/far/file" "$room/near/file" </dev/null >"$room/out" 2>"$room/err"
status=$?
[ $status -eq 6 ] && grep -q '^sftp_transfer: stdio: ' "$room/err" && [ "$(wc -l <"$room/err")" -eq 1 ]
tell 'standard input and output that are no pipes' $?

# ---- a server that is silent is given up after the time limit, and one that answers is not

for work in "get $room/far/file $room/near/file" "list $room/far"; do
    words=${work#* }
    # shellcheck disable=SC2086
    timeout 20 "$program" "unix:$room/silent" "${work%% *}" --timeout 1 $words >"$room/out" 2>"$room/err"
    status=$?
    [ $status -eq 7 ] && [ "$(tail -n 1 "$room/err")" = 'sftp_transfer: the server was silent for 1 seconds' ] &&
        ! [ -s "$room/out" ]
    tell "a silent server, for ${work%% *}" $?
done
timeout 2 "$program" "unix:$room/silent" list --timeout 0 >"$room/out" 2>"$room/err"
status=$?
[ $status -eq 124 ] && ! [ -s "$room/out" ] && ! [ -s "$room/err" ]
tell 'a silent server without a time limit' $?
run socket get --timeout 1 "$room/far/file" "$room/near/file"
[ $status -eq 0 ] && cmp "$room/far/file" "$room/near/file" && ! [ -s "$room/err" ]
tell 'a file with a time limit' $?
rm -f "$room/near/file"

# ---- TCP

socat -d -d TCP-LISTEN:0,bind=127.0.0.1 "EXEC:$server" 2>"$room/heard" &
fifth=$!
port=
tries=0
while [ -z "$port" ] && [ $tries -lt 100 ]; do
    port=$(sed -n 's/.*listening on AF=2 127.0.0.1:\([0-9]*\)$/\1/p' "$room/heard" 2>/dev/null)
    [ -n "$port" ] || sleep 0.1
    tries=$((tries + 1))
done
timeout 60 "$program" "tcp:127.0.0.1:$port" get "$room/far/file" "$room/near/file" >"$room/out" 2>"$room/err"
status=$?
kill $fifth 2>/dev/null
[ $status -eq 0 ] && cmp "$room/far/file" "$room/near/file" && ! [ -s "$room/err" ]
tell 'a file down over TCP' $?
rm -f "$room/near/file"
timeout 60 "$program" "tcp:127.0.0.1:$port" get "$room/far/file" "$room/near/file" >"$room/out" 2>"$room/err"
status=$?
[ $status -eq 6 ] && [ "$(wc -l <"$room/err")" -eq 1 ] && [ -z "$(ls -A "$room/near")" ]
tell 'nobody at a TCP port' $?
socat "UNIX-LISTEN:$room/banner" "SYSTEM:echo SSH-2.0-OpenSSH_9.2; sleep 1" 2>/dev/null &
socat "TCP-LISTEN:$port,bind=127.0.0.1,reuseaddr" "UNIX-CONNECT:$room/banner,retry=20,interval=0.1" 2>/dev/null &
fifth=$!
sleep 0.5
timeout 60 "$program" "tcp:127.0.0.1:$port" list >"$room/out" 2>"$room/err"
status=$?
kill $fifth 2>/dev/null
[ $status -eq 1 ] && [ "$(sed -n 2p "$room/err")" = \
    'sftp_transfer: an ssh server is reached by ssh:PATH, the control socket of its connection' ]
tell 'an ssh server at a TCP port' $?

# ---- what is refused, with the cause and the file on one line

run socket get "$room/far/missing" "$room/near/file"
[ $status -eq 1 ] && grep -q "^sftp_transfer: $room/far/missing: " "$room/err" && [ "$(wc -l <"$room/err")" -eq 1 ] &&
    [ -z "$(ls -A "$room/near")" ]
tell 'a file that the server lacks' $?
run socket put "$room/near/missing" "$room/far/new"
[ $status -eq 3 ] && grep -q "^sftp_transfer: $room/near/missing: " "$room/err" && ! [ -e "$room/far/new" ]
tell 'a local file that is missing' $?
run socket get "$room/far/file" "$room/nowhere/file"
[ $status -eq 3 ] && [ "$(wc -l <"$room/err")" -eq 1 ]
tell 'a local folder that is missing' $?
run nobody get "$room/far/file" "$room/near/file"
[ $status -eq 6 ] && [ -z "$(ls -A "$room/near")" ]
tell 'no server' $?
run socket get "$room/far/file"
[ $status -eq 2 ] && grep -qxF "sftp_transfer: 'get' needs a source and a target (try --help)" "$room/err"
tell 'a word too few' $?

# ---- a server that ends in the middle: nothing new stands under a name

printf old >"$room/near/file"
run reads get "$room/far/other" "$room/near/file"
[ $status -eq 7 ] && [ "$(cat "$room/near/file")" = old ] &&
    [ "$(cat "$room/err")" = 'sftp_transfer: the session: the link ended while a reply was due' ]
tell 'a server that ends while a file comes down' $?
rm -f "$room"/near/.file.*.part
head -c 8000000 /dev/urandom >"$room/near/big"
printf old >"$room/far/big"
run writes put "$room/near/big" "$room/far/big"
[ $status -eq 7 ] && [ "$(cat "$room/far/big")" = old ] && [ "$(wc -l <"$room/err")" -eq 1 ]
tell 'a server that ends while a file goes up' $?
rm -f "$room"/far/.big.*.part
run socket put "$room/near/big" "$room/far/big"
[ $status -eq 0 ] && cmp "$room/near/big" "$room/far/big" && ! ls "$room"/far/.big* >"$room/out" 2>&1
tell 'the same file once more' $?

# ---- what goes on behind a part, and what is read back

# a file that begins with so many bytes that no file here has, and goes on as another one
mixed() {
    head -c "$2" /dev/zero >"$3" && tail -c +$(($2 + 1)) "$1" >>"$3"
}
# one line of standard error, which says that a file differs
differs() {
    [ "$(cat "$room/err")" = "sftp_transfer: $1: the bytes read back from the server differ" ]
}
head -c 100001 /dev/urandom >"$room/far/file"
cp "$room/far/file" "$room/near/other"
mixed "$room/far/file" 40000 "$room/mixed"
for way in down up; do
    case $way in
    down) set -- get "$room/far/file" "$room/near/got" "$room/near/.got.0123456789abcdef.part" ;;
    up) set -- put "$room/near/other" "$room/far/got" "$room/far/.got.fedcba9876543210.part" ;;
    esac
    head -c 40000 /dev/zero >"${4%/*}/.got.part"
    run socket $1 --resume "$2" "$3"
    [ $status -eq 0 ] && cmp "$room/mixed" "$3" && ! [ -e "${4%/*}/.got.part" ] && ! [ -s "$room/err" ]
    tell "a file $way goes on behind a part of an earlier version" $?
    head -c 30000 /dev/zero >"${4%/*}/.got.part"
    head -c 40000 /dev/zero >"$4"
    run socket $1 --resume "$2" "$3"
    [ $status -eq 0 ] && cmp "$room/mixed" "$3" && ! [ -e "$4" ] && ! [ -s "$room/err" ] && [ -e "${4%/*}/.got.part" ]
    tell "a file $way goes on behind its longest part" $?
    rm -f "${4%/*}/.got.part"
    head -c 40000 /dev/zero >"$4"
    run socket $1 --resume --verify "$2" "$3"
    [ $status -eq 1 ] && cmp "$room/mixed" "$3" && ! [ -e "$4" ] && differs "$2"
    tell "a file $way whose part had other bytes is read back" $?
    head -c 40000 "$room/far/file" >"$4"
    run socket $1 --resume --verify "$2" "$3"
    [ $status -eq 0 ] && cmp "$room/far/file" "$3" && ! [ -e "$4" ] && ! [ -s "$room/err" ]
    tell "a file $way whose part had its bytes is read back" $?
    head -c 100001 /dev/zero >"$4"
    run socket $1 --resume "$2" "$3"
    [ $status -eq 0 ] && cmp -n 100001 /dev/zero "$3" && ! [ -e "$4" ]
    tell "a file $way whose part is whole" $?
    head -c 100002 /dev/zero >"$4"
    run socket $1 --resume "$2" "$3"
    [ $status -eq 0 ] && cmp "$room/far/file" "$3" && [ -e "$4" ]
    tell "a file $way whose part is longer begins anew" $?
    rm -f "$4"
    mkdir "$4"
    run socket $1 --resume "$2" "$3"
    [ $status -eq 0 ] && cmp "$room/far/file" "$3" && [ -d "$4" ]
    tell "a folder with the name of a part is passed over, $way" $?
    rmdir "$4"
    head -c 40000 /dev/zero >"$4"
    run socket $1 --verify "$2" "$3"
    [ $status -eq 0 ] && cmp "$room/far/file" "$3" && [ -e "$4" ] && ! [ -s "$room/err" ]
    tell "without --resume a file $way begins anew" $?
    rm -f "$4"
done
mkdir "$room/aside"
head -c 40000 /dev/zero >"$room/aside/file"
for place in near far; do
    case $place in near) set -- get "$room/far/file" ;; far) set -- put "$room/near/other" ;; esac
    ln -s "$room/aside/file" "$room/$place/.got.0123456789abcdef.part"
    run socket $1 --resume "$2" "$room/$place/got"
    [ $status -eq 0 ] && cmp "$room/far/file" "$room/$place/got" && cmp -n 40000 /dev/zero "$room/aside/file" &&
        [ "$(wc -c <"$room/aside/file")" -eq 40000 ]
    tell "a link in the place of a part is not gone on behind, $1" $?
    rm -f "$room/$place/.got.0123456789abcdef.part"
done
# the sizes of the parts of a name in a directory
parts() {
    find "$1" -maxdepth 1 -type f -name ".$2.????????????????.part" -printf '%s\n'
}
run reads get --resume "$room/far/other" "$room/near/got"
[ $status -eq 7 ] && [ "$(parts "$room/near" got)" -gt 0 ]
tell 'a server that ends, once more' $?
run socket get --resume --verify "$room/far/other" "$room/near/got"
[ $status -eq 0 ] && cmp "$room/far/other" "$room/near/got" && [ -z "$(parts "$room/near" got)" ]
tell 'a file that was cut off goes on' $?
run writes put "$room/near/big" "$room/far/got"
[ $status -eq 7 ] && [ "$(parts "$room/far" got)" -gt 0 ]
tell 'a server that ends while a file goes up, once more' $?
run socket put --resume --verify "$room/near/big" "$room/far/got"
[ $status -eq 0 ] && cmp "$room/near/big" "$room/far/got" && [ -z "$(parts "$room/far" got)" ]
tell 'a file that was cut off on its way up goes on' $?
rm -f "$room/near/got" "$room/far/got" "$room/near/other"

# ---- trees

# a tree of files of 0 to 300000 bytes, with empty folders, symbolic links, and names of all kinds
plant() {
    mkdir -p "$1/empty" "$1/with space/deeper/still" "$1/$(printf 'b\303\274cher')" "$1/-r"
    n=0
    while [ $n -lt 50 ]; do
        head -c $((n * n * 120)) /dev/urandom >"$1/with space/file $n"
        n=$((n + 1))
    done
    head -c 100001 /dev/urandom >"$1/with space/deeper/still/.hidden"
    head -c 32769 /dev/urandom >"$1/$(printf 'b\303\274cher/\342\202\254')"
    printf 'x' >"$1/-r/--"
    printf 'x' >"$1/$(printf 'a\tb')"
    ln -s 'with space/file 1' "$1/link"
    ln -s ../nowhere "$1/with space/broken"
    ln -s "with space" "$1/folder link"
}


# the permissions and times of all files and folders of a tree
stats() {
    (cd "$1" && find . ! -type l -printf '%m %T@ %p\n' | sed 's/\.[0-9]* / /' | sort -k3)
}

plant "$room/far/tree"
run socket get -r "$room/far/tree" "$room/near/tree"
[ $status -eq 0 ] && same "$room/far/tree" "$room/near/tree" && [ "$(cat "$room/err")" = "54 files, 4983772 bytes" ]
tell 'a tree down' $?
run socket get -r -q "$room/far/tree" "$room/near/tree"
[ $status -eq 0 ] && same "$room/far/tree" "$room/near/tree/tree" && ! [ -s "$room/err" ]
tell 'a tree down into a folder that is there' $?
rm -rf "$room/near/tree/tree"
run socket get -r -q "$room/far/tree/." "$room/near/tree/"
[ $status -eq 0 ] && same "$room/far/tree" "$room/near/tree"
tell 'what stands in a folder, once more over what is there' $?
run socket put -r "$room/near/tree" "$room/far/up"
[ $status -eq 0 ] && same "$room/near/tree" "$room/far/up" && [ "$(cat "$room/err")" = "54 files, 4983772 bytes" ]
tell 'a tree up' $?
run socket get -r -q --resume --verify "$room/far/tree/." "$room/near/tree"
[ $status -eq 0 ] && same "$room/far/tree" "$room/near/tree" && ! [ -s "$room/err" ]
tell 'a tree down, which is read back' $?
run socket put -r -q --resume --verify "$room/near/tree/." "$room/far/up"
[ $status -eq 0 ] && same "$room/near/tree" "$room/far/up" && ! [ -s "$room/err" ]
tell 'a tree up, which is read back' $?
run socket put -r -q --window 3 "$room/near/tree" "$room/far/up"
[ $status -eq 0 ] && same "$room/near/tree" "$room/far/up/tree" && ! [ -s "$room/err" ]
tell 'a tree up into a folder that is there' $?
run socket put -q "$room/near/tree/with space/file 1" "$room/near/tree/with space/file 2" "$room/far/some"
[ $status -eq 0 ] && [ "$(ls -A "$room/far/some" | tr '\n' ' ')" = 'file 1 file 2 ' ]
tell 'several files up, into a folder that is made' $?
run socket get -q "$room/far/some/file 1" "$room/far/missing" "$room/far/some/file 2" "$room/near/some"
[ $status -eq 1 ] && same "$room/far/some" "$room/near/some" && [ "$(wc -l <"$room/err")" -eq 1 ]
tell 'several files down, one of which is missing' $?
run socket get "$room/far/tree" "$room/near/other"
[ $status -eq 1 ] && ! [ -e "$room/near/other" ] && grep -q -e '-r' "$room/err"
tell 'a folder without -r' $?
run socket get -q -- "$room/far/tree/-r/--" "$room/near/hyphens"
[ $status -eq 0 ] && [ "$(cat "$room/near/hyphens")" = x ]
tell 'a name behind --' $?

# ---- many files at once

mkdir "$room/far/many" "$room/far/many/sub"
n=0
while [ $n -lt 1000 ]; do
    head -c $((n * 10)) /dev/urandom >"$room/far/many/file $n"
    n=$((n + 1))
done
printf x >"$room/far/many/sub/x"
run socket get -r "$room/far/many" "$room/near/many"
[ $status -eq 0 ] && same "$room/far/many" "$room/near/many" && [ "$(cat "$room/err")" = "1001 files, 4995001 bytes" ]
tell '1,000 files down' $?
run socket put -r "$room/near/many" "$room/far/back"
[ $status -eq 0 ] && same "$room/near/many" "$room/far/back" && [ "$(cat "$room/err")" = "1001 files, 4995001 bytes" ]
tell '1,000 files up' $?
run socket put -r -q --files 1 --window 1 --limit 1 "$room/near/many" "$room/far/one"
[ $status -eq 0 ] && same "$room/near/many" "$room/far/one" && ! [ -s "$room/err" ]
tell '1,000 files up, one after another' $?
rm -rf "$room/far/back" "$room/far/one" "$room/near/many"
mkdir -p "$room/near/many/file 500/x" "$room/far/back/file 500/x"
run socket get -r -q "$room/far/many/." "$room/near/many"
[ $status -eq 1 ] && [ "$(wc -l <"$room/err")" -eq 1 ] && grep -q "^sftp_transfer: $room/far/many/\./file 500: " "$room/err" &&
    [ "$(diff -r "$room/far/many" "$room/near/many" | wc -l)" -eq 1 ] && [ -d "$room/near/many/file 500" ]
tell 'one of many files down is refused' $?
rm -rf "$room/near/many/file 500"
run socket get -r -q "$room/far/many/." "$room/near/many"
[ $status -eq 0 ] && same "$room/far/many" "$room/near/many"
tell 'and then it is not' $?
run socket put -r -q "$room/near/many/." "$room/far/back"
[ $status -eq 1 ] && [ "$(wc -l <"$room/err")" -eq 1 ] && grep -q "^sftp_transfer: $room/far/back/file 500: " "$room/err" &&
    [ "$(diff -r "$room/near/many" "$room/far/back" | wc -l)" -eq 1 ] && [ -d "$room/far/back/file 500" ]
tell 'one of many files up is refused' $?

# a server that ends in the middle: what has a name has all its bytes, and the session is told once
rm -rf "$room/near/many" "$room/far/back"
run ends get -r -q "$room/far/many" "$room/near/many"
[ $status -eq 7 ] && whole "$room/near/many" "$room/far/many" && [ "$(ls "$room/near/many" | wc -l)" -lt 1000 ] &&
    [ "$(head -n 1 "$room/err")" = 'sftp_transfer: the session: the link ended while a reply was due' ] &&
    [ "$(wc -l <"$room/err")" -eq 2 ] && grep -q "$rest" "$room/err"
tell 'a server that ends while many files come down' $?
run socket get -r -q "$room/far/many/." "$room/near/many"
[ $status -eq 0 ] && same "$room/far/many" "$room/near/many"
tell 'and once more' $?
run ends put -r -q "$room/near/many" "$room/far/back"
[ $status -eq 7 ] && whole "$room/far/back" "$room/far/many" && grep -q '^sftp_transfer: the session: ' "$room/err"
tell 'a server that ends while many files go up' $?

# ---- permissions and times

chmod 640 "$room/far/tree/with space/file 1"
chmod 700 "$room/far/tree/empty"
find "$room/far/tree" ! -type l -exec touch -d '2001-02-03 04:05:06' {} +
run socket get -r -p -q "$room/far/tree" "$room/near/kept"
stats "$room/far/tree" >"$room/want" && stats "$room/near/kept" >"$room/out"
[ $status -eq 0 ] && cmp "$room/want" "$room/out" && same "$room/far/tree" "$room/near/kept"
tell 'permissions and times down' $?
run socket put -r -p -q "$room/near/kept" "$room/far/kept"
stats "$room/far/kept" >"$room/out"
[ $status -eq 0 ] && cmp "$room/want" "$room/out" && same "$room/far/tree" "$room/far/kept"
tell 'permissions and times up' $?

touch -d '2011-12-13 14:15:16' "$room/near/kept/-r/--" && chmod 604 "$room/near/kept/-r/--"
run socket put -p --verify -- "$room/near/kept/-r/--" "$room/far/kept/-r"
[ $status -eq 0 ] && [ "$(stat -c '%a %Y' "$room/far/kept/-r/--")" = "$(stat -c '%a %Y' "$room/near/kept/-r/--")" ] &&
    [ "$(stat -c %a "$room/far/kept/-r/--")" = 604 ]
tell 'permissions and times of one file up' $?

# without -p a file has the permissions of its source, as far as the umask permits them, and so has its part
umask 022
mkdir "$room/far/modes" "$room/near/modes"
for mode in 600 640 755 777; do
    for place in far near; do
        echo "$mode" >"$room/$place/modes/$mode"
        chmod "$mode" "$room/$place/modes/$mode"
    done
done
run socket get -r -q "$room/far/modes" "$room/near/came"
[ $status -eq 0 ] && [ "$(cd "$room/near/came" && stat -c '%a %n' *)" = "$(printf '600 600\n640 640\n755 755\n755 777')" ]
tell 'permissions without -p, down' $?
run socket put -r -q "$room/near/modes" "$room/far/came"
[ $status -eq 0 ] && [ "$(cd "$room/far/came" && stat -c '%a %n' *)" = "$(printf '600 600\n640 640\n755 755\n755 777')" ]
tell 'permissions without -p, up' $?
for way in get put; do
    case $way in get) there=far && here=near ;; put) there=near && here=far ;; esac
    head -c 8000000 /dev/urandom >"$room/$there/secret"
    chmod 600 "$room/$there/secret"
    case $way in get) cut=reads ;; put) cut=writes ;; esac
    run $cut $way -p --resume "$room/$there/secret" "$room/$here/secret"
    [ $status -eq 7 ] && [ "$(stat -c %a "$room/$here"/.secret.*.part)" = 600 ]
    tell "permissions of a part, $way" $?
    rm -f "$room/$here"/.secret.*.part "$room/$there/secret"
done
for mode in 700 750 755 777; do
    mkdir -m "$mode" "$room/far/modes/d$mode" "$room/near/modes/d$mode"
done
run socket get -r -q "$room/far/modes" "$room/near/folders"
[ $status -eq 0 ] &&
    [ "$(cd "$room/near/folders" && stat -c '%a %n' d*)" = "$(printf '700 d700\n750 d750\n755 d755\n755 d777')" ]
tell 'permissions of directories without -p, down' $?
run socket put -r -q "$room/near/modes" "$room/far/folders"
[ $status -eq 0 ] &&
    [ "$(cd "$room/far/folders" && stat -c '%a %n' d*)" = "$(printf '700 d700\n750 d750\n755 d755\n755 d777')" ]
tell 'permissions of directories without -p, up' $?

# ---- what is listed

run socket list "$room/far/tree/with space/deeper"
[ $status -eq 0 ] && [ "$(cat "$room/out")" = still ] && ! [ -s "$room/err" ]
tell 'the names of a folder' $?
run socket list -l "$room/far/tree/-r"
[ $status -eq 0 ] && [ "$(cat "$room/out")" = '-            1 --' ]
tell 'types and sizes of a folder' $?
run socket list "$room/far/missing"
[ $status -eq 1 ] && ! [ -s "$room/out" ] && [ "$(wc -l <"$room/err")" -eq 1 ]
tell 'a folder that the server lacks' $?

echo "transfer over OpenSSH's server: $passed passed, $failed failed"
[ "$failed" -eq 0 ]
