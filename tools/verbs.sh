#!/bin/sh
# Runs the commands of sftp_transfer that change entries of the server (remove, mkdir, chmod, move, link) over OpenSSH's SFTP
# server. It installs nothing: if the server or socat is missing it says which, and passes. Another program than the one that
# `rt ci` built may be given as an argument.
name=verbs
. "$(dirname "$0")/transfer_common.sh"

run socket mkdir "$room/far/a" "$room/far/b"
[ $status -eq 0 ] && [ -d "$room/far/a" ] && [ -d "$room/far/b" ] && ! [ -s "$room/out" ] && ! [ -s "$room/err" ]
tell 'two directories' $?
run socket mkdir "$room/far/a" "$room/far/c"
[ $status -eq 1 ] && [ -d "$room/far/c" ] && grep -q "^sftp_transfer: $room/far/a: " "$room/err"
tell 'a directory that exists' $?
run socket mkdir -p "$room/far/a" "$room/far/x/y//z/"
[ $status -eq 0 ] && [ -d "$room/far/x/y/z" ] && ! [ -s "$room/err" ]
tell 'directories above' $?
echo text >"$room/far/file"
run socket mkdir -p "$room/far/file/below" "$room/far/file"
[ $status -eq 1 ] && [ -f "$room/far/file" ] && [ "$(wc -l <"$room/err")" -eq 2 ]
tell 'a file in the way' $?

run socket chmod 640 "$room/far/file" "$room/far/missing" "$room/far/a"
[ $status -eq 1 ] && [ "$(stat -c %a "$room/far/file" "$room/far/a" | tr '\n' ' ')" = '640 640 ' ] &&
    [ "$(wc -l <"$room/err")" -eq 1 ] && grep -q "$room/far/missing: " "$room/err"
tell 'permissions' $?
run socket chmod 1755 "$room/far/a"
[ $status -eq 0 ] && [ "$(stat -c %a "$room/far/a")" = 1755 ]
tell 'permissions of four digits' $?

run socket move "$room/far/file" "$room/far/moved"
[ $status -eq 0 ] && ! [ -e "$room/far/file" ] && [ "$(cat "$room/far/moved")" = text ]
tell 'a file that is renamed' $?
echo new >"$room/far/file"
run socket move "$room/far/file" "$room/far/moved"
[ $status -eq 0 ] && ! [ -e "$room/far/file" ] && [ "$(cat "$room/far/moved")" = new ]
tell 'a rename that replaces a file' $?
run socket move "$room/far/missing" "$room/far/moved"
[ $status -eq 1 ] && [ "$(cat "$room/far/moved")" = new ] && grep -q "$room/far/missing: " "$room/err"
tell 'a rename of nothing' $?

run socket link moved "$room/far/current"
[ $status -eq 0 ] && [ "$(readlink "$room/far/current")" = moved ]
tell 'a symbolic link' $?
run socket link other "$room/far/current"
[ $status -eq 1 ] && [ "$(readlink "$room/far/current")" = moved ]
tell 'a symbolic link that exists' $?

run socket link other "$room/far/next"
run socket move "$room/far/next" "$room/far/current"
[ $status -eq 0 ] && [ "$(readlink "$room/far/current")" = other ] && ! [ -L "$room/far/next" ]
tell 'a symbolic link that replaces another one' $?

mkdir "$room/outside" && echo safe >"$room/outside/kept"
ln -s "$room/outside" "$room/far/out"
run socket remove "$room/far/out" "$room/far/moved" "$room/far/missing"
[ $status -eq 1 ] && ! [ -L "$room/far/out" ] && ! [ -e "$room/far/moved" ] && [ -f "$room/outside/kept" ] &&
    [ "$(wc -l <"$room/err")" -eq 1 ]
tell 'a link, a file and nothing' $?
run socket remove "$room/far/x"
[ $status -eq 1 ] && [ -d "$room/far/x/y/z" ] && grep -q 'is a directory (use -r to remove it)' "$room/err"
tell 'a directory without -r' $?
ln -s "$room/outside" "$room/far/x/y/out"
for n in $(seq 300); do
    echo "$n" >"$room/far/x/y/$n"
done
mkfifo "$room/far/x/y/z/pipe"
run socket remove -r "$room/far/x"
[ $status -eq 0 ] && ! [ -e "$room/far/x" ] && [ -f "$room/outside/kept" ] && ! [ -s "$room/err" ]
tell 'a tree' $?
for path in "$room/far/." "$room/far/a/.." / .; do
    run socket remove -r "$path"
    [ $status -eq 1 ] && [ -d "$room/far/a" ] && grep -q 'not removed' "$room/err"
    tell "a path without a name, $path" $?
done
run ends remove -r "$room/far/a" "$room/far/b" "$room/far/c"
[ $status -eq 0 ] && ! [ -e "$room/far/c" ]
tell 'three directories' $?
run silent remove "$room/far/missing" --timeout 1
[ $status -eq 7 ]
tell 'a silent server' $?

echo "$name: $passed passed, $failed failed"
[ $failed -eq 0 ]
