#!/bin/sh
# Runs the examples over OpenSSH's SFTP server: files of several sizes are put, got and compared, a directory is listed,
# the sizes of two and of two hundred files are printed, a tree is listed, reported on and removed, directories are
# created, and paths that don't exist are refused. It installs nothing: if the server or socat is missing, it says which,
# and passes. Another program than the one that `rt ci` built may be given as an argument.
set -u
cd "$(dirname "$0")/.." || exit 1

program=${1:-$PWD/crates/example_client/out/example_client}
server=/usr/lib/openssh/sftp-server

missing=
[ -x "$server" ] || missing="$missing openssh-sftp-server ($server)"
command -v socat >/dev/null || missing="$missing socat"
if [ -n "$missing" ]; then
    echo "examples: skipped, missing:$missing"
    exit 0
fi
if ! [ -x "$program" ]; then
    echo "examples: $program is missing: run 'rt ci' first, or 'rt run' in crates/example_client"
    exit 1
fi

room=$(mktemp -d) || exit 1
mkdir "$room/home"
(cd "$room/home" && exec socat "UNIX-LISTEN:$room/socket,fork" "EXEC:$server" 2>/dev/null) &
listener=$!
trap 'kill $listener 2>/dev/null; rm -rf "$room"' EXIT
tries=0
while ! [ -S "$room/socket" ] && [ $tries -lt 100 ]; do
    sleep 0.1
    tries=$((tries + 1))
done
failed=0

# says what failed
fail() {
    echo "examples: $1"
    failed=$((failed + 1))
}

mkdir "$room/files"
for size in 0 1 32768 32769 1000000; do
    head -c $size /dev/urandom >"$room/from"
    timeout 60 "$program" put "$room/socket" "$room/files/$size" <"$room/from" || fail "put of $size bytes"
    cmp -s "$room/from" "$room/files/$size" || fail "what was put of $size bytes differs"
    timeout 60 "$program" get "$room/socket" "$room/files/$size" >"$room/to" || fail "get of $size bytes"
    cmp -s "$room/from" "$room/to" || fail "what was got of $size bytes differs"
done

timeout 60 "$program" list "$room/socket" "$room/files" | sort >"$room/names" || fail "list"
printf '%s\n' . .. 0 1 1000000 32768 32769 | sort | cmp -s - "$room/names" || fail "the names that were listed differ"

printf '32769\n1000000\n' >"$room/wanted"
timeout 60 "$program" sizes "$room/socket" "$room/files/32769" "$room/files/1000000" >"$room/to" || fail "sizes"
cmp -s "$room/wanted" "$room/to" || fail "the sizes that were printed differ"

# as many as three times what may be under way at once, of 0 to 199 bytes
mkdir "$room/many"
wanted=
set --
size=0
while [ $size -lt 200 ]; do
    head -c $size /dev/zero >"$room/many/$size"
    set -- "$@" "$room/many/$size"
    wanted="$wanted$size\n"
    size=$((size + 1))
done
printf "$wanted" >"$room/wanted"
timeout 60 "$program" sizes "$room/socket" "$@" >"$room/to" || fail "sizes of many"
cmp -s "$room/wanted" "$room/to" || fail "the sizes of many files differ"
if timeout 60 "$program" sizes "$room/socket" "$room/many/1" "$room/none" "$room/many/2" >"$room/to" 2>"$room/why"; then
    fail "the size of a file that isn't there was printed"
fi
[ -s "$room/to" ] && fail "sizes were printed after a refusal"

# a directory before those in it; the link to the directory above isn't followed
mkdir -p "$room/tree/a/b/c" "$room/tree/d"
touch "$room/tree/x" "$room/tree/a/y" "$room/tree/a/b/c/z"
ln -s .. "$room/tree/a/up"
timeout 60 "$program" tree "$room/socket" "$room/tree" >"$room/found" || fail "tree"
awk -v root="$room/tree" '
    { dir = $0; sub("/[^/]*$", "", dir); if (dir != root && !(dir in seen)) exit 1; seen[$0] = 1 }
' "$room/found" || fail "an entry came before its directory"
sort "$room/found" >"$room/to"
for path in a a/b a/b/c a/b/c/z a/up a/y d x; do echo "$room/tree/$path"; done | sort >"$room/wanted"
cmp -s "$room/wanted" "$room/to" || fail "the tree that was listed differs"
if timeout 60 "$program" tree "$room/socket" "$room/none" >"$room/to" 2>"$room/why"; then
    fail "a tree that isn't there was listed"
fi
[ -s "$room/to" ] && fail "something was printed of a tree that isn't there"

# a directory and those on the way to it; the same where they exist; and a file in the way, whose refusal is printed
timeout 60 "$program" mkdir "$room/socket" "$room/made/on//the/way/" || fail "mkdir"
[ -d "$room/made/on/the/way" ] || fail "a directory was not created with those on the way to it"
timeout 60 "$program" mkdir "$room/socket" "$room/made/on" || fail "mkdir of a directory that exists"
if timeout 60 "$program" mkdir "$room/socket" "$room/tree/x/below" 2>"$room/why"; then
    fail "a directory was created below a file"
fi
grep -q 'the server refused the request: failure (status 4)$' "$room/why" \
    || fail "the reason of a file in the way was not printed"

# a report of the ten largest of 13 files in three directories, against what find and wc say; a link is no file
mkdir -p "$room/big/a/b" "$room/big/c"
for size in 0 7 300 4096 32768 32769 65536 70000 100000 131073 262144 300000 1000001; do
    case $((size % 3)) in 0) dir=big ;; 1) dir=big/a/b ;; *) dir=big/c ;; esac
    head -c $size /dev/urandom >"$room/$dir/$size"
done
ln -s "$room/big/a" "$room/big/link"
timeout 60 "$program" report "$room/socket" "$room/big" "$room/report" || fail "report"
find "$room/big" -type f -printf '%s %p\n' | sort -rn | head -n 10 | while read -r size path; do
    echo "$size $(wc -c <"$path") $path"
done | sort >"$room/wanted"
sort "$room/report" | cmp -s - "$room/wanted" || fail "the report differs"
# an empty tree has an empty report; without the directory there is none
mkdir "$room/empty"
timeout 60 "$program" report "$room/socket" "$room/empty" "$room/report" || fail "report of an empty directory"
[ -s "$room/report" ] && fail "the report of an empty directory is not empty"
if timeout 60 "$program" report "$room/socket" "$room/none" "$room/no-report" 2>"$room/why"; then
    fail "a directory that doesn't exist was reported on"
fi
[ -e "$room/no-report" ] && fail "a report of a directory that doesn't exist was written"

# a tree is removed, and what its links name stays; so does the target of a link that is removed itself
mkdir "$room/outside"
echo kept >"$room/outside/kept"
ln -s "$room/outside" "$room/big/a/b/out"
ln -s "$room/outside" "$room/way"
timeout 60 "$program" remove "$room/socket" "$room/big" || fail "remove"
[ -e "$room/big" ] && fail "a tree was not removed"
timeout 60 "$program" remove "$room/socket" "$room/way" || fail "remove of a link"
[ -L "$room/way" ] && fail "a link was not removed"
[ -s "$room/outside/kept" ] || fail "a link was followed as a tree was removed"
if timeout 60 "$program" remove "$room/socket" "$room/none" 2>"$room/why"; then
    fail "a directory that doesn't exist was removed"
fi
grep -q 'the server refused the request: no such file (status 2)$' "$room/why" \
    || fail "the reason of a directory that doesn't exist was not printed"
if timeout 60 "$program" remove "$room/socket" "$room/outside/kept" 2>"$room/why"; then
    fail "a file was removed as a directory"
fi
[ -s "$room/outside/kept" ] || fail "a file was removed as a directory"

if timeout 60 "$program" get "$room/socket" "$room/none" >"$room/to" 2>"$room/why"; then
    fail "a file that isn't there was got"
fi
grep -q 'the server refused the request: no such file (status 2)$' "$room/why" || fail "the server's reason was not printed"
[ -s "$room/to" ] && fail "something was printed of a file that isn't there"

# the first program, in the directory in which the server began
timeout 60 "$program" first "$room/socket" | sort >"$room/to" || fail "first"
printf '%s\n' . .. 'buy milk' notes.txt | sort >"$room/wanted"
cmp -s "$room/wanted" "$room/to" || fail "the first program printed something else"

[ $failed -eq 0 ] && echo "examples: ok"
[ $failed -eq 0 ]
