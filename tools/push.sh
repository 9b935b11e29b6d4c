#!/bin/sh
# Runs `sftp_transfer push` and `pull` over OpenSSH's SFTP server: what the plan says and what the run does, what is left out,
# removed, kept and refused, second runs, killed runs, and trees that change at random (tools/trees.py), compared with the
# source and, if rsync is installed, with what rsync makes of it. It installs nothing: if the server or socat is missing it
# says which, and passes. Another program than the one that `rt ci` built may be given as an argument.
name=push
. "$(dirname "$0")/transfer_common.sh"

# Makes one tree like another: from a directory of this side to one of the other, up or down.
mirror() {
    way=$1
    shift
    run socket "$way" "$@"
}

# Whether standard output has exactly these lines.
shows() {
    printf '%s\n' "$@" >"$room/want"
    cmp -s "$room/want" "$room/out"
}

# Whether two trees have the same entries and bytes, and their files the same seconds of change.
equal() {
    same "$1" "$2" && seconds "$1" >"$room/one" && seconds "$2" >"$room/two" && cmp -s "$room/one" "$room/two"
}
seconds() {
    find "$1" -type f -printf '%P %Ts\n' | sort
}

for way in push pull; do
    case $way in
    push) from=$room/near to=$room/far ;;
    pull) from=$room/far to=$room/near ;;
    esac
    rm -rf "$from/s" "$to/t"
    mkdir -p "$from/s/docs/deep" "$from/s/empty"
    echo one >"$from/s/docs/a"
    head -c 300001 /dev/urandom >"$from/s/docs/deep/big"
    : >"$from/s/docs/none"
    ln -s docs/a "$from/s/current"
    ln -s ../a "$from/s/docs/deep/up"
    touch -d '2001-02-03 04:05:06' "$from/s/docs/a" "$from/s/docs/deep/big"

    run socket $way -n "$from/s" "$to/t"
    [ $status -eq 0 ] && ! [ -e "$to/t" ] && sort "$room/out" >"$room/sorted" && mv "$room/sorted" "$room/out" &&
        shows 'copy docs/a' 'copy docs/deep/big' 'copy docs/none' 'link current -> docs/a' 'link docs/deep/up -> ../a' \
            'make ./' 'make docs/' 'make docs/deep/' 'make empty/'
    tell "$way: the plan of a first run" $?
    run socket $way "$from/s" "$to/t"
    [ $status -eq 0 ] && equal "$from/s" "$to/t" && grep -q '^3 files, 300005 bytes$' "$room/err"
    tell "$way: a first run" $?
    run socket $way -n --delete "$from/s" "$to/t"
    [ $status -eq 0 ] && ! [ -s "$room/out" ] && ! [ -s "$room/err" ]
    tell "$way: nothing is planned a second time" $?
    run socket $way --delete "$from/s/" "$to/t/"
    [ $status -eq 0 ] && equal "$from/s" "$to/t" && grep -q '^0 files, 0 bytes$' "$room/err"
    tell "$way: a second run" $?

    # what counts as changed
    echo two >"$to/t/docs/a"
    touch -d '2001-02-03 04:05:06' "$to/t/docs/a"
    run socket $way -n "$from/s" "$to/t"
    [ $status -eq 0 ] && ! [ -s "$room/out" ]
    tell "$way: the same size and second" $?
    run socket $way -n --always "$from/s" "$to/t"
    [ $status -eq 0 ] && [ "$(grep -c '^copy ' "$room/out")" -eq 3 ]
    tell "$way: always" $?
    touch -d '2001-02-03 04:05:07' "$to/t/docs/a"
    run socket $way -n "$from/s" "$to/t"
    shows 'copy docs/a'
    tell "$way: another second" $?
    run socket $way -n --size-only "$from/s" "$to/t"
    [ $status -eq 0 ] && ! [ -s "$room/out" ]
    tell "$way: sizes alone" $?
    run socket $way -n --update "$from/s" "$to/t"
    [ $status -eq 0 ] && ! [ -s "$room/out" ]
    tell "$way: no file over a newer one" $?
    echo longer >"$to/t/docs/a"
    touch -d '2000-02-03 04:05:06' "$to/t/docs/a"
    run socket $way --update --verify "$from/s" "$to/t"
    [ $status -eq 0 ] && equal "$from/s" "$to/t"
    tell "$way: an older file" $?

    # links that changed, and links that are no links there
    ln -sfn docs "$from/s/current"
    run socket $way "$from/s" "$to/t"
    [ $status -eq 0 ] && [ "$(readlink "$to/t/current")" = docs ] && equal "$from/s" "$to/t"
    tell "$way: a link that changed" $?

    # what only the target has
    mkdir -p "$to/t/old/deep" "$to/t/docs/more"
    echo x >"$to/t/old/deep/x"
    echo y >"$to/t/docs/more/y"
    run socket $way "$from/s" "$to/t"
    [ $status -eq 0 ] && [ -f "$to/t/old/deep/x" ] && [ -f "$to/t/docs/more/y" ]
    tell "$way: without --delete all stays" $?
    run socket $way --delete --delete-at-most 4 "$from/s" "$to/t"
    [ $status -eq 1 ] && [ -f "$to/t/old/deep/x" ] && [ -f "$to/t/docs/more/y" ] &&
        grep -q 'nothing was done: 5 entries would be removed, and --delete-at-most is 4' "$room/err"
    tell "$way: too many removals" $?
    run socket $way --delete -n --exclude /old "$from/s" "$to/t"
    [ $status -eq 0 ] && shows 'remove docs/more/y' 'remove docs/more/'
    tell "$way: the plan of removals" $?
    run socket $way --delete --exclude y "$from/s" "$to/t"
    [ $status -eq 0 ] && ! [ -e "$to/t/old" ] && [ -f "$to/t/docs/more/y" ] && grep -q ' 3 removed$' "$room/err"
    tell "$way: what is left out stays, with its directory" $?
    run socket $way --delete "$from/s" "$to/t"
    [ $status -eq 0 ] && equal "$from/s" "$to/t"
    tell "$way: what only the target has is removed" $?

    # another kind of entry
    rm -rf "$from/s/empty" "$from/s/docs/none" "$from/s/current"
    echo file >"$from/s/empty"
    mkdir "$from/s/docs/none"
    echo within >"$from/s/docs/none/within"
    echo current >"$from/s/current"
    run socket $way "$from/s" "$to/t"
    [ $status -eq 1 ] && [ -d "$to/t/empty" ] && [ -f "$to/t/docs/none" ] && [ -L "$to/t/current" ] &&
        [ "$(grep -c 'not copied: the target has something else there' "$room/err")" -eq 3 ]
    tell "$way: another kind of entry stays" $?
    run socket $way --delete "$from/s" "$to/t"
    [ $status -eq 0 ] && equal "$from/s" "$to/t"
    tell "$way: another kind of entry is replaced" $?

    # shares of the files: each file is in one of them, and a run of a share leaves the others as they are
    rm -rf "$to/shares"
    for share in 1 2 3; do
        run socket $way --shard $share/3 "$from/s" "$to/shares"
        [ $status -eq 0 ] || break
        (cd "$to/shares" && find . -type f -o -type l) >"$room/share.$share"
    done
    [ $status -eq 0 ] && equal "$from/s" "$to/shares" && [ "$(wc -l <"$room/share.1")" -lt "$(wc -l <"$room/share.3")" ]
    tell "$way: three shares are the whole" $?
    rm -rf "$to/shares"
    run socket $way --shard 2/3 "$from/s" "$to/shares"
    (cd "$from/s" && find . -type f -o -type l) | python3 -c "
import hashlib, sys
for line in sys.stdin:
    path = line.strip()[2:]
    if int.from_bytes(hashlib.sha256(path.encode()).digest()[:4], 'big') % 3 == 1:
        print('./' + path)" | sort >"$room/want"
    (cd "$to/shares" && find . -type f -o -type l) | sort | cmp -s - "$room/want"
    tell "$way: the files of a share" $?
    run socket $way --delete --shard 2/3 "$from/s" "$to/shares"
    [ $status -eq 2 ] && grep -q "'--delete' can't be used with '--shard'" "$room/err"
    tell "$way: a share removes nothing" $?

    # a rate: 300,000 bytes at 200,000 a second
    rm -rf "$to/slow"
    began=$(date +%s%N)
    run socket $way --rate 200000 "$from/s" "$to/slow"
    took=$((($(date +%s%N) - began) / 1000000))
    [ $status -eq 0 ] && equal "$from/s" "$to/slow" && [ $took -ge 1300 ]
    tell "$way: a rate ($took ms)" $?

    # patterns
    mkdir -p "$from/s/.git/objects" "$from/s/docs/.git"
    echo x >"$from/s/.git/objects/x"
    echo x >"$from/s/docs/.git/x"
    echo x >"$from/s/docs/x.tmp"
    echo x >"$from/s/docs/keep.tmp"
    printf '# what is not published\n\n+ keep.tmp\n- *.tmp\n.git/\n' >"$room/patterns"
    run socket $way --delete --exclude-from "$room/patterns" "$from/s" "$to/t"
    [ $status -eq 0 ] && ! [ -e "$to/t/.git" ] && ! [ -e "$to/t/docs/.git" ] && ! [ -e "$to/t/docs/x.tmp" ] &&
        [ -f "$to/t/docs/keep.tmp" ]
    tell "$way: patterns of a file" $?
    run socket $way --exclude-from "$room/missing" "$from/s" "$to/t"
    [ $status -eq 3 ] && grep -q "$room/missing: " "$room/err"
    tell "$way: a missing file of patterns" $?
    run socket $way --exclude '[a]' "$from/s" "$to/t"
    [ $status -eq 2 ]
    tell "$way: a pattern that is not understood" $?
    rm -rf "$from/s/.git" "$from/s/docs/.git" "$from/s/docs/x.tmp" "$from/s/docs/keep.tmp"

    # parts of earlier runs
    head -c 200000 "$from/s/docs/deep/big" >"$to/t/docs/deep/.big.0123456789abcdef.part"
    echo x >"$to/t/docs/.gone.0123456789abcdef.part"
    rm "$to/t/docs/deep/big"
    run socket $way --delete --resume "$from/s" "$to/t"
    [ $status -eq 0 ] && cmp -s "$from/s/docs/deep/big" "$to/t/docs/deep/big" && grep -q '^1 files, 100001 bytes' "$room/err" &&
        [ -e "$to/t/docs/.gone.0123456789abcdef.part" ]
    tell "$way: a part is continued, and others stay" $?
    run socket $way --delete "$from/s" "$to/t"
    [ $status -eq 0 ] && equal "$from/s" "$to/t"
    tell "$way: without --resume parts are removed" $?

    # permissions
    chmod 700 "$from/s/docs"
    chmod 640 "$from/s/docs/a"
    run socket $way -p "$from/s" "$to/t"
    [ $status -eq 0 ] && [ "$(stat -c %a "$to/t/docs" "$to/t/docs/a" | tr '\n' ' ')" = '700 640 ' ]
    tell "$way: permissions of what did not change" $?
    run socket $way -p -n "$from/s" "$to/t"
    [ $status -eq 0 ] && ! [ -s "$room/out" ]
    tell "$way: the same permissions" $?

    # an entry that is passed over stays in the target
    mkfifo "$from/s/docs/pipe"
    echo kept >"$to/t/docs/pipe"
    run socket $way --delete "$from/s" "$to/t"
    [ $status -eq 1 ] && [ "$(cat "$to/t/docs/pipe")" = kept ] && grep -q 'docs/pipe: skipped' "$room/err"
    tell "$way: an entry that is no file" $?
    rm "$from/s/docs/pipe" "$to/t/docs/pipe"

    # a source that is missing, and one that is no directory
    run socket $way --delete "$from/s/missing" "$to/t"
    [ $status -ne 0 ] && [ -f "$to/t/docs/a" ]
    tell "$way: a source that is missing" $?
    run socket $way --delete "$from/s/docs/a" "$to/t"
    [ $status -ne 0 ] && [ -f "$to/t/docs/a" ] && grep -q 'not a directory' "$room/err"
    tell "$way: a source that is no directory" $?
done

# ---- a source that can't be listed as a whole removes nothing

mkdir -p "$room/near/odd" "$room/far/odd"
touch "$room/near/odd/$(printf 'a\377')" "$room/far/odd/extra"
run socket push --delete "$room/near/odd" "$room/far/odd"
[ $status -eq 1 ] && [ -f "$room/far/odd/extra" ] && grep -q 'nothing is removed, since not everything was listed' "$room/err"
tell 'push: a name that is not UTF-8' $?

# ---- links that lead out

mkdir -p "$room/far/leads"
ln -s /etc/passwd "$room/far/leads/out"
echo old >"$room/near/kept"
mkdir -p "$room/near/leads" && mv "$room/near/kept" "$room/near/leads/out"
run socket pull --delete "$room/far/leads" "$room/near/leads"
[ $status -eq 1 ] && [ "$(cat "$room/near/leads/out")" = old ] && grep -q 'the link leads out of the tree' "$room/err"
tell 'pull: a link that leads out of the tree' $?
run socket pull --delete --links as-is "$room/far/leads" "$room/near/leads"
[ $status -eq 0 ] && [ "$(readlink "$room/near/leads/out")" = /etc/passwd ]
tell 'pull: links as they are' $?

# ---- a server that replaces nothing by a rename, and one that ends

socat "UNIX-LISTEN:$room/plain,fork" "EXEC:$server -P posix-rename" 2>/dev/null &
eighth=$!
trap 'kill $first $second $third $sixth $seventh $eighth 2>/dev/null; rm -rf "$room"' EXIT
tries=0
while ! [ -S "$room/plain" ] && [ $tries -lt 100 ]; do
    sleep 0.1
    tries=$((tries + 1))
done
rm -rf "$room/far/t" && mkdir "$room/far/t" && ln -s somewhere "$room/far/t/current" && echo old >"$room/far/t/empty"
run plain push --delete "$room/near/s" "$room/far/t"
[ $status -eq 0 ] && equal "$room/near/s" "$room/far/t"
tell 'push: a server without posix-rename' $?
ln -sfn elsewhere "$room/near/s/link" && ln -sfn nowhere "$room/far/t/link"
run plain push --delete "$room/near/s" "$room/far/t"
[ $status -eq 0 ] && [ "$(readlink "$room/far/t/link")" = elsewhere ] && equal "$room/near/s" "$room/far/t"
tell 'push: a link that changed, without posix-rename' $?
run ends push --always "$room/near/s" "$room/far/t"
[ $status -eq 7 ] && [ "$(wc -l <"$room/err")" -le 3 ]
tell 'push: a server that ends' $?
run silent push -n "$room/near/s" "$room/far/t" --timeout 1
[ $status -eq 7 ] && [ -s "$room/err" ]
tell 'push: a silent server' $?

# ---- a connection that is lost again and again: what was done is left out, and what was begun continues

mkdir -p "$room/near/again"
for each in 1 2 3 4 5 6; do
    head -c 10000 /dev/urandom >"$room/near/again/$each"
done
run ends push --again 5 --files 1 "$room/near/again" "$room/far/again"
[ $status -eq 0 ] && equal "$room/near/again" "$room/far/again" && grep -q 'trying again in 1 s' "$room/err" &&
    ! find "$room/far/again" -name '.*.part' | grep -q .
tell 'push: another try' $?
run silent push --again 1 --timeout 1 "$room/near/again" "$room/far/again"
[ $status -eq 7 ] && [ "$(grep -c 'trying again in' "$room/err")" -eq 1 ]
tell 'push: no further try' $?
run missing pull --again 2 "$room/far/again" "$room/near/twice"
[ $status -eq 6 ] && [ "$(grep -c 'trying again in' "$room/err")" -eq 2 ]
tell 'pull: nothing answers' $?

# ---- trees that change at random

if command -v python3 >/dev/null; then
    timeout 900 python3 tools/trees.py "$program" "$room/socket" "$room/trees" "${TREES_ROUNDS:-50}" >"$room/out" 2>"$room/err"
    status=$?
    cat "$room/out"
    tell 'trees that change at random' $status
fi

echo "$name: $passed passed, $failed failed"
[ $failed -eq 0 ]
