#!/bin/sh
# Runs each program with arguments that it must refuse: one that is not UTF-8, an unknown one, and others that are wrong.
# The status is 2, nothing is run, and a message on standard error names the program, the argument and the cause. With
# --help and --version the status is 0, and standard error stays empty.
set -u
cd "$(dirname "$0")/.." || exit 1

room=$(mktemp -d) || exit 1
trap 'rm -rf "$room"' EXIT
passed=0
failed=0

# Runs a program with arguments and no input, and compares the status and standard error.
expect() {
    wanted=$1
    message=$2
    name=$3
    shift 3
    timeout 60 "crates/$name/out/$name" "$@" </dev/null >"$room/stdout" 2>"$room/stderr"
    status=$?
    told=$(cat "$room/stderr")
    if [ "$status" = "$wanted" ] && [ "$told" = "$message" ]; then
        passed=$((passed + 1))
    else
        failed=$((failed + 1))
        echo "arguments: $name $*: FAILED, status $status instead of $wanted; standard error has"
        echo "  $told"
        echo "instead of"
        echo "  $message"
    fi
}

# Runs a program with arguments that it must refuse. The message is "PROGRAM: CAUSE (try --help)".
refuse() {
    cause=$1
    refused=$2
    shift 2
    expect 2 "$refused: $cause (try --help)" "$refused" "$@"
}

for name in sftp_cli sftp_mirror sftp_view sftp_share sftp_serve sftp_transfer; do
    if ! [ -x "crates/$name/out/$name" ]; then
        echo "arguments: $name is missing: run 'rt ci' first, or 'rt run' in crates/$name"
        exit 1
    fi
    refuse 'an argument is not UTF-8' "$name" "$(printf '\377')"
    refuse 'an argument is not UTF-8' "$name" --help "$(printf '\303')"
    expect 0 '' "$name" --help
    expect 0 '' "$name" --version
done

for name in sftp_cli sftp_mirror sftp_view sftp_share; do
    refuse "unknown argument 'no-such-argument'" "$name" no-such-argument
    refuse "'--help' takes no argument 'x'" "$name" --help x
    refuse "'--version' takes no argument '--help'" "$name" --version --help
done

for name in sftp_cli sftp_mirror sftp_view sftp_transfer; do
    refuse 'missing argument' "$name"
done

refuse "unknown argument 'scirpt'" sftp_cli scirpt
refuse "'script' takes no argument 'x'" sftp_cli script x
refuse "'unix' needs an argument, PATH" sftp_cli unix
refuse "'unix' takes no argument '--time'" sftp_cli unix s --time 5
refuse "option '--timeout' needs a number" sftp_cli unix s --timeout
refuse "SECONDS is a number from 0 to 86400, not '86401'" sftp_cli unix s --timeout 86401
refuse "SECONDS is a number from 0 to 86400, not ''" sftp_cli unix s --timeout ''
refuse "'unix' takes no argument '--timeout'" sftp_cli unix s --timeout 5 --timeout 5
refuse "'bulk' needs 3 arguments, START, LANES and CALLS" sftp_cli bulk 1 2
refuse "'bulk' takes no argument '4'" sftp_cli bulk 1 2 3 4
refuse "LANES is a number from 0 to 256, not '257'" sftp_cli bulk 1 257 3
refuse "START is a number from 0 to 18446744073709551615, not '-1'" sftp_cli bulk -1 2 3
refuse 'LANES times CALLS is at most 16384' sftp_cli bulk 1 256 65

refuse "'copy' needs 2 arguments, WIDTH and ROUNDS" sftp_mirror copy 1
refuse "WIDTH is a number from 1 to 64, not '0'" sftp_mirror copy 0 1
refuse "'unix' needs 3 arguments, PATH, WIDTH and ROUNDS" sftp_mirror unix s 1
refuse "ROUNDS is a number from 0 to 4096, not 'x'" sftp_mirror unix s 1 x
refuse "'copy' takes no argument '--timeout'" sftp_mirror copy 1 1 --timeout 5
refuse "SECONDS is a number from 0 to 86400, not 'x'" sftp_mirror unix s 1 1 --timeout x

refuse "unknown argument 'vew'" sftp_view vew 2 1
refuse "'view' needs 2 arguments, BLOCK and CAPACITY" sftp_view view
refuse "'view' takes no argument 'x'" sftp_view view 2 1 x
refuse "BLOCK is a number from 1 to 65536, not '65537'" sftp_view view 65537 1
refuse "CAPACITY is a number from 1 to 4096, not '0'" sftp_view view 2 0

# An option with its number is no reason to refuse: nobody listens there.
expect 6 'sftp_cli: no/socket: no server listens' sftp_cli unix no/socket --timeout 86400
expect 6 'sftp_mirror: no/socket: no server listens' sftp_mirror unix no/socket 1 1 --timeout 0

expect 2 'sftp_serve: word 1 word' sftp_serve no-such-argument
expect 2 'sftp_serve: word 2 hex' sftp_serve 'dir 64' 'dir x'
# A word is one line: a line feed within it separates no words.
expect 2 'sftp_serve: word 1 count' sftp_serve "$(printf 'file 61 -\ndir 62')"

refuse "unknown link 'no-such-argument', which is not ssh:PATH, unix:PATH, tcp:HOST:PORT, files:IN:OUT or stdio" sftp_transfer no-such-argument
refuse "get, put, pull, push, list, remove, mkdir, move, link or chmod is missing after 'unix:s'" sftp_transfer unix:s
refuse "unknown command 'gte', which is not get, put, pull, push, list, remove, mkdir, move, link or chmod" sftp_transfer unix:s gte a b
refuse "unknown option '--resum'" sftp_transfer unix:s get --resum a b
refuse "unknown option '-x'" sftp_transfer unix:s list -x
refuse "unknown option '-rx'" sftp_transfer unix:s get -rx a b
refuse "unknown option '--resume=1'" sftp_transfer unix:s get --resume=1 a b
refuse "the number of '--files' is from 1 to 256, not '300'" sftp_transfer unix:s get --files=300 a b
refuse "the number of '--limit' is from 1 to 1073741824, not '2G'" sftp_transfer unix:s get --limit 2G a b
refuse "option '--files' needs a value" sftp_transfer unix:s put -r --files
refuse "the number of '--window' is from 1 to 1024, not '1025'" sftp_transfer unix:s get --window 1025 a b
refuse "the number of '--limit' is from 1 to 1073741824, not 'a'" sftp_transfer unix:s get --limit a b
refuse "the number of '--timeout' is from 0 to 86400, not '86401'" sftp_transfer unix:s get --timeout 86401 a b
refuse "the number of '--timeout' is from 0 to 86400, not ''" sftp_transfer unix:s list --timeout ''
refuse "unknown option '--window'" sftp_transfer unix:s list --window 8
refuse "unknown option '-l'" sftp_transfer unix:s get -l a b
refuse "unknown link 'files:in', which is not ssh:PATH, unix:PATH, tcp:HOST:PORT, files:IN:OUT or stdio" sftp_transfer files:in get a b
refuse "unknown option '-x'" sftp_transfer unix:s get a b -x
refuse "the value of '--links' is as-is, not 'follow'" sftp_transfer unix:s get --links follow a b
refuse "'get' needs a source and a target" sftp_transfer unix:s get -r a
refuse "'put' needs a source and a target" sftp_transfer unix:s put -- -r
refuse "'list' takes no argument 'b'" sftp_transfer unix:s list -l a b
refuse "'list' can't be used with stdio, since standard output is the connection" sftp_transfer stdio list
refuse "unknown option '-r'" sftp_transfer unix:s push -r a b
refuse "unknown option '--delete'" sftp_transfer unix:s put --delete a b
refuse "'push' needs a source and a target" sftp_transfer unix:s push a
refuse "'pull' takes no argument 'c' after its target" sftp_transfer unix:s pull a b c
refuse "the number of '--delete-at-most' is from 0 to 1000000, not '-1'" sftp_transfer unix:s push --delete-at-most=-1 a b
refuse "the number of '--again' is from 0 to 1000, not '1001'" sftp_transfer unix:s push --again 1001 a b
refuse "the number of '--rate' is from 0 to 1073741824, not '2T'" sftp_transfer unix:s get --rate=2T a b
refuse "the value of '--shard' is I/N, from 1/1 to 65536/65536, not '3/2'" sftp_transfer unix:s pull --shard 3/2 a b
refuse "'--delete' can't be used with '--shard', since each run copies a share of the files alone" sftp_transfer unix:s \
    push --delete --shard 1/2 a b
refuse "unknown option '--again'" sftp_transfer unix:s get --again 3 a b
pattern="it needs a name, and '[', '\\' and '***' have no meaning here"
refuse "the pattern of '--exclude' can't be used: '[a]' ($pattern)" sftp_transfer unix:s push --exclude '[a]' a b
refuse "the pattern of '--include' can't be used: '/' ($pattern)" sftp_transfer unix:s pull --include=/ a b
refuse "the mode of 'chmod' is 1 to 4 octal digits, not '8'" sftp_transfer unix:s chmod 8 a
refuse "the mode of 'chmod' is 1 to 4 octal digits, not '07755'" sftp_transfer unix:s chmod 07755 a
refuse "a path of 'remove' is empty" sftp_transfer unix:s remove ''
refuse "unknown option '-r'" sftp_transfer unix:s mkdir -r a

# Arguments that are right, and an input that is not.
printf 'no-such-line\n' >"$room/input"
for case in 'sftp_cli script:script' 'sftp_mirror copy 1 1:list' 'sftp_view view 2 1:list' 'sftp_share:script'; do
    command=${case%:*}
    name=${command%% *}
    # shellcheck disable=SC2086
    timeout 60 "crates/$name/out/"$command <"$room/input" >"$room/stdout" 2>"$room/stderr"
    status=$?
    message="$name: the ${case##*:} on standard input is invalid; standard output names its line"
    if [ "$status" = 2 ] && [ "$(cat "$room/stderr")" = "$message" ]; then
        passed=$((passed + 1))
    else
        failed=$((failed + 1))
        echo "arguments: $command with an invalid input: FAILED, status $status; standard error has"
        cat "$room/stderr"
    fi
done
echo "arguments: $passed passed, $failed failed"
[ "$failed" -eq 0 ]
