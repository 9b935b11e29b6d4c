#!/bin/sh
# Runs the program on a session of one lane with a file of a million bytes: it is written as a whole, looked at, renamed and read
# again. Another program than the one that `rt ci` built may be given as an argument.
set -u
case ${1-} in
'' | /*) program=${1-} ;;
*) program=$PWD/$1 ;;
esac
cd "$(dirname "$0")/.." || exit 1
program=${program:-$PWD/crates/sftp_cli/out/sftp_cli}

if ! [ -x "$program" ]; then
    echo "session: $program is missing: run 'rt ci' first, or 'rt run' in crates/sftp_cli"
    exit 1
fi
room=$(mktemp -d) || exit 1
trap 'rm -rf "$room"' EXIT

content=$(head -c 1000000 /dev/zero | tr '\0' a | od -An -v -tx1 | tr -d ' \n')
printf 'server limits 262144 261120 261120 0\nlane\nfs_write 61 %s\nstat 61\nrename 61 62\nfs_read 62 10\n' "$content" >"$room/script"
timeout 60 "$program" script <"$room/script" >"$room/text"
status=$?

# the requests: the offset and the length of each WRITE and READ, and how many there are in all
sed -n 's/^> \(write\|read\) 000000040000000[01]\(.\{16\}\)\(.\{8\}\).*/\1 \2 \3/p' "$room/text" >"$room/transfers"
cat >"$room/wanted" <<END
write 0000000000000000 0003fc00
write 000000000003fc00 0003fc00
write 000000000007f800 0003fc00
write 00000000000bf400 00034e40
read 0000000000000000 0003fc00
read 000000000003fc00 0003fc00
read 000000000007f800 0003fc00
read 00000000000bf400 0003fc00
read 00000000000f4240 0003fc00
END
{
    echo 'lane 0 call 0 done'
    echo 'lane 0 call 1 meta 0000000100000000000f4240'
    echo 'lane 0 call 2 done'
    echo "lane 0 call 3 read $content"
    echo "file 62 $content"
} >"$room/ends"
if [ $status -eq 0 ] && diff "$room/wanted" "$room/transfers" && [ "$(grep -c '^> ' "$room/text")" -eq 16 ] &&
    grep '^lane\|^file' "$room/text" | cmp - "$room/ends"; then
    echo 'session: a file of 1000000 bytes is written and read again'
    exit 0
fi
echo "session: FAILED, status $status"
exit 1
