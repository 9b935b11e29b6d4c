#!/bin/sh
# Refuses each allocation of a run of the program of crates/sftp_cli in turn, one a run, for some scripts: each run has to end with
# the status 5, or as the run does that has memory to spare. What it counted last is written down in docs/GATE.md. It needs a C
# compiler, for a library that stands in front of the C library's malloc, and takes a few seconds. Another program than the one
# that `rt ci` built may be given as an argument.
set -u
cd "$(dirname "$0")/.." || exit 1
program=${1:-crates/sftp_cli/out/sftp_cli}
if ! [ -x "$program" ]; then
    echo "fail_alloc: $program is missing: run 'rt ci' first, or 'rt run' in crates/sftp_cli"
    exit 1
fi
if ! command -v cc >/dev/null; then
    echo "fail_alloc: skipped, missing: cc"
    exit 0
fi
room=$(mktemp -d) || exit 1
trap 'rm -rf "$room"' EXIT
failed=0

# the allocation that FAIL_ALLOC numbers, from 1, has no memory; how many there were is told on descriptor 3
cat >"$room/refuse.c" <<'END'
#include <errno.h>
#include <stdio.h>
#include <stdlib.h>

extern void *__libc_malloc(size_t), *__libc_realloc(void *, size_t);
static long count;

static int refused(void) {
    const char *which = getenv("FAIL_ALLOC");
    count++;
    if (!which || atol(which) != count) return 0;
    errno = ENOMEM;
    return 1;
}

void *malloc(size_t size) { return refused() ? NULL : __libc_malloc(size); }
void *realloc(void *old, size_t size) { return refused() ? NULL : __libc_realloc(old, size); }

__attribute__((destructor)) static void tell(void) { dprintf(3, "%ld\n", count); }
END
cc -O1 -shared -fPIC -o "$room/refuse.so" "$room/refuse.c" || exit 1

# the scripts: a file that is opened, read and closed; offsets at their end; buffered writes of which one is refused; a listing
printf 'file 61 68656c6c6f\nlane\nopen 0 r 61\nread 0 5\nclose 0\n' >"$room/a-file-that-is-read.script"
cat >"$room/offsets-at-their-end.script" <<'END'
lane
open 0 wc 61
seek 0 start 18446744073709551614
write 0 01
seek 0 start 18446744073709551615
write 0 01
seek 0 cur -9223372036854775808
seek 0 end 0
close 0
END
cat >"$room/buffered-writes.script" <<'END'
option max_write_len 4
choice 0 0
choice 0 0
choice 4 0
lane
open 0 wc 61
buffer 0 4096
buf_write_all 0 00010203040506070809
buf_flush 0
buf_flush 0
close 0
END
printf 'dir 78\nlane\nlist 2f 3\n' >"$room/a-listing.script"

# runs a script with one allocation refused, the one of this number: none for 0
run() {
    timeout 60 env FAIL_ALLOC="$2" LD_PRELOAD="$room/refuse.so" "$program" script <"$1" >"$room/said" 2>/dev/null 3>"$room/count"
}

for script in "$room"/*.script; do
    name=$(basename "$script" .script)
    run "$script" 0 || failed=1
    count=$(cat "$room/count")
    cp "$room/said" "$room/wanted"
    short=0
    same=0
    n=0
    while [ "$n" -lt "$count" ]; do
        n=$((n + 1))
        run "$script" "$n"
        status=$?
        if [ "$status" -eq 5 ]; then
            short=$((short + 1))
        elif [ "$status" -eq 0 ] && cmp -s "$room/said" "$room/wanted"; then
            same=$((same + 1))
        else
            failed=1
            echo "fail_alloc: $name: with allocation $n refused the status is $status"
        fi
    done
    echo "fail_alloc: $name: of $count allocations, each refused in turn, $short end the run with 5, and $same change nothing"
done
exit $failed
