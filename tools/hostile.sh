#!/bin/sh
# Runs sftp_transfer over the servers of tools/hostile.py, which misbehave, and of tools/scenes.py, which are odd, one a
# case. If python3 is missing it says so, and passes.
# Another program than the one that `rt ci` built may be given as an argument.
set -u
case ${1-} in
'' | /*) program=${1-} ;;
*) program=$PWD/$1 ;;
esac
cd "$(dirname "$0")/.." || exit 1
program=${program:-$PWD/crates/sftp_transfer/out/sftp_transfer}

if ! command -v python3 >/dev/null; then
    echo "hostile: skipped, missing: python3"
    exit 0
fi
if ! [ -x "$program" ]; then
    echo "hostile: $program is missing: run 'rt ci' first, or 'rt run' in crates/sftp_transfer"
    exit 1
fi
python3 tools/hostile.py "$program" && exec python3 -B tools/scenes.py "$program"
