#!/bin/sh
# Runs sftp_cli and example_threads over the peers of tests/peers, by tools/peers.py. If python3 is missing it says so,
# and passes.
# Other programs than those that `rt ci` built may be given, as NAME=PATH.
set -u

if ! command -v python3 >/dev/null; then
    echo "peers: skipped, missing: python3"
    exit 0
fi
exec python3 "$(dirname "$0")/peers.py" "$@"
