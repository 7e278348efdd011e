#!/bin/sh
# Measures `heapsh run` beside `sqlite3 :memory:` on the same steps: bench/run.sh PATH_TO_HEAPSH [LINES]
set -eu
if [ $# -lt 1 ]; then
    echo "usage: bench/run.sh PATH_TO_HEAPSH [LINES]" >&2
    exit 1
fi
if ! command -v sqlite3 >/dev/null; then
    apt-get install -y sqlite3 >/dev/null
fi
exec python3 "$(dirname "$0")/measure.py" "$@"
