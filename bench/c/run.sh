#!/usr/bin/env bash
# bench/c/run.sh PREFIX [ROWS ..]: builds the benchmark in C over the library under PREFIX (tools/build_c.sh installs it there), and runs it
# beside LMDB and SQLite. It needs liblmdb-dev and libsqlite3-dev. The figures are operations a second, and the ratios are those of
# Sandpipercot to LMDB and to SQLite.
set -euo pipefail

[ $# -ge 1 ] || { echo "usage: bench/c/run.sh PREFIX [ROWS ..]" >&2; exit 2; }
prefix=$(cd "$1" && pwd)
shift
here=$(cd "$(dirname "$0")" && pwd)
work=$(mktemp -d)
trap 'rm -rf "$work"' EXIT
"${CC:-cc}" -std=c11 -D_GNU_SOURCE -O2 -Wall -Wextra -Wpedantic -I"$prefix/include" "$here"/*_store.c "$here/bench.c" \
    "$prefix/lib/libsandpipercot.a" -llmdb -lsqlite3 -o "$work/bench"
"$work/bench" "$@"
