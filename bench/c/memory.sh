#!/usr/bin/env bash
# bench/c/memory.sh PREFIX: how much memory rows and pages take, in the library under PREFIX (tools/build_c.sh installs it there): a million
# rows without a body, by keys in order and at random, and with an index by a column of either, whose values have 32 bits or more; and
# tables of 65,536 pages full of rows without a body and with one of 1,000 bytes. Needs 2 GB, and Linux's /proc.
set -euo pipefail

[ $# -eq 1 ] || { echo "usage: bench/c/memory.sh PREFIX" >&2; exit 2; }
prefix=$(cd "$1" && pwd)
here=$(cd "$(dirname "$0")" && pwd)
work=$(mktemp -d)
trap 'rm -rf "$work"' EXIT
"${CC:-cc}" -std=c11 -D_GNU_SOURCE -O2 -Wall -Wextra -Wpedantic -I"$prefix/include" "$here/memory.c" "$prefix/lib/libsandpipercot.a" -o "$work/memory"
"$work/memory" 0 1000000
"$work/memory" 0 1000000 random
"$work/memory" 0 1000000 ascending ascending
"$work/memory" 0 1000000 ascending random
"$work/memory" 0 1000000 ascending ascending 4294967296
"$work/memory" 0 1000000 ascending random 4294967296
"$work/memory" 0
"$work/memory" 1000
