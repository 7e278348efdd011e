#!/usr/bin/env bash
# bench/c/cleaning.sh PREFIX: how fast the parts of a vacuum are: an index is swept beside a full store of dead slots, and pages are pruned
# and frozen. A rate that falls as the rows grow would tell that a part is not linear.
set -euo pipefail

[ $# -eq 1 ] || { echo "usage: bench/c/cleaning.sh PREFIX" >&2; exit 2; }
here=$(cd "$(dirname "$0")" && pwd)
prefix=$(cd "$1" && pwd)
work=$(mktemp -d)
trap 'rm -rf "$work"' EXIT
"${CC:-cc}" -std=c11 -D_GNU_SOURCE -O2 -Wall -Wextra -I"$prefix/include" "$here/cleaning.c" "$prefix/lib/libsandpipercot.a" -o "$work/cleaning"
"$work/cleaning"
