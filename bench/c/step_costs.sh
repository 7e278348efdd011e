#!/usr/bin/env bash
# bench/c/step_costs.sh PREFIX: the instructions of some calls from C, by callgrind, each with the way there and back, which takes some 65.
# It fails where one takes more than is written beside it.
set -euo pipefail

[ $# -eq 1 ] || { echo "usage: bench/c/step_costs.sh PREFIX" >&2; exit 2; }
command -v valgrind >/dev/null || { echo "step_costs.sh: valgrind is missing" >&2; exit 2; }
here=$(cd "$(dirname "$0")" && pwd)
prefix=$(cd "$1" && pwd)
work=$(mktemp -d)
trap 'rm -rf "$work"' EXIT
"${CC:-cc}" -std=c11 -O2 -Wall -Wextra -I"$prefix/include" "$here/step_costs.c" "$prefix/lib/libsandpipercot.a" -o "$work/step_costs"

status=0
cost() {
    local kind=$1 most=$2 what=$3 count whole
    count=$(valgrind -q --tool=callgrind --collect-atstart=no --toggle-collect=measured --callgrind-out-file="$work/out" \
        "$work/step_costs" "$kind")
    whole=$(sed -n 's/^summary: //p; s/^totals: //p' "$work/out" | head -1)
    echo "$what: $((whole / count)) instructions, of $most"
    [ $((whole / count)) -lt "$most" ] || status=1
}
cost get 350 "a get by key"
cost empty 500 "a begin and a commit with nothing between"
cost insert 1800 "an insert"
cost hot 2300 "a HOT update on a page with room, but in a hole alone"
cost delete 600 "a delete"
cost scan 49500 "100 rows of a cursor by key"
cost full 2550 "an update on a full page from which nothing can go"
cost prunes 2850 "an update that prunes one dead version first"
cost again 6000 "an update that prunes the version before it, to which a redirect leads"
cost prune 300 "a pruning of a page whose one version stays"
cost pruned 1500 "a pruning of a page whose one version goes"
cost young 9500 "a vacuum's visit of 88 rows, none of them old"
cost freezing 17500 "a visit that freezes all 88"
cost held 14500 "a visit of a page with a version that an open session still sees"
cost cleaning 17600 "a visit of a page on which every tenth row was deleted"
cost making 1100000 "the making of an index of 1,000 rows whose values are in no order"
exit $status
