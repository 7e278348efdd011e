#!/usr/bin/env bash
# tools/quick.sh PREFIX [PROGRAM ..]: makes the library and programs from the sources as they stand, without proving them, and installs them
# under PREFIX: what tools/install.sh names for C, C++, Rust and Python, and bin/heapsh, or the programs that are named: heapsh, heapview,
# heapjudge. With heapsh alone it takes a minute on four processors, with all three two. What the gate has proved of a commit is not proved
# here again, and what is not committed is proved by nobody: tools/build_c.sh proves, and builds.
# CC names the C compiler, if it is not cc.
set -euo pipefail

if [ $# -eq 0 ]; then
    echo "usage: tools/quick.sh PREFIX [heapsh] [heapview] [heapjudge]" >&2
    exit 2
fi
root=$(cd "$(dirname "$0")/.." && pwd)
programs=("${@:2}")
[ ${#programs[@]} -gt 0 ] || programs=(heapsh)
for program in "${programs[@]}"; do
    [ -f "$root/crates/$program/src/main.rt" ] || { echo "quick.sh: there is no program $program" >&2; exit 2; }
done
. "$root/tools/needs.sh"
needs quick.sh
mkdir -p "$1"
prefix=$(cd "$1" && pwd)

echo "quick.sh: compiles ${programs[*]} and the library side by side, in a minute or two on four processors"
# heapsh is of one module with the library, so that what both call is read and compiled once
works=() with_library=()
for program in "${programs[@]}"; do
    if [ "$program" = heapsh ]; then
        with_library=(heapsh)
    else
        python3 "$root/tools/unproved_shell.py" "$prefix/bin/$program" --soon &
        works+=($!)
    fi
done
python3 "$root/tools/unproved_c.py" "$prefix" --soon ${with_library[@]+"${with_library[@]}"} &
works+=($!)
status=0
for work in "${works[@]}"; do
    wait "$work" || status=$?
done
[ $status -eq 0 ] || exit $status
echo "quick.sh: installed under $prefix. Nothing was proved here: the gate proves a commit (tools/test.sh)"
