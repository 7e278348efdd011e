#!/usr/bin/env bash
# tools/build_c.sh PREFIX [--over-gate]: proves the library for callers, builds it, and installs it under PREFIX (tools/install.sh). That
# takes some 50 minutes on four processors. With --over-gate what `rt ci` has just proved is not proved again, where it is left
# (tools/over_gate.py), and it takes one or two. In a minute and without a proof: tools/quick.sh.
# RT_JOBS says how many jobs rt is to use; CC names the C compiler, if it is not cc.
set -euo pipefail

if [ $# -ne 1 ] && [ "$*" != "${1:-} --over-gate" ]; then
    echo "usage: tools/build_c.sh PREFIX [--over-gate]" >&2
    exit 2
fi
root=$(cd "$(dirname "$0")/.." && pwd)
. "$root/tools/needs.sh"
needs build_c.sh
mkdir -p "$1"

prove() {
    echo "build_c.sh: proves the calls for C and the libraries below them: some 50 minutes on four processors (tools/quick.sh takes one, and proves nothing)"
    (cd "$root/crates/sandpiper_c" && rt lib ${RT_JOBS:+--jobs "$RT_JOBS"})
}
if [ $# -eq 2 ]; then
    echo "build_c.sh: compiles the calls for C over what the gate has left: a minute or two; what is not left is proved"
    status=0
    python3 "$root/tools/over_gate.py" archive || status=$?
    [ $status -ne 3 ] || { status=0; prove; }
    [ $status -eq 0 ] || exit $status
else
    prove
fi
"$root/tools/install.sh" "$root/crates/sandpiper_c/out/libsandpiper_c.a" "$1"
