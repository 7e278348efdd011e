#!/usr/bin/env bash
# tools/release.sh FOLDER GATE: makes FOLDER/sandpipercot-VERSION-linux-x86_64.tar.gz of a proved build, over what the gate has left: the
# programs, the library, the header and classes, the crate, the wheel, the documents, SHA256SUMS, and GATE.txt. The last are
# the end of GATE, the file with all that tools/test.sh said of this commit.
#
# It compiles the calls for C over what `rt ci` has left (tools/over_gate.py), and stops where that is not there, is older than its
# sources, or where something is not committed. One commit gives the same bytes each time. CC names the C compiler, if it is not cc.
set -euo pipefail

if [ $# -ne 2 ]; then
    echo "usage: tools/release.sh FOLDER GATE" >&2
    exit 2
fi
root=$(cd "$(dirname "$0")/.." && pwd)
. "$root/tools/needs.sh"
needs release.sh
stops() { echo "release.sh: $*" >&2; exit 1; }

gate=$(readlink -f "$2")
[ -f "$gate" ] || stops "there is no file $2 with what the gate said"
commit=$(git -C "$root" rev-parse HEAD) || stops "there is no commit"
[ -z "$(git -C "$root" status --porcelain)" ] || stops "something is not committed, so no gate proved it"
grep -qxF "test.sh: commit $commit" "$gate" || stops "$2 is not of this commit: it lacks the line \"test.sh: commit $commit\""
tail -n 1 "$gate" | grep -q "by the clock$" || stops "the gate did not come to its end in $2"
# since when the gate ran, so that what it took from earlier runs of the same files counts (tools/over_gate.py)
GATE_BEGAN=$(sed -n "s/^test.sh: began //p" "$gate" | tail -n 1)
[ -n "$GATE_BEGAN" ] || stops "$2 does not say when the gate began"
export GATE_BEGAN
programs=("$root"/crates/{heapsh/out/heapsh,heapview/out/heapview,heapjudge/out/heapjudge})
for program in "${programs[@]}"; do
    [ -x "$program" ] || stops "there is no proved program $program: run tools/test.sh"
    [ -z "$(find "$root/crates" "$root/crates.txt" -type f ! -path '*/out/*' -newer "$program" -print -quit)" ] ||
        stops "$program is older than its sources: run tools/test.sh"
done
status=0
python3 "$root/tools/over_gate.py" archive || status=$?
[ $status -ne 3 ] || stops "there is no proved build of these sources: run tools/test.sh"
[ $status -eq 0 ] || stops "the calls for C are not proved"

version=$(sed -n 's/^#define SANDPIPER_VERSION "\(.*\)"$/\1/p' "$root/include/sandpipercot.h")
name=sandpipercot-$version-linux-x86_64
work=$(mktemp -d)
trap 'rm -rf "$work"' EXIT
export SOURCE_DATE_EPOCH=$(git -C "$root" log -1 --format=%ct)
"$root/tools/install.sh" "$root/crates/sandpiper_c/out/libsandpiper_c.a" "$work/$name" >/dev/null
install -D -m 755 -t "$work/$name/bin" "${programs[@]}"
install -D -m 644 -t "$work/$name/share/doc/sandpipercot" "$root"/docs/*.md
{ echo "commit $commit"; tail -n 20 "$gate"; } >"$work/$name/GATE.txt"
(cd "$work/$name" && find . -type f ! -name SHA256SUMS -printf '%P\n' | LC_ALL=C sort | xargs -d '\n' sha256sum >SHA256SUMS)
mkdir -p "$1"
# sorted names, the commit's time, nobody's files: nothing of this machine
tar --sort=name --mtime="@$SOURCE_DATE_EPOCH" --owner=0 --group=0 --numeric-owner --mode='u=rwX,go=rX' --format=ustar \
    -C "$work" -cf "$work/release.tar" "$name"
gzip -n -9 <"$work/release.tar" >"$1/$name.tar.gz"
(cd "$1" && sha256sum "$name.tar.gz")
