#!/usr/bin/env bash
# tools/test.sh: all that is tried of this repository: names, clauses and documents; that each wrong edit is code; the gate (every proof,
# each test, and the programs as two compilers make them); the answers of examples and scripts, reads and writes that fail, scripts and
# pages that are cut, memory that is refused, a vacuum's steps in any order with those of sessions, looks beside what is read and pruned,
# and transcripts that are judged; the edits of crates that changed since theirs were last refused, and a few others; and the C library
# from C, C++, Rust and Python.
# It says first of all what is missing.
set -euo pipefail
cd "$(dirname "$0")/.."

. tools/needs.sh
needs test.sh
not_tried test.sh
# which commit it is that all below was said of (tools/release.sh looks for it)
commit=$(git rev-parse HEAD 2>/dev/null || echo "none")
[ -z "$(git status --porcelain 2>/dev/null)" ] || commit+=", and changes that are not committed"
echo "test.sh: commit $commit"
python3 tools/names.py
python3 tools/alloc_errors.py
python3 tools/check_docs.py
# (an edit that is no code is better known before the proofs than after)
python3 tools/edits.py --compile
room=$(mktemp -d)
trap 'rm -rf "$room"' EXIT
# A proof by several jobs reads what is below it once for each of them, so crates are proved side by side by one job each. Where there are
# more processors than memory for a crate each, that is left to rt.
processors=$(nproc)
[ "$processors" -gt 4 ] || export RT_JOBS=${RT_JOBS:-$processors}
# (what is tried over the gate's libraries asks whether they are of this run)
GATE_BEGAN=$(date +%s.%N)
export GATE_BEGAN
# (tools/release.sh asks the same later)
echo "test.sh: began $GATE_BEGAN"
python3 tools/ci.py
python3 tools/check_docs.py crates/heapsh/out/heapsh
python3 tests/scripts/test_scripts.py crates/heapsh/out/heapsh
python3 tests/cuts/test_cuts.py crates/heapsh/out/heapsh
python3 tests/refused/test_refused.py crates/heapsh/out/heapsh crates/heapjudge/out/heapjudge
python3 tests/orders/test_orders.py crates/heapsh/out/heapsh
python3 tests/judge/test_judge.py crates/heapjudge/out/heapjudge crates/heapsh/out/heapsh
python3 examples/check.py crates/heapview/out/heapview
python3 tests/looks/test_looks.py crates/heapview/out/heapview
python3 tests/pictures/test_pictures.py crates/heapview/out/heapview
python3 tests/pictures/test_stories.py crates/heapview/out/heapview
tools/build_c.sh "$room/prefix" --over-gate
python3 tools/edits.py --gate
tools/test_callers.sh "$room/prefix"
# what all of it took; where a kit keeps what was proved, less than from nothing
times >"$room/times"
awk -F'[ms ]+' 'NR == 2 { printf "test.sh: %.1f processor minutes, ", $1 + $2 / 60 + $3 + $4 / 60 }' "$room/times"
echo "$((SECONDS / 60)) by the clock"
