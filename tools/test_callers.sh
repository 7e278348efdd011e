#!/usr/bin/env bash
# tools/test_callers.sh [PREFIX]: tries the C library from C, C++, Rust and Python, and the examples. With no PREFIX it is built
# anew by tools/build_c.sh, and installed under a folder that is removed at the end; else that under PREFIX is tried.
set -euo pipefail

root=$(cd "$(dirname "$0")/.." && pwd)
. "$root/tools/needs.sh"
work=$(mktemp -d)
trap 'rm -rf "$work"' EXIT
if [ $# -eq 0 ]; then
    prefix=$work/prefix
    "$root/tools/build_c.sh" "$prefix"
else
    prefix=$(cd "$1" && pwd)
fi
tests=$root/tests/callers
export LD_LIBRARY_PATH=$prefix/lib PYTHONPATH=$prefix/lib/python PYTHONDONTWRITEBYTECODE=1
flags=(-g -O1 -Wall -Wextra -Wpedantic -Werror -I"$prefix/include")
wrap=-Wl,--wrap=malloc,--wrap=realloc

say() { echo "test_callers.sh: $*"; }

# The tests in C: under the sanitizers, and where valgrind is there under that, which looks into the library too.
in_c() {
    local name=$1 link=$2
    "$compiler" -std=c11 "${flags[@]}" -fsanitize=address,undefined -fno-sanitize-recover=all "$tests/$name.c" \
        "$prefix/lib/libsandpipercot.a" $link -o "$work/$name"
    say "$name.c, with the address sanitizer"
    "$work/$name" >"$work/$name.out"
    if command -v valgrind >/dev/null; then
        "$compiler" -std=c11 "${flags[@]}" "$tests/$name.c" "$prefix/lib/libsandpipercot.a" $link -o "$work/$name.plain"
        say "$name.c, under valgrind"
        valgrind -q --leak-check=full --error-exitcode=9 "$work/$name.plain" ${3:-} >/dev/null
    fi
}
in_c table ""
in_c state ""
in_c loops ""
in_c statuses "$wrap"
in_c waits "$wrap"
in_c looks ""
in_c pictures "$wrap"
cmp "$work/pictures.out" "$root/docs/horizon.svg"
in_c misuse "" 20000
in_c memory "$wrap"
in_c making "$wrap" 300
in_c growth "$wrap" 40
cat "$work/memory.out" "$work/making.out" "$work/growth.out"

# What a table was answered while memory was refused is judged, by the program that the gate leaves or tools/quick.sh installs.
judge=$root/crates/heapjudge/out/heapjudge
[ -x "$judge" ] || judge=$prefix/bin/heapjudge
if [ -x "$judge" ]; then
    say "the answers of growth.c, by heapjudge"
    mkdir "$work/transcripts"
    "$work/growth" 1000 "$work/transcripts" >/dev/null
    for transcript in "$work"/transcripts/*; do
        "$judge" <"$transcript"
    done
else
    say "not tried: there is no heapjudge to judge the answers of growth.c (tools/quick.sh PREFIX heapjudge)"
fi

# Threads that share a table under a lock of their own. What looks for races has to name one where there is no lock, in one of some runs:
# that the program fails there is not enough, since its own checks fail too.
names_a_race() {
    local words=$1
    shift
    for _ in 1 2 3 4 5 6 7 8; do
        timeout 100 "$@" free >"$work/threads.err" 2>&1 || true
        ! grep -q "$words" "$work/threads.err" || return 0
    done
    say "no race was found where there is no lock"
    exit 1
}
"$compiler" -std=c11 "${flags[@]}" -fsanitize=thread "$tests/threads.c" "$prefix/lib/libsandpipercot.a" -pthread -o "$work/threads"
say "threads.c, with the thread sanitizer"
if "$work/threads" 2>"$work/threads.err"; then
    names_a_race "ThreadSanitizer: data race" "$work/threads"
else
    cat "$work/threads.err" >&2
    grep -q "unexpected memory mapping" "$work/threads.err" || exit 1
    say "not tried: the thread sanitizer does not take this kernel's addresses"
fi
"$compiler" -std=c11 "${flags[@]}" -fsanitize=address,undefined -fno-sanitize-recover=all "$tests/tickets.c" \
    "$prefix/lib/libsandpipercot.a" -pthread -o "$work/tickets"
say "tickets.c, with the address sanitizer"
"$work/tickets"
if command -v valgrind >/dev/null; then
    "$compiler" -std=c11 "${flags[@]}" "$tests/tickets.c" "$prefix/lib/libsandpipercot.a" -pthread -o "$work/tickets.plain"
    say "tickets.c, under valgrind and its helgrind"
    valgrind -q --leak-check=full --error-exitcode=9 "$work/tickets.plain" >/dev/null
    valgrind -q --tool=helgrind --error-exitcode=9 "$work/tickets.plain" locked >/dev/null
fi
if command -v valgrind >/dev/null; then
    "$compiler" -std=c11 "${flags[@]}" "$tests/threads.c" "$prefix/lib/libsandpipercot.a" -pthread -o "$work/threads.plain"
    say "threads.c, under valgrind's helgrind, with the lock and without"
    valgrind -q --tool=helgrind --error-exitcode=9 "$work/threads.plain" >/dev/null
    names_a_race "Possible data race" valgrind -q --tool=helgrind "$work/threads.plain"
fi

# What an example prints has to be what is said beside its script in examples/first_committer_wins.md.
example() {
    say "$1"
    shift
    "$@" | diff - "$tests/first_committer_wins.txt"
}
"$compiler" -std=c11 "${flags[@]}" "$root/examples/c/first_committer_wins.c" -L"$prefix/lib" -lsandpipercot -o "$work/example_c"
example "the example in C" "$work/example_c"
if command -v pkg-config >/dev/null; then
    PKG_CONFIG_PATH=$prefix/lib/pkgconfig pkg-config --cflags --libs sandpipercot >"$work/flags"
    "$compiler" "$root/examples/c/first_committer_wins.c" $(cat "$work/flags") -o "$work/example_pc"
    example "the same, as pkg-config says" "$work/example_pc"
fi

if command -v "$cplusplus" >/dev/null; then
    "$cplusplus" -std=c++17 "${flags[@]}" -fsanitize=address,undefined -fno-sanitize-recover=all "$tests/table.cpp" \
        "$prefix/lib/libsandpipercot.a" -o "$work/table_cpp"
    say "table.cpp, with the address sanitizer"
    "$work/table_cpp"
    "$cplusplus" -std=c++17 "${flags[@]}" -fsanitize=address,undefined -fno-sanitize-recover=all "$tests/classes.cpp" \
        "$prefix/lib/libsandpipercot.a" -o "$work/classes_cpp"
    say "classes.cpp, with the address sanitizer"
    "$work/classes_cpp" "$root/docs/horizon.svg"
    "$cplusplus" -std=c++17 "${flags[@]}" "$root/examples/cpp/first_committer_wins.cpp" -L"$prefix/lib" -lsandpipercot \
        -o "$work/example_cpp"
    example "the example in C++" "$work/example_cpp"
fi

if command -v rustc >/dev/null; then
    rustc --edition 2021 -D warnings -O "$tests/table.rs" -L "$prefix/lib" -l static=sandpipercot -o "$work/table_rs"
    say "table.rs"
    "$work/table_rs"
    say "the crate for Rust"
    python3 "$tests/test_crate.py" "$prefix"
    rustc --edition 2021 -D warnings -O "$root/examples/rust/first_committer_wins.rs" -L "$prefix/lib" -l sandpipercot \
        -o "$work/example_rs"
    example "the example in Rust" "$work/example_rs"
fi

if command -v mypy >/dev/null; then
    say "the types of the Python module"
    mypy --strict --cache-dir=/dev/null "$root/python/sandpipercot"
fi
say "the Python module"
CC=$compiler python3 "$tests/test_constants.py" "$prefix/include" "$work/statuses.out"
python3 "$tests/test_table.py"
python3 "$tests/test_misuse.py"
python3 "$root/tests/pages/test_pages.py"
python3 "$tests/test_random.py"
python3 "$tests/test_one_page.py"
python3 "$tests/test_plans.py"
python3 "$tests/test_looks.py"
# (a story is made by the program heapview, which the gate leaves there; a picture is compared with what it draws)
[ ! -x "$root/crates/heapview/out/heapview" ] || export HEAPVIEW="$root/crates/heapview/out/heapview"
python3 "$tests/test_stories.py"
python3 "$tests/test_draw.py"
example "the example in Python" python3 "$root/examples/python/first_committer_wins.py"
python3 "$tests/test_documents.py" "$prefix"

not_tried test_callers.sh
say "all passed"
