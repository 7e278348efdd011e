# What building and testing stand on: sourced by test.sh, build_c.sh and test_callers.sh, so that each says before it begins what is
# missing. CC and CXX name the compilers, if they are not cc and c++.
compiler=${CC:-cc}
cplusplus=${CXX:-c++}

# needs NAME: ends with status 2 where something is missing that NAME cannot do without.
needs() {
    local by=$1 is_missing=0 tool
    need() { command -v "$1" >/dev/null || { echo "$by: $1 is missing: $2" >&2; is_missing=1; }; }
    need rt "the toolchain's command, which proves and builds the crates (README.md names the toolchain)"
    need "$compiler" "a C compiler, which links the shared library (set CC to yours)"
    need python3 "Python 3.8 or later, which rt, the tools and the Python module run on"
    for tool in ar ld objcopy; do
        need "$tool" "of the binutils, which come with a C compiler"
    done
    [ $is_missing -eq 0 ] || exit 2
}

# not_tried NAME: says which of the callers' tests are left out, since what they need is missing.
not_tried() {
    local by=$1 missing=() tool
    for tool in "$cplusplus" rustc cargo pkg-config valgrind mypy; do
        command -v "$tool" >/dev/null || missing+=("$tool")
    done
    [ ${#missing[@]} -eq 0 ] || echo "$by: not tried, since it is missing here: ${missing[*]}"
}
