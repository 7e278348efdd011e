#!/usr/bin/env bash
# tools/install.sh ARCHIVE PREFIX: installs under PREFIX what callers need, over an archive with the calls of `sandpiper_c`:
# include/sandpipercot.h and .hpp, lib/libsandpipercot.a, .so and .so.0, lib/pkgconfig/sandpipercot.pc, in lib/rust the crate for Rust, and in
# lib/python the Python module and a wheel of it. What makes the archive calls this: tools/build_c.sh a proved one, tools/unproved_c.py one that nothing has proved.
# CC names the C compiler, if it is not cc.
set -euo pipefail

if [ $# -ne 2 ]; then
    echo "usage: tools/install.sh ARCHIVE PREFIX" >&2
    exit 2
fi
root=$(cd "$(dirname "$0")/.." && pwd)
archive=$(readlink -f "$1")
mkdir -p "$2"
prefix=$(cd "$2" && pwd)
. "$root/tools/needs.sh"
needs install.sh

# the toolchain's three functions over malloc, realloc and free
kit=$(dirname "$(dirname "$(readlink -f "$(command -v rt)")")")
heap=$kit/c/liblibc_c.a
[ -f "$heap" ] || { echo "install.sh: $heap is missing: it comes with the toolchain" >&2; exit 2; }

work=$(mktemp -d)
trap 'rm -rf "$work"' EXIT
# one object that shows the calls of the header and nothing else
ld -r --whole-archive -o "$work/sandpipercot.o" "$archive" "$heap"
nm -g --defined-only "$work/sandpipercot.o" | sed -n 's/^.* T \(sandpiper_[a-z_]*\)$/\1/p' >"$work/names"
objcopy --keep-global-symbols="$work/names" "$work/sandpipercot.o"

mkdir -p "$prefix/include" "$prefix/lib/pkgconfig" "$prefix/lib/python/sandpipercot"
rm -f "$prefix/lib/libsandpipercot.a"
ar rcsD "$prefix/lib/libsandpipercot.a" "$work/sandpipercot.o"
"$compiler" -shared -o "$prefix/lib/libsandpipercot.so.0" "$work/sandpipercot.o" \
    -Wl,-soname,libsandpipercot.so.0 -Wl,-z,defs -Wl,-z,noexecstack
ln -sf libsandpipercot.so.0 "$prefix/lib/libsandpipercot.so"
install -m 644 "$root/include/sandpipercot.h" "$root/include/sandpipercot.hpp" "$prefix/include/"
install -D -m 644 -t "$prefix/lib/rust/sandpipercot" "$root/rust/Cargo.toml" "$root/rust/build.rs"
install -D -m 644 -t "$prefix/lib/rust/sandpipercot/src" "$root"/rust/src/*.rs
rm -f "$prefix/lib/python/sandpipercot.py" "$prefix"/lib/python/*.whl
install -m 644 "$root"/python/sandpipercot/*.py "$root/python/sandpipercot/py.typed" "$prefix/lib/python/sandpipercot/"
wheel=$(python3 "$root/python/wheel_backend.py" "$prefix/lib/libsandpipercot.so" "$prefix/lib/python")
version=$(sed -n 's/^#define SANDPIPER_VERSION "\(.*\)"$/\1/p' "$root/include/sandpipercot.h")
sed "s/VERSION/$version/" >"$prefix/lib/pkgconfig/sandpipercot.pc" <<'PC'
prefix=${pcfiledir}/../..
libdir=${prefix}/lib
includedir=${prefix}/include

Name: sandpipercot
Description: a proved multi-version table heap in memory
Version: VERSION
Libs: -L${libdir} -Wl,-rpath,${libdir} -lsandpipercot
Cflags: -I${includedir}
PC
echo "install.sh: installed under $prefix, with the wheel lib/python/$wheel"
