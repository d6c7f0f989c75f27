#!/bin/sh
# Proves and builds the library, and puts libpiecepick.a, libpiecepick.so.N (N is the interface's number), its link libpiecepick.so and the
# headers into a folder. It needs `rt`, a C compiler and GNU binutils. With the same tools the result is the same, byte for byte, in any
# folder at any time.
#
#   clients/build.sh             for x86-64, with the level x86-64-v2, into clients/out
#   clients/build.sh aarch64     for aarch64, into clients/out/aarch64, by cross compilers as Debian's gcc-aarch64-linux-gnu
#
# CC, LD, OBJCOPY and AR may name other tools. PIECEPICK_FLAGS='--cpu x86-64' builds for any x86-64 processor. PIECEPICK_HEAP names another
# archive of the functions by which Rattle calls malloc.
set -eu
here=$(cd "$(dirname "$0")" && pwd)
fail() { echo "build.sh: $1" >&2; exit 1; }
command -v rt > /dev/null || fail "rt isn't on this machine"
case $#${1:-} in
0 | 1x86_64) prefix='' compiler=${CC:-cc} out=$here/out flags=${PIECEPICK_FLAGS:-} ;;
1aarch64) prefix=aarch64-linux-gnu- compiler=${CC:-aarch64-linux-gnu-gcc} out=$here/out/aarch64
    flags="--target aarch64-unknown-linux-gnu ${PIECEPICK_FLAGS:-}" ;;
*) fail "usage: build.sh [x86_64 | aarch64]" ;;
esac
archiver=${AR:-${prefix}ar}
abi=$(sed -n 's/^#define PIECEPICK_ABI \([0-9][0-9]*\)u$/\1/p' "$here/piecepick.h")
[ -n "$abi" ] || fail "piecepick.h has no line '#define PIECEPICK_ABI Nu'"
export LC_ALL=C
work=$(mktemp -d)
trap 'rm -rf "$work"' EXIT
# The toolchain has the functions by which Rattle calls malloc for x86-64 alone. For others heap.c has them.
heap=${PIECEPICK_HEAP:-}
if [ -z "$heap" ] && [ -z "$prefix" ]; then
    heap=$(dirname "$(readlink -f "$(command -v rt)")")/../c/liblibc_c.a
elif [ -z "$heap" ]; then
    $compiler -std=c11 -O2 -fPIC -Wall -Wextra -Werror -c "$here/heap.c" -o "$work/heap.o" || fail "heap.c can't be compiled by $compiler"
    heap=$work/libheap.a
    $archiver rcsD "$heap" "$work/heap.o"
fi
[ -f "$heap" ] || fail "there is no $heap: PIECEPICK_HEAP names the archive of the functions by which Rattle calls malloc"
heap=$(readlink -f "$heap")
# shellcheck disable=SC2086  # they are words
"$here/../tools/build.py" bt_c $flags
cd "$work"
# The library's archive alone lacks the functions by which Rattle calls malloc: they come along. In one object they and whatever else
# isn't of the interface can be made local, so that two libraries that are written in Rattle go into one program.
${LD:-${prefix}ld} -r -o piecepick.o --whole-archive "$here/../crates/bt_c/out/libbt_c.a" "$heap"
${OBJCOPY:-${prefix}objcopy} --wildcard --keep-global-symbol='piecepick_*' --remove-section=.llvm_addrsig piecepick.o
$archiver rcsD libpiecepick.a piecepick.o
# No start files: the library has nothing that runs at load, and so no compiler's own objects get into it. The other flags are those in
# which compilers differ.
$compiler -shared -nostdlib -o "libpiecepick.so.$abi" piecepick.o -lc -Wl,-soname,"libpiecepick.so.$abi" \
    -Wl,--version-script="$here/piecepick.map" -Wl,--build-id=none,--hash-style=gnu,--as-needed -Wl,-z,defs,-z,now,-z,relro,-z,noexecstack
mkdir -p "$out"
rm -f "$out"/libpiecepick.*
mv libpiecepick.a "libpiecepick.so.$abi" "$out"
ln -s "libpiecepick.so.$abi" "$out/libpiecepick.so"
cp "$here/piecepick.h" "$here/piecepick.hpp" "$out/"
ls -l "$out"
