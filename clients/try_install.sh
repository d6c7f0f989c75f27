#!/bin/sh
# Installs what build.sh made into a folder of its own, as a package would and as a folder that is unpacked anywhere. It builds example.c
# and runs it: by pkg-config and by CMake, with the shared object and with the archive. It also looks at the names that the libraries have.
# Run build.sh first. It needs no network and leaves nothing behind.
#
#   clients/try_install.sh        CC may name another compiler; without cmake that part is passed over, and it says so
set -eu
export LC_ALL=C
unset PREFIX LIBDIR DESTDIR PKG_CONFIG_PATH PKG_CONFIG_SYSROOT_DIR
here=$(cd "$(dirname "$0")" && pwd)
work=$(mktemp -d)
trap 'rm -rf "$work"' EXIT
trap 'exit 1' HUP INT TERM
cc=${CC:-cc}
fail() { echo "try_install.sh: $1" >&2; exit 1; }
need() { command -v "$1" > /dev/null || fail "$1 isn't on this machine"; }
for tool in "${cc%% *}" pkg-config python3 readelf nm objcopy; do need "$tool"; done

version=$("$here/install.sh" --version)
soname=libpiecepick.so.${version%%.*}
(cd "$work" && PYTHONPATH="$here" python3 -B - << 'PY'
import random
from bencode import metainfo
content = random.Random(1).randbytes(9 * 32768 + 12345)
open("content", "wb").write(content)
open("try.torrent", "wb").write(metainfo(b"content", content, 32768))
PY
) || fail "no torrent could be made"

# run PROGRAM shared|static: it has to do its work, and to need the shared object just where that is wanted.
run() {
    said=$("$1" "$work/try.torrent" "$work/content") || fail "the $2 example ended with status $?: $said"
    case $said in *"the content is the same"*) ;; *) fail "the $2 example said: $said" ;; esac
    wanted=$(readelf -d "$1" | sed -n 's/.*(NEEDED).*\[\(libpiecepick.*\)\]/\1/p')
    [ "$2$wanted" = "shared$soname" ] || [ "$2$wanted" = static ] || fail "the $2 example needs '$wanted' at run time"
}

# by_pkg_config LIB [SYSROOT]: the example with the flags that pkg-config gives, in a subshell, so that its variables stay there.
by_pkg_config() (
    export PKG_CONFIG_LIBDIR="$1/pkgconfig"
    [ $# -lt 2 ] || export PKG_CONFIG_SYSROOT_DIR="$2"
    flags=$(pkg-config --cflags piecepick) || fail "pkg-config finds no piecepick"
    libs=$(pkg-config --libs piecepick) || fail "pkg-config knows no libraries of piecepick"
    [ "$(pkg-config --modversion piecepick)" = "$version" ] || fail "pkg-config has another version than $version"
    # shellcheck disable=SC2086  # what pkg-config gives are words
    $cc -std=c11 $flags "$here/example.c" -o "$work/shared" $libs -Wl,-rpath,"$1" || fail "no program by pkg-config"
    run "$work/shared" shared
    # shellcheck disable=SC2086  # the same
    $cc -std=c11 $flags "$here/example.c" -o "$work/static" -Wl,-Bstatic $libs -Wl,-Bdynamic || fail "no static program by pkg-config"
    run "$work/static" static
)

# As a package: below DESTDIR, whose name is in none of the files.
stage=$work/stage lib=$work/stage/opt/piecepick/lib/any-linux
package() { DESTDIR=$stage PREFIX=/opt/piecepick LIBDIR=/opt/piecepick/lib/any-linux "$here/install.sh" "$@" > "$work/said"; }
package || fail "install.sh failed"
! grep -rlF "$work" "$stage" || fail "these files name the folder that they were put into"
by_pkg_config "$lib" "$stage"
echo "pkg-config, below a DESTDIR: shared and static"

# The names.
[ "$(readelf -d "$lib/$soname" | sed -n 's/.*(SONAME).*\[\(.*\)\]/\1/p')" = "$soname" ] || fail "the SONAME isn't $soname"
[ "$(readlink "$lib/libpiecepick.so")" = "$soname" ] || fail "libpiecepick.so doesn't point to $soname"
names() { nm "$@" | sed -n 's/^[0-9a-f]* [A-Za-z] //p' | sort -u; }
names -D --defined-only "$lib/$soname" > "$work/exported"
names -g --defined-only "$lib/libpiecepick.a" > "$work/global"
grep -o '^\(PIECEPICK_MUST \)\{0,1\}[a-z0-9_]* piecepick_[a-z0-9_]*(' "$here/piecepick.h" | sed 's/.* //; s/(//' | sort -u > "$work/declared"
for list in exported global; do
    diff "$work/declared" "$work/$list" > "$work/said" || fail "$list names aren't those of the header: $(cat "$work/said")"
done
echo "names: $soname and libpiecepick.a have the $(wc -l < "$work/declared") of the header, and no others"

# A second library of the same kind, whose own calls have other names: all of both goes into one program.
sed 's/^piecepick_\(.*\)/& other_\1/' "$work/global" > "$work/renamed"
objcopy --redefine-syms="$work/renamed" "$lib/libpiecepick.a" "$work/libother.a"
cat > "$work/two.c" << 'C'
#include <piecepick.h>
uint32_t other_abi(void);
int main(void) { return piecepick_abi() == PIECEPICK_ABI && other_abi() == PIECEPICK_ABI ? 0 : 1; }
C
$cc -I"$stage/opt/piecepick/include" "$work/two.c" -o "$work/two" -Wl,--whole-archive "$lib/libpiecepick.a" "$work/libother.a" \
    -Wl,--no-whole-archive || fail "two archives clash"
"$work/two" || fail "the library has another interface than its header"
echo "two archives: no clash"

package --uninstall || fail "install.sh --uninstall failed"
left=$(find "$stage" ! -type d -o -name '*piecepick*' ! -path "$stage/opt/piecepick")
[ -z "$left" ] || fail "after --uninstall there is still: $left"
echo "uninstall: nothing is left"

# As a folder that was unpacked elsewhere.
DESTDIR=$work/first PREFIX=/here "$here/install.sh" --relocatable > "$work/said" || fail "install.sh --relocatable failed"
root=$work/moved
mv "$work/first/here" "$root"
by_pkg_config "$root/lib"
echo "pkg-config, in a folder that was moved: shared and static"

if ! command -v cmake > /dev/null; then
    echo "CMake: passed over, since cmake isn't on this machine"
    exit 0
fi
mkdir "$work/project"
cp "$here/example.c" "$work/project"
cat > "$work/project/CMakeLists.txt" << 'CMAKE'
cmake_minimum_required(VERSION 3.10)
project(try_piecepick C)
find_package(piecepick ${WANTED} REQUIRED CONFIG)
add_executable(shared example.c)
target_link_libraries(shared PRIVATE piecepick::piecepick)
add_executable(static example.c)
target_link_libraries(static PRIVATE piecepick::piecepick_static)
CMAKE
# by_cmake VERSION: makes both programs in $work/made.
by_cmake() {
    rm -rf "$work/made"
    cmake -S "$work/project" -B "$work/made" -DCMAKE_PREFIX_PATH="$root" -DCMAKE_C_COMPILER="${cc%% *}" -DWANTED="$1" \
        > "$work/said" 2>&1
}
by_cmake "$version" || fail "cmake: $(cat "$work/said")"
cmake --build "$work/made" > "$work/said" 2>&1 || fail "cmake --build: $(cat "$work/said")"
run "$work/made/shared" shared
run "$work/made/static" static
! by_cmake "$((${version%%.*} + 1))" || fail "CMake takes version $version for a later interface"
! by_cmake "$((${version%%.*} - 1))" || fail "CMake takes version $version for an earlier interface"
echo "CMake: shared and static, and no other interface"
