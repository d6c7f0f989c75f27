#!/bin/sh
# Installs what build.sh made, or else what is in the folder `release`: the header, the archive, the shared object, and what pkg-config and CMake read.
#
#   clients/install.sh                   into /usr/local
#   PREFIX=/usr LIBDIR=/usr/lib/x86_64-linux-gnu DESTDIR=stage clients/install.sh
#                                        as if below /usr, but everything is put below stage/
#   clients/install.sh --relocatable     the .pc file tells paths from where it lies, so that the folder may be moved
#   clients/install.sh --uninstall       takes it away again; give the same variables
#   clients/install.sh --version         prints the version, and does nothing else
set -eu
export LC_ALL=C
here=$(cd "$(dirname "$0")" && pwd)
out=${PIECEPICK_OUT:-$here/out}
fail() { echo "install.sh: $1" >&2; exit 1; }
# A folder with one slash before each part and none at its end.
plain() { printf '%s/\n' "$1" | sed 's,//*,/,g; s,/$,,'; }

prefix=$(plain "${PREFIX:-/usr/local}")
libdir=$(plain "${LIBDIR:-$prefix/lib}")
case $prefix in /* | "") ;; *) fail "PREFIX must begin with a slash: $prefix" ;; esac
case $libdir in /*) ;; *) fail "LIBDIR must begin with a slash: $libdir" ;; esac
# These would have to be escaped in the files for pkg-config and CMake.
case $prefix$libdir in *[\ \|\&\;\\\"\$]*) fail "PREFIX and LIBDIR may have no space and none of | & ; \\ \" \$" ;; esac
include=${DESTDIR:-}$prefix/include
lib=${DESTDIR:-}$libdir

# What the built header says; before it has a version, the interface's number stands for it.
numbers() {
    [ -f "$out/piecepick.h" ] || "$here/take.sh" || fail "clients/out has no header"
    abi=$(sed -n 's/^#define PIECEPICK_ABI \([0-9][0-9]*\)u$/\1/p' "$out/piecepick.h")
    version=$(sed -n 's/^#define PIECEPICK_VERSION "\([^"]*\)"$/\1/p' "$out/piecepick.h")
    [ -n "$abi" ] || fail "clients/out/piecepick.h has no line '#define PIECEPICK_ABI Nu'"
    version=${version:-$abi.0.0}
    # An interface's programs find their library by the first number of the version.
    case $version in
    *[!0-9.]*) fail "clients/out/piecepick.h: version $version has more than digits and dots" ;;
    "$abi".*) ;;
    *) fail "clients/out/piecepick.h: version $version doesn't begin with the interface's number, $abi" ;;
    esac
}

# The path from LIBDIR up to PREFIX, as "../", or nothing where LIBDIR lies elsewhere.
up() {
    case $libdir in
    "$prefix"/*) printf '%s\n' "${libdir#"$prefix"/}" | sed 's,[^/][^/]*,..,g' ;;
    esac
}

# A template with its @words@ filled in.
fill() { sed "s|@prefix@|$pc_prefix|; s|@libdir@|$pc_libdir|; s|@includedir@|\${prefix}/include|; s|@include@|$from_lib|
s|@soname@|libpiecepick.so.$abi|g; s|@abi@|$abi|; s|@version@|$version|" "$1"; }

put() {
    numbers
    for file in piecepick.h piecepick.hpp libpiecepick.a "libpiecepick.so.$abi"; do
        [ -f "$out/$file" ] || fail "clients/out has no $file: run clients/build.sh first"
    done
    above=$(up)
    pc_prefix=$prefix pc_libdir=$libdir from_lib=$prefix/include
    if [ -n "$above" ]; then
        pc_libdir="\${prefix}/${libdir#"$prefix"/}" from_lib=$above/include
    fi
    if [ "$1" = relocatable ]; then
        [ -n "$above" ] || fail "--relocatable wants LIBDIR below PREFIX"
        pc_prefix="\${pcfiledir}/../$above"
    fi
    install -d "$include" "$lib/pkgconfig" "$lib/cmake/piecepick"
    install -m 644 "$out/piecepick.h" "$include/piecepick.h"
    install -m 644 "$out/piecepick.hpp" "$include/piecepick.hpp"
    install -m 644 "$out/libpiecepick.a" "$lib/libpiecepick.a"
    install -m 755 "$out/libpiecepick.so.$abi" "$lib/libpiecepick.so.$abi"
    ln -sf "libpiecepick.so.$abi" "$lib/libpiecepick.so"
    for file in pkgconfig/piecepick.pc cmake/piecepick/piecepick-config.cmake cmake/piecepick/piecepick-config-version.cmake; do
        name=${file##*/}
        case $name in *.pc) from=$here/$name.in ;; *) from=$here/cmake/$name.in ;; esac
        fill "$from" > "$lib/$file"
        chmod 644 "$lib/$file"
    done
    echo "piecepick $version: header in $include, libraries in $lib"
}

# The shared object is that to which the link points: one of another interface, which older programs need, stays.
take() {
    target=$(readlink "$lib/libpiecepick.so" || true)
    case $target in libpiecepick.so.[0-9]*) rm -f "$lib/$target" ;; esac
    rm -f "$include/piecepick.h" "$include/piecepick.hpp" "$lib/libpiecepick.a" "$lib/libpiecepick.so" "$lib/pkgconfig/piecepick.pc"
    rm -rf "$lib/cmake/piecepick"
    echo "piecepick: taken from $include and $lib"
}

case $#${1:-} in
0) put plain ;;
1--relocatable) put relocatable ;;
1--uninstall) take ;;
1--version) numbers && echo "$version" ;;
*) fail "usage: install.sh [--relocatable | --uninstall | --version]; its first lines say more" ;;
esac
