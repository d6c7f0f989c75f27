#!/bin/sh
# Puts the library of the folder `release` into clients/out, where build.sh would put it. It takes no toolchain. The release has to
# have the headers at hand: else the library is another one, and build.sh builds it.
#
#   clients/take.sh
set -eu
here=$(cd "$(dirname "$0")" && pwd)
release=$here/../release/$(uname -m)-linux
fail() { echo "take.sh: $1; clients/build.sh proves and builds it" >&2; exit 1; }
[ "$(uname -s)" = Linux ] || fail "the release has libraries for Linux alone"
[ -f "$release/lib/libpiecepick.a" ] || fail "there is no ${release#"$here/../"}/lib/libpiecepick.a"
for header in piecepick.h piecepick.hpp; do
    cmp -s "$release/include/$header" "$here/$header" || fail "the release has another $header"
done
mkdir -p "$here/out"
rm -f "$here"/out/libpiecepick.*
cp -P "$release"/lib/libpiecepick.* "$release"/include/piecepick.h* "$here/out/"
