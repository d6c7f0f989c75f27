#!/bin/sh
# Packs what build.sh made, as install.sh would install it, into clients/out/piecepick-VERSION-x86_64-linux.tar.gz, and prints the SHA-256
# of that. The folder in it may be unpacked anywhere. It needs GNU tar and readelf. With the same tools the result is the same, byte for
# byte, in any folder at any time: so whoever builds too can compare.
#
#   clients/dist.sh
set -eu
export LC_ALL=C
unset TAR_OPTIONS GZIP
here=$(cd "$(dirname "$0")" && pwd)
out=${PIECEPICK_OUT:-$here/out}
version=$("$here/install.sh" --version)
case $(readelf -h "$out/libpiecepick.so" | sed -n 's/.*Machine: *//p') in
*X86-64) machine=x86_64 ;;
AArch64) machine=aarch64 ;;
*) echo "dist.sh: clients/out/libpiecepick.so is for no known processor" >&2; exit 1 ;;
esac
name=piecepick-$version-$machine-linux
work=$(mktemp -d)
trap 'rm -rf "$work"' EXIT
DESTDIR=$work PREFIX=/$name LIBDIR='' "$here/install.sh" --relocatable > /dev/null
for file in "$here"/../LICENSE*; do
    [ ! -f "$file" ] || install -m 644 "$file" "$work/$name"
done
# Names in order, one owner, one time (1 January 2000), and no name or time from gzip.
tar --create --format=ustar --sort=name --owner=0 --group=0 --numeric-owner --mode=u=rwX,go=rX --mtime=@946684800 \
    --directory="$work" --file="$work/$name.tar" "$name"
gzip -n -9 "$work/$name.tar"
mv "$work/$name.tar.gz" "$out/"
cd "$out"
ls -l "$name.tar.gz"
sha256sum "$name.tar.gz"
