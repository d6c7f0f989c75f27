#!/bin/sh
# Builds two things of libtorrent-rasterbar 2.0.11's picker: bench_libtorrent, the picker alone on the workload of crates/bench/README.md, and
# libswarm_picker.a, the picker as one more rule of tools/swarm. Takes Debian's source package of the suite trixie and boost's headers by a private
# apt folder, so that the machine's own settings stay; about half a minute after the download.
# usage: build.sh FOLDER
set -eu
here=$(cd "$(dirname "$0")" && pwd)
mkdir -p "$1" && cd "$1"
mkdir -p apt/lists/partial apt/parts obj
sed 's/^Types:.*/Types: deb-src/; s/bookworm/trixie/g' /etc/apt/sources.list.d/debian.sources >apt/parts/source.sources
# by_sources WORD..: apt-get with these sources alone.
by_sources() {
    apt-get -o Dir::Etc::sourcelist=/dev/null -o "Dir::Etc::sourceparts=$PWD/apt/parts" -o "Dir::State::lists=$PWD/apt/lists" -qq "$@"
}
[ -d lt ] || { by_sources update; by_sources source --download-only libtorrent-rasterbar; dpkg-source -x libtorrent-rasterbar_2.0.11*.dsc lt; }
[ -d boost ] || { apt-get -qq update; apt-get -qq download libboost1.74-dev; dpkg-deb -x libboost1.74-dev*.deb boost; }
compile() {
    g++ -std=c++17 -O2 -DNDEBUG -ffunction-sections -fdata-sections -Ilt/include -Ilt/deps/try_signal -isystem boost/usr/include "$@"
}
shift
for f in piece_picker random performance_counters bitfield error_code; do
    [ -f obj/$f.o ] || compile -c lt/src/$f.cpp -o obj/$f.o
    set -- "$@" obj/$f.o
done
compile -c "$here/bench_libtorrent.cpp" -o obj/bench.o
compile -Wall -Wextra -c "$here/swarm_picker.cpp" -o obj/swarm_picker.o
g++ -Wl,--gc-sections obj/bench.o "$@" -o bench_libtorrent -lpthread
rm -f libswarm_picker.a
ar rcs libswarm_picker.a obj/swarm_picker.o "$@"
echo "$PWD/bench_libtorrent 10000 --opts strict --depth 5"
echo "SWARM_LIBTORRENT=$PWD cargo run --release --offline --features libtorrent -- run small --rule 'libtorrent itself'"
