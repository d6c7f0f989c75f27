#!/bin/sh
# Fetches Debian's source of transmission 4.1, puts our patch into it, and builds transmission-daemon twice: with its own picker and with ours.
#
#   build.sh FOLDER             builds FOLDER/own and FOLDER/ours, of FOLDER/source; the source is fetched where it isn't there
#   build.sh --same FOLDER      builds FOLDER/same of the source without the patch too, and compares it with FOLDER/own, which has to be the same
#   build.sh --test FOLDER      runs the test of the glue, and a short download by both builds (as root)
#
# It needs apt-get with Debian's mirror, dpkg-dev, cmake, a C++ compiler and the libraries that transmission needs (README.md names them). What
# apt-get reads and writes is in FOLDER/apt, so the system's own lists stay as they are. JOBS is how many compilers run at a time (2), and LIBRARY the
# folder with the library and its headers (that of the release).
set -eu
here=$(cd "$(dirname "$0")" && pwd)
jobs=${JOBS:-2}
library=${LIBRARY:-$here/../../release/x86_64-linux}
version=4.1.0~beta2+dfsg-3+deb13u2
suite=${SUITE:-trixie}

die() { echo "build.sh: $1" >&2; exit 1; }

# fetch: the source package, unpacked into `original`.
fetch() {
    mkdir -p apt/lists/partial apt/cache/archives/partial
    keys=/usr/share/keyrings/debian-archive-keyring.gpg
    {
        echo "deb-src [signed-by=$keys] http://deb.debian.org/debian $suite main"
        echo "deb-src [signed-by=$keys] http://deb.debian.org/debian-security $suite-security main"
    } > apt/sources.list
    set -- -o "Dir::Etc::sourcelist=$PWD/apt/sources.list" -o Dir::Etc::sourceparts=/dev/null -o "Dir::State::lists=$PWD/apt/lists" \
        -o "Dir::Cache=$PWD/apt/cache" -o APT::Sandbox::User=root
    apt-get "$@" -q update
    apt-get "$@" -q source --download-only "transmission=$version"
    dpkg-source -x "transmission_$version.dsc" original
}

# build NAME OPTION: a build of `source` with the option on or off.
build() {
    cmake -S source -B "$1" -DCMAKE_BUILD_TYPE=Release -DCMAKE_C_FLAGS_RELEASE='-O2 -DNDEBUG' -DCMAKE_CXX_FLAGS_RELEASE='-O2 -DNDEBUG' \
        -DENABLE_GTK=OFF -DENABLE_QT=OFF -DENABLE_TESTS=OFF -DENABLE_NLS=OFF -DINSTALL_WEB=OFF -DINSTALL_DOC=OFF -DENABLE_DEPRECATED=ON \
        -DWITH_CRYPTO=openssl -DRUN_CLANG_TIDY=OFF -DCMAKE_PREFIX_PATH="$library" ${2:+"-DENABLE_PIECEPICK=$2"} > "$1.log" 2>&1 \
        || die "cmake failed: see $PWD/$1.log"
    nice -n 10 make -C "$1" -j "$jobs" transmission-daemon transmission-remote >> "$1.log" 2>&1 || die "make failed: see $PWD/$1.log"
}

# patch: the tree `source` with our edits, whose files keep their times where they are as before.
patch_source() {
    rm -rf fresh
    cp -a original fresh
    "$here/edit.py" fresh
    mkdir -p source
    (cd fresh && find . -type d -exec mkdir -p ../source/{} \; -o -type f -print) | while read -r file; do
        cmp -s "fresh/$file" "source/$file" || cp -p "fresh/$file" "source/$file"
    done
    rm -rf fresh
}

# same: the source without the patch, built at the same place as the one with it, is the same program.
same() {
    mv own own-of-patch
    mv source patched
    cp -a original source
    build own ''
    mv own same
    mv own-of-patch own
    rm -rf source
    mv patched source
    cmp own/daemon/transmission-daemon same/daemon/transmission-daemon || die "the option is off, and the program is another one"
    echo "with the option off the program is the same, bit for bit"
}

# test_glue: the test of the glue is compiled and linked as the daemon was, and run in a network that has nobody.
test_glue() {
    flags() { sed -n "s/^$1 = //p" ours/libtransmission/CMakeFiles/transmission.dir/flags.make; }
    eval "c++ -c -o test_glue.o $(flags CXX_DEFINES) $(flags CXX_INCLUDES) $(flags CXX_FLAGS) -w '$here/test_glue.cc'"
    link=$(sed -e 's|"CMakeFiles/[^"]*"||g; s|CMakeFiles/[^ ]*\.o||g; s|-o transmission-daemon|-o ../../test_glue ../../test_glue.o|' \
        ours/daemon/CMakeFiles/transmission-daemon.dir/link.txt)
    (cd ours/daemon && eval "$link")
    rm -rf test-settings
    mkdir test-settings
    unshare --net ./test_glue test-settings
}

mode=build
case ${1:-} in --*) mode=${1#--}; shift ;; esac
[ $# = 1 ] || die "usage: build.sh [--same|--test] FOLDER"
mkdir -p "$1"
cd "$1"
[ -d original ] || fetch
case $mode in
    build) patch_source; build own OFF; build ours ON ;;
    same) same ;;
    test) test_glue; python3 "$here/scenes.py" . quick --times 1 ;;
    *) die "no such option: --$mode" ;;
esac
