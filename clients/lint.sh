#!/bin/sh
# Runs the checkers of Python, shell and Rust that are on this machine over clients and tools, and says which aren't there. It needs no
# library and no network, and writes nothing into the folders.
#
#   clients/lint.sh        the status is 1 where a checker finds something
set -eu
here=$(cd "$(dirname "$0")" && pwd)
root=$(dirname "$here")
work=$(mktemp -d)
trap 'rm -rf "$work"' EXIT
trap 'exit 1' HUP INT TERM
found=0
bad() { echo "lint.sh: $1 isn't clean" >&2; found=1; }

# has NAME WORD..: whether the command that the words are works here.
has() {
    name=$1; shift
    "$@" > /dev/null 2>&1 || { echo "$name isn't here: passed over"; return 1; }
}

# typed FOLDER WORD..: mypy in a folder of the repository, with the modules that the programs of clients and tools find.
typed() (
    cd "$root/$1"; shift
    MYPYPATH=$here:$here/python mypy --strict --no-error-summary --cache-dir="$work/mypy" "$@"
)
if has mypy mypy --version; then
    typed clients -p piecepick -p fetch || bad "mypy, of the packages,"
    typed clients bencode.py downloads.py exports.py others.py player_libtorrent.py python/backend.py || bad "mypy, of the programs in clients,"
    typed clients/transmission "$here"/transmission/*.py || bad "mypy, of clients/transmission,"
    typed clients/python/tests "$here"/python/tests/*.py || bad "mypy, of the package's tests,"
    typed tools "$root"/tools/*.py || bad "mypy, of tools,"
fi

if has flake8 flake8 --version; then
    flake8 --config "$here/flake8.ini" "$here" "$root/tools" || bad flake8
fi
if has shellcheck shellcheck --version; then
    shellcheck "$root/piecepick" "$root/test" "$root/.ci/run" "$here"/*.sh "$here"/transmission/*.sh "$root"/tools/*.sh "$root"/tools/*/*.sh || bad shellcheck
fi

if has doxygen doxygen --version; then
    printf 'INPUT = %s\nOUTPUT_DIRECTORY = %s\nGENERATE_HTML = NO\nGENERATE_LATEX = NO\nGENERATE_XML = YES\nQUIET = YES\n' \
        "$here/piecepick.h" "$work/doxygen" > "$work/Doxyfile"
    faults=$(doxygen "$work/Doxyfile" 2>&1) || bad doxygen
    [ -z "$faults" ] || { echo "$faults" >&2; bad doxygen; }
fi

# rust FOLDER: clippy over a crate and its tests. Nothing is linked, so an empty file stands for the library.
rust() (
    : > "$work/libpiecepick.a"
    export CARGO_TARGET_DIR="$work/target" PIECEPICK_LIB_DIR="$work"
    cd "$root/$1" && cargo clippy --offline --quiet --all-targets -- -D warnings
)
if has "cargo clippy" cargo clippy --version; then
    rust clients/rust || bad "clippy, of clients/rust,"
    rust tools/swarm || bad "clippy, of tools/swarm,"
fi
[ "$found" = 0 ] || exit 1
echo "lint.sh: nothing found"
