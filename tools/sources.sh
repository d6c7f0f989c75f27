#!/bin/sh
# Prints a SHA-256 over the names and contents of the files that something is made of. Where a file of them changes, it is another one.
#
#   tools/sources.sh program     all crates
#   tools/sources.sh library     all crates, and what clients/ packs with the library
set -eu
export LC_ALL=C
cd -- "$(dirname -- "$(readlink -f -- "$0")")/.."
case $#${1:-} in
1program) set -- ;;
1library)
    set -- clients/piecepick.h clients/piecepick.hpp clients/piecepick.map clients/piecepick.pc.in clients/cmake \
        clients/heap.c clients/build.sh clients/install.sh clients/dist.sh clients/python/backend.py clients/python/pyproject.toml clients/python/README.md \
        clients/python/piecepick
    ;;
*) echo "usage: tools/sources.sh program|library" >&2; exit 2 ;;
esac
find crates.txt HANDLES crates/*/src crates/*/specs crates/*/proofs "$@" -name __pycache__ -prune -o -type f -print0 |
    sort -z | xargs -0 sha256sum | sha256sum | cut -d ' ' -f 1
