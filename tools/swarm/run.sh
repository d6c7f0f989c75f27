#!/bin/sh
# Runs scenarios at full size, one after the other on one core, and writes their tables and pictures into docs.
#
# usage: run.sh [SCENARIO ..]        all of them where none is named, which takes more than an hour
#
# Where SWARM_LIBTORRENT names the folder of ../libtorrent/build.sh, libtorrent's own picker is among the rules, as in the tables of the page.
set -eu
cd "$(dirname "$0")"
if [ -n "${SWARM_LIBTORRENT:-}" ]; then
    cargo build --release --offline --features libtorrent
else
    cargo build --release --offline
fi
if [ $# -gt 0 ]; then
    printf '%s\n' "$@"
else
    target/release/swarm list | sed -n 's/^scenario \([a-z]*\) .*/\1/p'
fi | while read -r name; do
    target/release/swarm page "$name" < /dev/null
done
