#!/bin/sh
# Runs the C example, the C tests and the C++ example for aarch64 under an emulator, with the library of clients/out/aarch64, or else that of the
# folder `release`. It needs Debian's packages gcc-aarch64-linux-gnu, g++-aarch64-linux-gnu and qemu-user.
#
#   clients/try_aarch64.sh
set -eu
here=$(cd "$(dirname "$0")" && pwd)
fail() { echo "try_aarch64.sh: $1" >&2; exit 1; }
for tool in aarch64-linux-gnu-gcc aarch64-linux-gnu-g++ qemu-aarch64; do
    command -v $tool > /dev/null || fail "$tool isn't on this machine"
done
library=$here/out/aarch64
[ -f "$library/libpiecepick.a" ] || library=$here/../release/aarch64-linux/lib
[ -f "$library/libpiecepick.a" ] || fail "there is no library for aarch64: clients/build.sh aarch64 builds one"
work=$(mktemp -d)
trap 'rm -rf "$work"' EXIT
cd "$work"
PYTHONPATH="$here" python3 -B - <<'PY'
import hashlib
import random
from bencode import metainfo
content = random.Random(1).randbytes(9 * 32768 + 12345)
file = metainfo(b"content", content, 32768)
open("content", "wb").write(content)
open("try.torrent", "wb").write(file)
open("infohash", "w").write(hashlib.sha1(file[file.index(b"4:info") + 6 : -1]).hexdigest())
PY
emulated() { qemu-aarch64 -L /usr/aarch64-linux-gnu "$@"; }
aarch64-linux-gnu-gcc -std=c11 -Wall -Wextra -Werror "-I$here" "$here/example.c" "$library/libpiecepick.a" -o example
emulated ./example try.torrent content
aarch64-linux-gnu-gcc -std=c11 -Wall -Wextra -Werror "-I$here" "$here/tests.c" "$library/libpiecepick.a" -lpthread \
    -Wl,--wrap=malloc,--wrap=realloc -o tests
emulated ./tests try.torrent content "$(cat infohash)" content
aarch64-linux-gnu-g++ -std=c++17 -Wall -Wextra -Werror "-I$here" "$here/example.cpp" "$library/libpiecepick.a" -o example
emulated ./example try.torrent content
echo "aarch64: well"
