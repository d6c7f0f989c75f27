#!/usr/bin/env python3
"""Times SHA-1 on one processor: four pieces at once by the C library, the same library one by one, hashlib, openssl and sha1sum.

    clients/build.sh
    tools/hashing.py [KIBIBYTES [RUNS]]

Four pieces of so many KiB, 256 where it isn't said, are hashed as often as RUNS says, 200 where it isn't said; the best time counts. The
library hashes one by one where the lengths differ, so a byte is left out there. What `openssl speed` and `sha1sum` say is theirs: the
second hashes a file of 256 MiB in memory (/dev/shm), and its start is counted too.
"""

from __future__ import annotations

import hashlib
import os
import shutil
import subprocess
import sys
import time
from collections.abc import Callable
from pathlib import Path

HERE = Path(__file__).resolve().parent
sys.path.insert(0, str(HERE.parent / "clients" / "python"))
from piecepick import hash_four  # noqa: E402

length = 1024 * (int(sys.argv[1]) if len(sys.argv) > 1 else 256)
runs = int(sys.argv[2]) if len(sys.argv) > 2 else 200
os.sched_setaffinity(0, {min(os.sched_getaffinity(0))})
pieces = [os.urandom(length) for _ in range(4)]
shorter = [*pieces[:3], pieces[3][:-1]]


def best(work: Callable[[list[bytes]], object], given: list[bytes], times: int = runs) -> float:
    """The megabytes a second of the best run."""
    least = float("inf")
    for _ in range(times):
        begin = time.perf_counter()
        work(given)
        least = min(least, time.perf_counter() - begin)
    return sum(map(len, given)) / least / 1e6


def one_by_one(given: list[bytes]) -> list[bytes]:
    return [hashlib.sha1(piece).digest() for piece in given]


assert hash_four(*pieces) == one_by_one(pieces) and hash_four(*shorter) == one_by_one(shorter)
print(f"four at once:        {best(lambda given: hash_four(*given), pieces):6.0f} MB/s")
print(f"one by one:          {best(lambda given: hash_four(*given), shorter):6.0f} MB/s")
print(f"hashlib, one by one: {best(one_by_one, pieces):6.0f} MB/s")
if shutil.which("openssl"):
    said = subprocess.run(["openssl", "speed", "-seconds", "2", "-bytes", str(length), "sha1"], capture_output=True, text=True).stdout
    print(f"openssl speed:       {float(said.split()[-1].rstrip('k')) / 1000:6.0f} MB/s")
if shutil.which("sha1sum"):
    name = f"/dev/shm/hashing-{os.getpid()}"
    try:
        Path(name).write_bytes(os.urandom(1 << 28))
        speed = best(lambda given: subprocess.run(["sha1sum", name], check=True, stdout=subprocess.DEVNULL), [bytes(1 << 28)], 3)
        print(f"sha1sum:             {speed:6.0f} MB/s")
    finally:
        os.unlink(name)
