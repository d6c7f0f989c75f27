#!/usr/bin/env python3
"""Feeds the built program mutated recordings, metainfo files and random scripts.

    tools/fuzz.py [INPUTS [SEED]] [--program FILE] [--open]
    tools/fuzz.py picks [N [SEED]] [--program FILE | --library] [--open]

10,000 inputs and the seed 1 where they aren't said. Each run has to end by a status of its command's list (docs/GUIDE.md), without a
signal. A run of recordings has to find its journal sound, and a script has to print just the replies of the plain model (tools/model.py).
An input that goes wrong is kept in the folder that is printed.

With `picks` random scripts of small torrents are played until N replies to `next` were judged, 100,000 where N isn't said. Each reply
of a script has to be that of the model. The program is crates/piecepick/out/piecepick, or FILE. With `--library` the calls are made at the
library instead (clients/build.sh), which is quicker. Then the rules also bound the askers of a block, and let greater depths be told.

With `--open` the rules also say how many pieces may be open, below how many blocks in flight endgame asks a peer for one more, and whether it
waits for shown pieces alone. The program or the library has to know these.
"""

from __future__ import annotations

import argparse
import concurrent.futures
import functools
import os
import random
import shutil
import struct
import subprocess
import sys
import tempfile
import time
from collections import Counter
from collections.abc import Callable
from typing import NamedTuple

import picks
from model import MOST_OPEN, MOST_TOLD_DEPTH

ROOT = os.path.dirname(os.path.dirname(os.path.abspath(__file__)))
PROGRAM = os.path.join(ROOT, "crates/piecepick/out/piecepick")
DATA = os.path.join(ROOT, "crates/bt_cli_tests/data")
RECORDINGS = [
    ("single-file.torrent", ["single-file-s0-transmission.bin", "single-file-s1-aria2.bin"]),
    ("multi-file.torrent", ["multi-file-s0-libtorrent-partial.bin", "multi-file-s1-libtorrent-partial.bin", "multi-file-s2-rtorrent.bin"]),
    ("one-piece.torrent", ["one-piece.stream"]),
    ("three-pieces.torrent", ["three-pieces-0.stream", "three-pieces-1.stream"]),
]
METAINFO = ["two-files.torrent", "file-tree.torrent", "single-file.torrent", "multi-file.torrent"]
EDGES = [0, 1, 2, 4, 5, 9, 13, 16383, 16384, 16385, 131072, 2**31 - 1, 2**31, 2**32 - 1]
HELLO = 68


def load(folder: str, name: str) -> bytes:
    with open(os.path.join(folder, name), "rb") as file:
        return file.read()


def frames(stream: bytes) -> list[bytes]:
    """The handshake, then the messages with their lengths."""
    parts, at = [stream[:HELLO]], HELLO
    while at + 4 <= len(stream):
        end = at + 4 + struct.unpack(">I", stream[at:at + 4])[0]
        parts.append(stream[at:end])
        at = end
    return parts


def made_frame(rng: random.Random) -> bytes:
    """A message by the protocol's form, with numbers that a hostile peer would choose."""
    number = rng.choice([0, 1, 2, 3, 4, 5, 6, 7, 8, 9, 20, 255])
    body = b"".join(struct.pack(">I", rng.choice(EDGES)) for _ in range(rng.randrange(4)))
    body += rng.randbytes(rng.choice([0, 0, 1, 3, 40]))
    length = rng.choice([1 + len(body)] * 4 + EDGES)
    return struct.pack(">IB", length, number) + body


def mutate_frames(rng: random.Random, stream: bytes) -> bytes:
    parts = frames(stream)
    for _ in range(rng.randrange(1, 6)):
        at = rng.randrange(len(parts))
        what = rng.randrange(6)
        if what == 0:
            del parts[at]
        elif what == 1:
            parts.insert(at, rng.choice(parts) if parts else b"")
        elif what == 2:
            parts.insert(at, made_frame(rng))
        elif what == 3:
            other = rng.randrange(len(parts))
            parts[at], parts[other] = parts[other], parts[at]
        elif what == 4:
            parts = parts[:at + 1]
        else:
            parts[at] = mutate_bytes(rng, parts[at])
        if not parts:
            parts = [b""]
    return b"".join(parts)


def mutate_bytes(rng: random.Random, given: bytes) -> bytes:
    text = bytearray(given)
    for _ in range(rng.randrange(1, 5)):
        at = rng.randrange(len(text) + 1)
        what = rng.randrange(4)
        if what == 0 and at < len(text):
            text[at] = rng.randrange(256)
        elif what == 1:
            del text[at:at + rng.choice([1, 1, 2, 17])]
        elif what == 2:
            text[at:at] = rng.randbytes(rng.choice([1, 1, 2, 17]))
        else:
            text[at:at] = text[at:at + rng.choice([1, 5, 30])]
    return bytes(text)


def recording(rng: random.Random, folder: str) -> tuple[list[str], bytes]:
    metainfo, names = rng.choice(RECORDINGS)
    words = [rng.choice(["serial", "run"]), os.path.join(DATA, metainfo)]
    for i, name in enumerate(names):
        stream = load(DATA, name)
        if rng.randrange(4):
            stream = rng.choice([mutate_frames, mutate_frames, mutate_bytes])(rng, stream)
        path = os.path.join(folder, f"stream-{i}")
        with open(path, "wb") as file:
            file.write(stream)
        words.append(path)
    words += ["--seed", str(rng.randrange(2**64)), "--depth", str(rng.randrange(1, 65))]
    if words[0] == "run":
        words += ["--checkers", str(rng.randrange(1, 9))]
    return words, b""


def metainfo(rng: random.Random, folder: str) -> tuple[list[str], bytes]:
    name = rng.choice(METAINFO)
    path = os.path.join(folder, "metainfo")
    with open(path, "wb") as file:
        file.write(mutate_bytes(rng, load(DATA, name)))
    return ["info", path], b""


def number(rng: random.Random) -> str:
    return str(rng.choice(EDGES + [rng.randrange(4)] * 20 + [-1, 2**64]))


def line(rng: random.Random) -> str:
    worker = str(rng.choice([0, 0, 0, 1, 1, 2, 3]))
    words: list[Callable[[], str]] = [
        lambda: "join", lambda: "leave", lambda: "choke", lambda: "unchoke",
        lambda: "bits " + rng.choice(["e0", "80", "00", "20", "c0", "ff", "e000", ""]),
        lambda: "have " + number(rng), lambda: f"lack {rng.randrange(4)}", lambda: "lack " + number(rng),
        lambda: "next " + str(rng.randrange(2**64)), lambda: "next " + number(rng),
        lambda: f"block {number(rng)} {number(rng)} " + rng.choice(["616263", "616263", "61", "616264", "", "6"]),
        lambda: "settle " + number(rng), lambda: "want " + rng.choice(["e0", "40", "00", "c0", "e1"]),
        lambda: "haves " + rng.choice(["e0", "40", "00", "20", "e1", "e000", ""]),
        lambda: f"depth {rng.choice([0, 1, 1, 2, 3, 64, 65])}", lambda: "depth " + number(rng),
        lambda: f"release {rng.randrange(4)} 0", lambda: f"release {number(rng)} {number(rng)}",
        lambda: f"late {rng.randrange(4)} 0", lambda: f"late {number(rng)} {number(rng)}",
        lambda: f"level {rng.randrange(4)} {rng.randrange(9)}", lambda: f"level {number(rng)} {number(rng)}",
        lambda: "levels " + rng.choice(["444", "701", "070", "000", "448", "44", "4444", "4x4", ""]),
        lambda: "inorder " + rng.choice(["yes", "yes", "no", "maybe"]),
        lambda: f"inorderfrom {rng.randrange(10)}", lambda: "inorderfrom " + number(rng),
        lambda: f"reach {rng.choice([0, 3, 4, 5, 6, 7, 7, 8, 255])}", lambda: "reach " + number(rng),
        lambda: "alone " + rng.choice(["yes", "yes", "no", "maybe"]),
    ]
    return worker + " " + rng.choice(words)()


def script(rng: random.Random, folder: str, with_open: bool = False) -> tuple[list[str], bytes]:
    head = load(os.path.join(ROOT, "crates/piecepick"), "stdin").split(b"\n")[0]
    words = head.split(b" ")
    words[3] = str(rng.randrange(1, 4)).encode()
    lines = [b" ".join(words)]
    if rng.randrange(3) == 0:
        rules = f"rules {rng.choice([1, 2, 5, 64, 65])} {rng.choice([0, 1, 3, 4])}"
        if with_open:
            more = [rng.choice([0, 1, 2, MOST_OPEN, MOST_OPEN + 1]), rng.choice([0, 1, 2, MOST_TOLD_DEPTH, MOST_TOLD_DEPTH + 1])]
            words_behind = [*map(str, more), rng.choice(["yes", "yes", "no", "1"]), "yes"]
            rules = " ".join([rules, *words_behind[:rng.choice([0, 1, 1, 2, 2, 3, 3, 3, 4])]])
        lines.append(rules.encode())
    lines += [line(rng).encode() for _ in range(rng.randrange(60))]
    text = b"\n".join(lines) + b"\n"
    return ["script"], mutate_bytes(rng, text) if rng.randrange(4) == 0 else text


def judge_script(stdin: bytes, done: subprocess.CompletedProcess[bytes]) -> str | None:
    """A script has to print the replies of the model, and to end by the status that it has."""
    replies, status = picks.expected(stdin)
    if done.stdout.decode("latin-1").split("\n")[:-1] != replies:
        return "not the replies of the model"
    if done.returncode != status or (done.stderr == b"") != (status == 0) or status != 0 and not done.stderr.startswith(b"line "):
        return f"status {done.returncode}"
    return None


def judge(words: list[str], stdin: bytes, done: subprocess.CompletedProcess[bytes]) -> str | None:
    status, out, err = done.returncode, done.stdout, done.stderr
    if status < 0:
        return f"signal {-status}"
    if words[0] in ("serial", "run"):
        if status not in (0, 1):
            return f"status {status}"
        return None if b"journal ok\n" in out else "no sound journal"
    if words[0] == "info":
        if status == 3 and err.startswith(b"metainfo fault ") and out == b"":
            return None
        return None if status == 0 and err == b"" else f"status {status}"
    return judge_script(stdin, done)


class Tried(NamedTuple):
    """What came of one input: its command, the status if it ended, and what is wrong."""

    number: int
    command: str
    status: int | None
    fault: str | None


def try_one(program: str, seed: int, with_open: bool, index: int) -> Tried:
    """Feeds the input of this number."""
    rng = random.Random(f"{seed} {index}")
    folder = tempfile.mkdtemp(prefix="fuzz-")
    kinds: list[Callable[[random.Random, str], tuple[list[str], bytes]]] = [
        recording, recording, metainfo, functools.partial(script, with_open=with_open),
    ]  # fmt: skip
    words, stdin = rng.choice(kinds)(rng, folder)
    status: int | None = None
    try:
        done = subprocess.run([program, *words], input=stdin, capture_output=True, timeout=60)
        fault = judge(words, stdin, done)
        status = done.returncode
    except subprocess.TimeoutExpired:
        fault = "no end within a minute"
    if fault:
        with open(os.path.join(folder, "command"), "wb") as file:
            file.write(" ".join(words).encode() + b"\n" + stdin)
        return Tried(index, words[0], status, f"{fault}: {folder}")
    shutil.rmtree(folder)
    return Tried(index, words[0], status, None)


def mutate(program: str, inputs: int, seed: int, with_open: bool) -> bool:
    """Feeds so many inputs. Gives whether none of them went wrong."""
    begun, wrong = time.time(), 0
    counts: Counter[tuple[str, int | None]] = Counter()
    with concurrent.futures.ThreadPoolExecutor(os.cpu_count()) as pool:
        for tried in pool.map(functools.partial(try_one, program, seed, with_open), range(inputs)):
            counts[tried.command, tried.status] += 1
            if tried.fault:
                wrong += 1
                print(f"input {tried.number}, {tried.command}: {tried.fault}")
    for (command, status), count in sorted(counts.items(), key=str):
        print(f"{command}, status {status}: {count}")
    print(f"{inputs} inputs in {time.time() - begun:.0f} s, {wrong} of them wrong")
    return wrong == 0


def main() -> int:
    words = argparse.ArgumentParser(description=__doc__.splitlines()[0])
    words.add_argument("words", nargs="*", metavar="[picks] [N [SEED]]")
    words.add_argument("--program", default=PROGRAM)
    words.add_argument("--library", action="store_true")
    words.add_argument("--open", action="store_true")
    asked = words.parse_args()
    just_picks = asked.words[:1] == ["picks"]
    numbers = [int(word) for word in asked.words[just_picks:]]
    count, seed = [*numbers, *[100_000 if just_picks else 10_000, 1][len(numbers):]]
    program = os.path.abspath(asked.program)
    if not just_picks:
        return 0 if mutate(program, count, seed, asked.open) else 1
    if asked.library:
        import library_picks

        return 0 if picks.judge_picks(functools.partial(library_picks.play, with_open=asked.open), count, str(seed)) else 1
    return 0 if picks.judge_picks(functools.partial(picks.play, program, with_open=asked.open), count, str(seed)) else 1


if __name__ == "__main__":
    sys.exit(main())
