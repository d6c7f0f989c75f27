#!/usr/bin/env python3
"""Runs the built program with numbers that a hostile peer, or a hostile metainfo file, would choose.

    tools/hostile.py [--program FILE]

The program is crates/piecepick/out/piecepick, or FILE. It prints a row for each: what was sent, its size, how the run ended, and the
program's peak memory above that of a run with nothing sent. Memory has to stay within what was sent, one message of the longest kind, and
what the journal and a worker's log keep of a message; of a metainfo file within so many bytes for each of its own.
"""

from __future__ import annotations

import argparse
import ctypes
import os
import struct
import subprocess
import sys
import tempfile
from collections.abc import Iterator

ROOT = os.path.dirname(os.path.dirname(os.path.abspath(__file__)))
PROGRAM = os.path.join(ROOT, "crates/piecepick/out/piecepick")
TORRENT = os.path.join(ROOT, "crates/bt_cli_tests/data/single-file.torrent")
RECORDED = os.path.join(ROOT, "crates/bt_cli_tests/data/single-file-s0-transmission.bin")
MILLION = 1_000_000
LARGEST = 2**32 - 1
BLOCK = 16384
LONGEST = 2**20  # of a message whose torrent has few pieces
HELLO = 68


def frame(number: int, *words: int, length: int | None = None, tail: bytes = b"") -> bytes:
    body = struct.pack(f">B{len(words)}I", number, *words) + tail
    return struct.pack(">I", len(body) if length is None else length) + body


def once(bits: int, pieces: int) -> Iterator[tuple[str, bytes]]:
    """Single messages with a number at an edge."""
    yield "a length field of 2^32 - 1", frame(20, length=LARGEST)
    yield "a length field just over the longest message", frame(20, length=LONGEST + 1)
    yield "a message of the limit, cut off", frame(7, 0, 0, length=LONGEST)
    yield "a bitfield of the limit", frame(5, tail=bytes(LONGEST - 1))
    yield "a block of the limit", frame(7, 0, 0, tail=bytes(LONGEST - 9))
    for size in (0, bits - 1, bits + 1, BLOCK):
        yield f"a bitfield of {size} bytes ({bits} are right)", frame(5, tail=bytes(size))
    yield "a bitfield with each spare bit", frame(5, tail=b"\xff" * bits)
    for index in (pieces, 2**31, LARGEST):
        yield f"have {index}", frame(4, index)
        yield f"a block of piece {index}", frame(7, index, 0, tail=b"x")
    for begin in (1, BLOCK - 1, 2**31, LARGEST):
        yield f"a block at {begin}", frame(7, 0, begin, tail=b"x" * BLOCK)
    for size in (0, BLOCK + 1, 65_535):
        yield f"a block of {size:,} bytes", frame(7, 0, 0, tail=b"x" * size)


def many() -> Iterator[tuple[str, bytes, int]]:
    """Messages that come very often, with their number."""
    yield "a million keepalives", bytes(4) * MILLION, MILLION
    yield "a million unknown messages", frame(20, tail=b"x") * MILLION, MILLION
    yield "a million requests to us", frame(6, LARGEST, LARGEST, LARGEST) * MILLION, MILLION
    yield "a million cancels", frame(8, LARGEST, LARGEST, LARGEST) * MILLION, MILLION
    yield "a million chokes and unchokes", (frame(0) + frame(1)) * (MILLION // 2), MILLION
    yield "have of one piece, a million times", frame(4, 0) * MILLION, MILLION
    block = frame(7, 0, 0, tail=b"x" * BLOCK)
    yield "one block, a thousand times", block * 1000, 1000
    yield "the same, each behind an unknown message of 48 KiB", (frame(20, tail=bytes(3 * BLOCK)) + block) * 1000, 2000


def text(content: bytes) -> bytes:
    return b"%d:%s" % (len(content), content)


def metainfo(length: bytes = b"i1e", piece_length: bytes = b"i16384e", digests: int = 1, name: bytes = b"x", before: bytes = b"") -> bytes:
    pieces = text(bytes(20 * digests))
    return b"d4:infod" + before + b"6:length" + length + b"4:name" + text(name) + b"12:piece length" + piece_length + b"6:pieces" + pieces + b"ee"


def files(content: bytes) -> bytes:
    return b"d4:infod5:filesl" + content + b"e4:name1:x12:piece lengthi1048576e6:pieces" + text(bytes(20)) + b"ee"


def metainfos() -> Iterator[tuple[str, bytes]]:
    yield "one piece of one byte", metainfo()
    yield "a string of 2^63 bytes", b"d4:info9223372036854775808:"
    yield "a string of 10^30 bytes", b"1" + b"0" * 30 + b":"
    yield "a string that is a byte too short", b"d4:info" + text(bytes(MILLION))[:-1]
    for length in (2**63 - 1, 2**63, 10**1000):
        said = f"{length:,}" if length < 10**30 else "10^1000"
        yield f"content of {said} bytes, one digest", metainfo(b"i%de" % length)
    for length in (2**31, 2**31 + 1):
        yield f"a piece of {length:,} bytes", metainfo(b"i%de" % length, b"i%de" % length)
    for pieces in (2**32 - 1, 2**32):
        yield f"{pieces:,} pieces of one byte, one digest", metainfo(b"i%de" % pieces, b"i1e")
    yield "a million pieces and their digests", metainfo(b"i1000000e", b"i1e", MILLION)
    yield "a name of a million bytes", metainfo(name=b"x" * MILLION)
    for depth in (62, 63):
        yield f"{depth + 2} levels, one in the other", metainfo(before=b"1:a" + b"l" * depth + b"e" * depth)
    yield "a million lists, one in the other", b"l" * MILLION
    yield "a list of a million numbers", metainfo(before=b"1:al" + b"i0e" * MILLION + b"e")
    yield "a list of a million empty lists", metainfo(before=b"1:al" + b"le" * MILLION + b"e")
    yield "a million keys", metainfo(before=b"1:ad" + b"".join(b"7:%07d0:" % key for key in range(MILLION)) + b"e")
    yield "a million files of one byte", files(b"d6:lengthi1e4:pathl1:xee" * MILLION)
    yield "a file with a path of a million parts", files(b"d6:lengthi1e4:pathl" + b"1:x" * MILLION + b"ee")
    yield "two files of 2^63 - 1 bytes", files(b"d6:lengthi9223372036854775807e4:pathl1:xee" * 2)


# Runs its words in the background, behind a line with the number of their process. What a process is said to have had at most in memory
# counts that of the one that it was forked from, so this isn't the one that holds what is sent.
LAUNCH = """sh -c 'echo $$; exec "$@"' sh "$@" &"""
PR_SET_CHILD_SUBREAPER = 36


class Play:
    """How the program ended: its status, the line that tells it, its peak memory in bytes, and whether its journal is sound."""

    program = PROGRAM

    def __init__(self, words: list[str]) -> None:
        run = subprocess.run(["sh", "-c", LAUNCH, "sh", self.program, *words], capture_output=True, timeout=300)
        pid, out = run.stdout.decode().split("\n", 1)
        _, code, usage = os.wait4(int(pid), 0)
        self.status = os.waitstatus_to_exitcode(code)
        told = [
            line for line in (run.stderr.decode() + out).split("\n")
            if line.startswith(("stream 0", "metainfo", "file f", "memory", "pieces"))
        ]
        self.told = told[0] if told else ""
        self.peak = usage.ru_maxrss * 1024
        self.is_sound = "journal ok" in out


class Table:
    """The rows of one command."""

    def __init__(self, folder: str, words: list[str], statuses: tuple[int, ...]) -> None:
        self.path = os.path.join(folder, "sent")
        self.words, self.statuses = [*words, self.path], statuses
        self.least: int | None = None
        self.wrong = 0

    def row(self, name: str, sent: bytes, most: int) -> None:
        """Most is how much memory it may take, in bytes."""
        with open(self.path, "wb") as file:
            file.write(sent)
        play = Play(self.words)
        if self.least is None:
            self.least = play.peak
        above = play.peak - self.least
        is_clear = play.status in self.statuses and above <= most and (play.is_sound or self.words[0] == "info")
        self.wrong += not is_clear
        print(f"| {name} | {len(sent):,} | {play.told}, status {play.status} | {above // 1024:,} |" + ("" if is_clear else " wrong"))


SLACK = 2**20  # by which the memory of two like runs differs
PER_MESSAGE = 600  # two entries and two marks, in tables that double as they grow
PER_BYTE = 3  # of a metainfo file: it itself, and what the torrent keeps and prints of it


def main() -> int:
    asked = argparse.ArgumentParser(description="Runs the program with what a hostile peer or metainfo file would have.")
    asked.add_argument("--program", default=PROGRAM)
    Play.program = asked.parse_args().program
    with open(RECORDED, "rb") as file:
        hello = file.read(HELLO)
    with open(TORRENT, "rb") as file:
        told = file.read()
    at = told.index(b"6:pieces") + 8
    pieces = int(told[at:told.index(b":", at)]) // 20
    ctypes.CDLL(None).prctl(PR_SET_CHILD_SUBREAPER, 1)  # so that the program is waited for here
    print("| Sent | Bytes | Ended | Memory above, KiB |\n|---|---|---|---|")
    with tempfile.TemporaryDirectory() as folder:
        peer = Table(folder, ["run", TORRENT], (0, 1))
        peer.row("nothing but a handshake", hello, 0)
        for name, sent in once(-(-pieces // 8), pieces):
            peer.row(name, hello + sent, 3 * len(sent) + SLACK)
        for name, sent, messages in many():
            peer.row(name, hello + sent, 3 * len(sent) + SLACK + PER_MESSAGE * messages)
        described = Table(folder, ["info"], (0, 3))
        for name, sent in metainfos():
            described.row(name, sent, PER_BYTE * len(sent) + SLACK)
    wrong = peer.wrong + described.wrong
    print("all ends are clear" if wrong == 0 else f"{wrong} ends are not clear")
    return 1 if wrong else 0


if __name__ == "__main__":
    sys.exit(main())
