#!/usr/bin/env python3
"""Tells what a peer's message costs the built program, by torrents of more and more pieces.

    tools/messages.py [RUNS]
    tools/messages.py haves [RUNS]

Plays a peer that sends a handshake and then so many messages of one kind, by `serial` and by `run`, and tells the processor time above
that of the handshake alone: for each message, and for each byte that the peer sent.

A have that its peer has sent before changes nothing, and a peer of 1,000 pieces has no more than 1,000 new ones to tell of. So with
`haves` 64 peers, the most of a run, send 1,000 haves each by `serial`, all of pieces that are new to their peer: as many on each
torrent. They tell of the same 1,000 pieces, or of as many different ones as there are. The time is that above 64 handshakes alone.

Each figure is the least of RUNS runs, 3 where it isn't said. `./piecepick --version` builds the program.
"""

from __future__ import annotations

import hashlib
import os
import resource
import struct
import subprocess
import sys
import tempfile

ROOT = os.path.dirname(os.path.dirname(os.path.abspath(__file__)))
PROGRAM = os.path.join(ROOT, "crates/piecepick/out/piecepick")
PIECES = (1_000, 100_000, 1_000_000)
COUNT = 20_000
PIECES_OF_HAVES = (1_000, 10_000, 100_000)
PEERS = 64
EACH = 1_000


def metainfo(pieces: int) -> tuple[bytes, bytes]:
    """A torrent of so many pieces of one block, and its infohash."""
    digests = hashlib.sha1(bytes(16384)).digest() * pieces
    info = b"d6:lengthi%de4:name5:zeros12:piece lengthi16384e6:pieces%d:%se" % (16384 * pieces, len(digests), digests)
    return b"d4:info" + info + b"e", hashlib.sha1(info).digest()


def messages() -> dict[str, bytes]:
    """By kind: so many messages that a peer may send however often it likes."""
    return {
        "keepalive": bytes(4) * COUNT,
        "have of one piece": struct.pack(">IBI", 5, 4, 0) * COUNT,
        "choke, unchoke": bytes.fromhex("00000001000000000101") * (COUNT // 2),
        "not interested": bytes.fromhex("0000000103") * COUNT,
    }


def seconds(words: list[str]) -> float:
    """The processor time that the program takes with these words."""
    before = resource.getrusage(resource.RUSAGE_CHILDREN)
    subprocess.run([PROGRAM, *words], stdout=subprocess.DEVNULL, check=False)
    after = resource.getrusage(resource.RUSAGE_CHILDREN)
    return (after.ru_utime - before.ru_utime) + (after.ru_stime - before.ru_stime)


def least(words: list[str], runs: int) -> float:
    return min(seconds(words) for _ in range(runs))


def write(folder: str, name: str, text: bytes) -> str:
    path = os.path.join(folder, name)
    with open(path, "wb") as file:
        file.write(text)
    return path


def write_torrent(folder: str, pieces: int) -> tuple[str, bytes]:
    """The path of such a torrent, and what a peer of it sends first."""
    meta, infohash = metainfo(pieces)
    return write(folder, "torrent", meta), b"\x13BitTorrent protocol" + bytes(8) + infohash + b"-XX0001-000000000000"


def time_torrent(folder: str, pieces: int, runs: int) -> None:
    torrent, hello = write_torrent(folder, pieces)
    streams = {kind: (write(folder, "stream-" + kind[:4], hello + sent), len(sent)) for kind, sent in messages().items()}
    alone = write(folder, "alone", hello)
    for command in ("serial", "run"):
        start = least([command, torrent, alone], runs)
        for kind, (stream, size) in streams.items():
            taken = least([command, torrent, stream], runs) - start
            print(f"| {pieces:,} | `{command}` | {kind} | {1e9 * taken / COUNT:,.0f} | {1e9 * taken / size:,.0f} |", flush=True)


def tell_messages(folder: str, runs: int) -> None:
    print("| Pieces | Command | Message | ns a message | ns a byte |\n|---|---|---|---|---|")
    for pieces in PIECES:
        time_torrent(folder, pieces, runs)


def haves(pieces: int, first: int) -> bytes:
    """So many haves of pieces that all differ, from one end of the torrent to the other."""
    return b"".join(struct.pack(">IBI", 5, 4, 7919 * (first + i) % pieces) for i in range(EACH))


def time_haves(folder: str, pieces: int, runs: int) -> None:
    torrent, hello = write_torrent(folder, pieces)
    alone = [write(folder, "alone", hello)] * PEERS
    streams = [write(folder, f"stream-{i}", hello + haves(pieces, EACH * i)) for i in range(PEERS)]
    told = {EACH: streams[:1] * PEERS, min(pieces, EACH * PEERS): streams}
    start = least(["serial", torrent, *alone], runs)
    for count, paths in told.items():
        taken = least(["serial", torrent, *paths], runs) - start
        print(f"| {pieces:,} | {count:,} | {1e9 * taken / (EACH * PEERS):,.0f} |", flush=True)


def tell_haves(folder: str, runs: int) -> None:
    print("| Pieces | Of these told | ns a have |\n|---|---|---|")
    for pieces in PIECES_OF_HAVES:
        time_haves(folder, pieces, runs)


def main() -> None:
    words = sys.argv[1:]
    of_haves = words[:1] == ["haves"]
    rest = words[1:] if of_haves else words
    runs = int(rest[0]) if rest else 3
    with tempfile.TemporaryDirectory() as folder:
        if of_haves:
            tell_haves(folder, runs)
        else:
            tell_messages(folder, runs)


if __name__ == "__main__":
    main()
