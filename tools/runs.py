#!/usr/bin/env python3
"""Writes the made-up metainfo files and streams of crates/bt_cli_tests from parts that are put together by hand.

A stream is a peer's handshake and its messages (BEP 3): bitfield, unchoke, and pieces of one block each. The metainfo files of `info`
are spelled out, with the fault that each has. The infohashes of those that have none are printed, as hashlib has them. Run it from the
top of the repository after an edit. It also compares the toolchain that `--version` names with `rt version`.
"""

from __future__ import annotations

import hashlib
import os
import subprocess

DATA = "crates/bt_cli_tests/data"


STDIN = "crates/bt_cli_tests/stdin"
ARGUMENTS = "crates/bt_cli/src/arguments.rt"
BLOCK = 16384


def metainfo(total: int, contents: list[bytes], piece_length: int = 3) -> tuple[bytes, bytes]:
    pieces = b"".join(hashlib.sha1(content).digest() for content in contents)
    info = b"d6:lengthi%de4:name1:s12:piece lengthi%de6:pieces%d:%se" % (total, piece_length, len(pieces), pieces)
    return b"d4:info" + info + b"e", hashlib.sha1(info).digest()


def long_script() -> tuple[str, str]:
    """A script of more than 64 KiB whose replies are more than 64 KiB too, and those replies: the peer shows its piece 8,000 times."""
    first = "torrent 3 3 1 %s\n0 join\n" % hashlib.sha1(b"abc").hexdigest()
    return first + "0 have 0\n" * 8000, "joined\n" + "noted yes\n" * 8000


PIECES = b"".join(hashlib.sha1(content).digest() for content in (b"abc", b"abc", b"a"))


def spelled(before: bytes, pieces: bytes = PIECES) -> bytes:
    """A metainfo file whose info dictionary begins so and ends with these hashes."""
    return b"d%s6:pieces%d:%see" % (before, len(pieces), pieces)


# Files of which `info` tells something.
DESCRIBED = {
    "announced.torrent": spelled(b"8:announce3:url4:infod6:lengthi7e4:name1:s12:piece lengthi3e"),
    "two-files.torrent": spelled(
        b"4:infod5:filesld6:lengthi3e4:pathl1:xeed6:lengthi4e4:pathl1:yeee4:name1:s12:piece lengthi3e"
    ),
    "any-bytes.torrent": spelled(b"4:infod6:lengthi7e4:name8:a%~ \x00!\x7f\xff12:piece lengthi3e"),
    # Hybrid files have empty keys: one who drops them and writes the dictionary anew gets another infohash.
    "empty-key.torrent": spelled(b"4:infod0:3:abc6:lengthi7e4:name1:s12:piece lengthi3e"),
    "long-name.torrent": spelled(b"4:infod6:lengthi7e4:name5000:" + b"n" * 5000 + b"12:piece lengthi3e"),
    "file-tree.torrent": spelled(b"4:infod9:file treed1:sd0:d6:lengthi7eeee6:lengthi7e4:name1:s12:piece lengthi3e"),
}

# Files that are none, by the number of the fault.
FAULTY = {
    "empty.torrent": b"",
    "fault-2.torrent": b"i0e",
    "fault-3.torrent": b"de",
    "fault-4.torrent": spelled(b"4:infod6:length1:74:name1:s12:piece lengthi3e"),
    "fault-5.torrent": spelled(b"4:infod6:lengthi7e4:name1:s12:piece lengthi0e"),
    "fault-6.torrent": spelled(b"4:infod6:lengthi7e4:name1:s12:piece lengthi3e", PIECES[:59]),
    "fault-7.torrent": spelled(b"4:infod5:filesle6:lengthi7e4:name1:s12:piece lengthi3e"),
    "fault-8.torrent": spelled(b"4:infod6:lengthi0e4:name1:s12:piece lengthi3e"),
    "fault-9.torrent": spelled(b"4:infod6:lengthi7e4:name1:s12:piece lengthi3e", PIECES[:20]),
    "fault-10.torrent": spelled(b"4:infod6:lengthi12884901886e4:name1:s12:piece lengthi3e"),
}


def handshake(infohash: bytes) -> bytes:
    return b"\x13BitTorrent protocol" + bytes(8) + infohash + b"-made-up-by-hand-000"


def message(kind: int, payload: bytes = b"") -> bytes:
    return (1 + len(payload)).to_bytes(4, "big") + bytes([kind]) + payload


def piece(index: int, content: bytes) -> bytes:
    return message(7, index.to_bytes(4, "big") + (0).to_bytes(4, "big") + content)


def peer(infohash: bytes, bits: int, pieces: list[tuple[int, bytes]]) -> bytes:
    blocks = b"".join(piece(index, content) for index, content in pieces)
    return handshake(infohash) + message(5, bytes([bits])) + message(1) + blocks


def main() -> None:
    one, one_hash = metainfo(3, [b"abc"])
    three, three_hash = metainfo(7, [b"abc", b"abc", b"a"])
    whole = peer(one_hash, 0x80, [(0, b"abc")])
    files = {
        "one-piece.torrent": one,
        "one-piece.stream": whole,
        "one-piece-cut.stream": whole[:-1],
        "three-pieces.torrent": three,
        "three-pieces-0.stream": peer(three_hash, 0xC0, [(0, b"abc"), (1, b"abc")]),
        "three-pieces-1.stream": peer(three_hash, 0x60, [(1, b"abc"), (2, b"a")]),
        "three-pieces-wrong.stream": peer(three_hash, 0xE0, [(0, b"abd"), (1, b"abc"), (2, b"a")]),
    }
    # What a peer may send that it shouldn't, or that is late.
    hello = handshake(one_hash)
    files["late-bits.stream"] = hello + message(1) + message(5, b"\x80")
    files["spare-bits.stream"] = hello + message(5, b"\xc0")
    files["long-bits.stream"] = hello + message(5, b"\x80\x00")
    files["too-long.stream"] = hello + (0x100001).to_bytes(4, "big")
    files["first-wrong.stream"] = peer(three_hash, 0xE0, [(0, b"abd")])
    # One piece of six blocks, and a peer that shows it, lets us ask, and sends nothing.
    six, six_hash = metainfo(6 * BLOCK, [bytes(6 * BLOCK)], 6 * BLOCK)
    files["six-blocks.torrent"] = six
    files["six-blocks.stream"] = peer(six_hash, 0x80, [])
    files["all-three.stream"] = peer(three_hash, 0xE0, [(0, b"abc"), (1, b"abc"), (2, b"a")])
    files.update(DESCRIBED)
    files.update(FAULTY)
    for name, content in DESCRIBED.items():
        info = content[content.index(b"4:info") + 6 : -1]
        print(name, hashlib.sha1(info).hexdigest())
    for name, content in files.items():
        with open(os.path.join(DATA, name), "wb") as file:
            file.write(content)
    script, replies = long_script()
    with open(STDIN, "w") as file:
        file.write(script)
    print("replies", len(replies), hashlib.sha1(replies.encode()).hexdigest())
    kit = subprocess.run(["rt", "version"], capture_output=True, text=True, check=True).stdout.strip()
    if kit not in open(ARGUMENTS).read():
        raise SystemExit(f"{ARGUMENTS} names another toolchain than {kit}")


main()
