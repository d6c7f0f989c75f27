#!/usr/bin/env python3
"""Writes a torrent of random bytes and what its peers would send, for measuring runs.

    tools/recorded.py MEBIBYTES NAME [PEERS [KIBIBYTES]]

makes NAME.bin (the content), NAME.torrent (pieces of so many KiB, 256 where it isn't said) and for each of the peers, of which there is
one where it isn't said, its stream NAME-0.stream, NAME-1.stream ..: the handshake, the bitfield of its part of the pieces, unchoke, and
then each block of 16 KiB of these in order. The parts are as large as one another, and no piece is in two of them.
"""

import hashlib
import os
import struct
import sys

BLOCK = 16384
mebibytes, name = int(sys.argv[1]), sys.argv[2]
peers = int(sys.argv[3]) if len(sys.argv) > 3 else 1
PIECE = 1024 * (int(sys.argv[4]) if len(sys.argv) > 4 else 256)
pieces = mebibytes * 1048576 // PIECE
content = os.urandom(pieces * PIECE)
digests = b"".join(hashlib.sha1(content[at:at + PIECE]).digest() for at in range(0, len(content), PIECE))
info = b"d6:lengthi%de4:name3:big12:piece lengthi%de6:pieces%d:%se" % (len(content), PIECE, len(digests), digests)
with open(f"{name}.bin", "wb") as file:
    file.write(content)
with open(f"{name}.torrent", "wb") as file:
    file.write(b"d4:info" + info + b"e")
for peer in range(peers):
    part = range(pieces * peer // peers, pieces * (peer + 1) // peers)
    with open(f"{name}-{peer}.stream", "wb") as file:
        file.write(b"\x13BitTorrent protocol" + bytes(8) + hashlib.sha1(info).digest() + b"9" * 20)
        field = bytearray((pieces + 7) // 8)
        for piece in part:
            field[piece // 8] |= 128 >> piece % 8
        file.write(struct.pack(">IB", 1 + len(field), 5) + bytes(field) + struct.pack(">IB", 1, 1))
        for at in range(part.start * PIECE, part.stop * PIECE, BLOCK):
            file.write(struct.pack(">IBII", 9 + BLOCK, 7, at // PIECE, at % PIECE) + content[at:at + BLOCK])
