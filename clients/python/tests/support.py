"""A torrent of seven pieces for the tests, of which the last has a block and a short one."""

from __future__ import annotations

import hashlib
import random
import sys
from pathlib import Path

sys.path.insert(0, str(Path(__file__).resolve().parents[1]))
from piecepick import Keeps, Kind, Picker  # noqa: E402

BLOCK = 1 << 14
PIECE = 2 * BLOCK
PIECES = 7
ALL = b"\xfe"
CONTENT = random.Random(1).randbytes(6 * PIECE + BLOCK + 100)
PARTS = [CONTENT[at : at + PIECE] for at in range(0, len(CONTENT), PIECE)]
DIGESTS = [hashlib.sha1(part).digest() for part in PARTS]
INFO = b"d6:lengthi%de4:name4:some12:piece lengthi%de6:pieces%d:%se" % (len(CONTENT), PIECE, 20 * PIECES, b"".join(DIGESTS))
METAINFO = b"d4:info" + INFO + b"e"
# Three files, of 5, 0 and 11 bytes, and names that are no good ones.
SEVERAL = (
    b"d4:infod5:filesld6:lengthi5e4:pathl3:oneeed6:lengthi0e4:pathl0:2:..4:a/b\0eed6:lengthi11e4:pathl4:deep3:twoeee"
    b"4:name6:folder12:piece lengthi16e6:pieces20:%see" % bytes(20)
)


def picker(keeps: Keeps = Keeps.NOTHING) -> Picker:
    """A picker for three workers, with the rarest first from the beginning."""
    return Picker(METAINFO, keeps=keeps, workers=3, random=0)


def with_peer(keeps: Keeps = Keeps.NOTHING) -> Picker:
    """The same; the peer of worker 0 has each piece, and has unchoked us."""
    made = picker(keeps)
    made.join(0)
    made.bits(0, ALL)
    made.unchoke(0)
    return made


def bring(made: Picker, piece: int, data: bytes) -> list[Kind]:
    """Each block of a piece comes from worker 0's peer."""
    return [made.arrived(0, piece, at, data[at : at + BLOCK]).kind for at in range(0, len(data), BLOCK)]
