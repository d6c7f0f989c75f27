"""What a killed download leaves beside its files: which blocks of begun pieces are on the disk. It is a hint; digests decide in the end."""

from __future__ import annotations

import contextlib
import os

from bencode import BencodeFault, Value, bdecode, bencode

from .layout import Layout

VERSION = 1
LARGEST = 1 << 26  # bytes of a state file that is read


def save(path: str, infohash: bytes, blocks: dict[int, bytearray]) -> None:
    """Writes the held blocks of each begun piece, a byte a block. The old file stays until the new one is whole."""
    held: list[Value] = [[piece, bytes(flags)] for piece, flags in sorted(blocks.items())]
    data = bencode({b"blocks": held, b"infohash": infohash, b"version": VERSION})
    new = path + ".new"
    try:
        with open(new, "wb") as file:
            file.write(data)
        os.replace(new, path)
    except OSError:
        with contextlib.suppress(OSError):
            os.unlink(new)
        raise


def load(path: str, infohash: bytes, layout: Layout) -> dict[int, list[int]] | None:
    """The numbers of the held blocks of each begun piece; None where there is no such file of this torrent, or it is damaged."""
    try:
        with open(path, "rb") as file:
            value = bdecode(file.read(LARGEST))
    except (OSError, BencodeFault):
        return None
    if not isinstance(value, dict) or value.get(b"version") != VERSION or value.get(b"infohash") != infohash:
        return None
    held = value.get(b"blocks")
    pairs = [_pair(entry, layout) for entry in held] if isinstance(held, list) else []
    return dict(pair for pair in pairs if pair)


def _pair(entry: Value, layout: Layout) -> tuple[int, list[int]] | None:
    """A piece and its held blocks; None where the entry can't be one of this torrent."""
    if not isinstance(entry, list) or len(entry) != 2:
        return None
    piece, flags = entry
    if not isinstance(piece, int) or not isinstance(flags, bytes) or not 0 <= piece < layout.pieces:
        return None
    if len(flags) != layout.blocks_of(piece):
        return None
    return piece, [block for block, flag in enumerate(flags) if flag]


def forget(path: str) -> None:
    """Takes the file away, since all is had."""
    with contextlib.suppress(FileNotFoundError):
        os.unlink(path)
