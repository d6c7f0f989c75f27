"""Where the bytes of the content lie: pieces, blocks, and the files that the metainfo names."""

from __future__ import annotations

import os
from bisect import bisect_right
from collections.abc import Iterator
from dataclasses import dataclass

from .metainfo import MetainfoFault

BLOCK = 1 << 14  # bytes that one request asks for
HIGHEST = 7  # level


@dataclass(frozen=True)
class File:
    """One file of the content; `path` is relative to the folder of the download, and `number` counts from 1."""

    number: int
    path: str
    begin: int
    length: int


def safe_path(names: list[bytes]) -> str:
    """The path of these names. Raises MetainfoFault where one of them would lead elsewhere."""
    for name in names:
        if name in (b"", b".", b"..") or any(letter in name for letter in b"/\\\0"):
            raise MetainfoFault(f"a name of a file isn't safe: {name!r}")
    return os.path.join(*map(os.fsdecode, names))


def printable(text: str) -> str:
    """The text with nothing in it that a terminal would take as a command, or couldn't show."""
    return "".join(letter if letter.isprintable() else "?" for letter in text)


def _refuse_clashes(paths: list[str]) -> None:
    """Two files can't have one path, and a file can't be a folder of another one."""
    files = set(paths)
    if len(files) < len(paths):
        raise MetainfoFault("two files have the same path")
    for path in paths:
        while path := os.path.dirname(path):
            if path in files:
                raise MetainfoFault(f"{printable(path)!r} is both a file and a folder")


class Layout:
    """The files one behind the other, cut into pieces and blocks."""

    def __init__(self, files: list[tuple[list[bytes], int]], piece_length: int, total: int) -> None:
        paths = [safe_path(names) for names, _ in files]
        _refuse_clashes(paths)
        self.files: list[File] = []
        begin = 0
        for number, (path, (_, length)) in enumerate(zip(paths, files, strict=True), 1):
            self.files.append(File(number, path, begin, length))
            begin += length
        if begin != total:
            raise MetainfoFault("the lengths of the files aren't that of the content")
        self.total = total
        self.piece_length = piece_length
        self.pieces = -(-total // piece_length)
        self._begins = [file.begin for file in self.files]

    def length_of(self, piece: int) -> int:
        """The bytes of a piece."""
        return min(self.piece_length, self.total - piece * self.piece_length)

    def blocks_of(self, piece: int) -> int:
        """The blocks of a piece."""
        return -(-self.length_of(piece) // BLOCK)

    def block_length(self, piece: int, block: int) -> int:
        """The bytes of a block, counted from the piece's front."""
        return min(BLOCK, self.length_of(piece) - block * BLOCK)

    def spans(self, begin: int, length: int) -> Iterator[tuple[File, int, int]]:
        """The parts of files that this part of the content lies in: the file, where in it, and how many bytes."""
        place = bisect_right(self._begins, begin) - 1
        while length > 0:
            file = self.files[place]
            inside = begin - file.begin
            taken = min(length, file.length - inside)
            if taken > 0:
                yield file, inside, taken
                begin, length = begin + taken, length - taken
            place += 1

    def files_of(self, piece: int) -> list[File]:
        """The files that have bytes in a piece."""
        return [file for file, _, _ in self.spans(piece * self.piece_length, self.length_of(piece))]

    def pieces_of(self, file: File) -> range:
        """The pieces that have bytes of a file."""
        if file.length == 0:
            return range(0)
        return range(file.begin // self.piece_length, (file.begin + file.length - 1) // self.piece_length + 1)


def levels_of(layout: Layout, levels: dict[int, int], ends_first: bool = False) -> bytes:
    """The level of each piece: the highest one of the files in it, each told by its number. The ends of files may be one level higher."""
    pieces = bytearray(layout.pieces)
    for file in layout.files:
        inside, level = layout.pieces_of(file), levels[file.number]
        for piece in inside:
            is_end = ends_first and level > 0 and piece in (inside[0], inside[-1])
            pieces[piece] = max(pieces[piece], min(level + is_end, HIGHEST))
    return bytes(pieces)
