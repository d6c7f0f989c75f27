"""The list of a torrent's files, which needs no library."""

from __future__ import annotations

from .layout import printable, safe_path
from .metainfo import named_files


def lines(metainfo: bytes) -> list[str]:
    """A line for each file: its number, its length in bytes, and its path. Raises MetainfoFault."""
    files = [(safe_path(names), length) for names, length in named_files(metainfo)]
    return [f"{number:6} {length:14} {printable(path)}" for number, (path, length) in enumerate(files, 1)]
