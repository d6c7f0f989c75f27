"""What happened in a download, block by block, kept in little memory."""

from __future__ import annotations

from array import array
from dataclasses import dataclass, field


@dataclass
class Trace:
    """Blocks are counted through all pieces, and peers by their names. Times are seconds, or whatever runs on."""

    pieces: int
    blocks_each: int  # blocks of a piece, of the last one perhaps fewer
    blocks: int
    unit: str = "s"
    names: list[str] = field(default_factory=list)
    came_at: array[float] = field(default_factory=lambda: array("d"))
    came_block: array[int] = field(default_factory=lambda: array("I"))
    came_peer: array[int] = field(default_factory=lambda: array("H"))
    again_at: array[float] = field(default_factory=lambda: array("d"))  # requests of a block that another peer was asked for
    again_block: array[int] = field(default_factory=lambda: array("I"))
    shown_by: dict[int, int] = field(default_factory=dict)  # by how many peers a piece was shown when it was first requested
    twice: int = 0
    failed: int = 0
    end: float = 0.0
    _numbers: dict[str, int] = field(default_factory=dict)

    def number_of(self, name: str) -> int:
        """The number of a peer, a new one where it wasn't seen before."""
        if name not in self._numbers:
            self._numbers[name] = len(self.names)
            self.names.append(name)
        return self._numbers[name]

    def came(self, at: float, piece: int, block: int, name: str) -> None:
        """A block came for the first time; `block` counts from the piece's front."""
        self.came_at.append(at)
        self.came_block.append(piece * self.blocks_each + block)
        self.came_peer.append(self.number_of(name))
        self.end = max(self.end, at)

    def requested_again(self, at: float, piece: int, block: int) -> None:
        """A block was requested of a second peer."""
        self.again_at.append(at)
        self.again_block.append(piece * self.blocks_each + block)

    def requested(self, piece: int, availability: int) -> None:
        """A piece was requested, which so many peers show; the first time counts."""
        self.shown_by.setdefault(piece, availability)
