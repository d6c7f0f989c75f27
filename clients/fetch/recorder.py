"""Notes what the picker does while a download runs, for its picture."""

from __future__ import annotations

import time

from piecepick import Picker

from .layout import BLOCK, Layout
from .peer import Peer
from .trace import Trace


class Recorder:
    """Keeps a trace of all blocks."""

    def __init__(self, picker: Picker, layout: Layout) -> None:
        self.picker = picker
        blocks = (layout.pieces - 1) * layout.blocks_of(0) + layout.blocks_of(layout.pieces - 1)
        self.trace = Trace(layout.pieces, layout.blocks_of(0), blocks)
        self._began: float | None = None
        self._names: dict[tuple[str, int], str] = {}

    def _now(self) -> float:
        """The seconds since the first request."""
        now = time.monotonic()
        if self._began is None:
            self._began = now
        return now - self._began

    def _name_of(self, peer: Peer) -> str:
        """The peer's address, and what its identity says of its program."""
        if peer.address not in self._names:
            self._names[peer.address] = f"{peer.address[0]}:{peer.address[1]} {peer.program}".strip()
        return self._names[peer.address]

    def requested(self, peer: Peer, block: tuple[int, int], is_endgame: bool) -> None:
        """A block is asked of a peer; in endgame another one is expected to bring it too."""
        piece, begin = block
        now = self._now()
        if piece not in self.trace.shown_by:
            self.trace.requested(piece, self.picker.availability(piece))
        if is_endgame:
            self.trace.requested_again(now, piece, begin // BLOCK)

    def came(self, peer: Peer, block: tuple[int, int], is_twice: bool) -> None:
        """A block came; it may have been held already."""
        if is_twice:
            self.trace.twice += 1
        else:
            self.trace.came(self._now(), block[0], block[1] // BLOCK, self._name_of(peer))

    def checked(self, piece: int, is_had: bool) -> None:
        """A piece was checked."""
        self.trace.failed += not is_had
