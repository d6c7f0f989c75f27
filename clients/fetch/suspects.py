"""Who may have sent what was wrong, where a piece from several peers has another hash. Each of them works alone, until one is named.

All of a piece that such a peer begins comes from that peer. So its next piece names it, or clears it. But that piece waits for it, and a piece
that was begun by several waits for others. So a peer doesn't work alone for long, nor once it gets slow or has nothing else to bring.
"""

from __future__ import annotations

from collections.abc import Iterable

from piecepick import Picker

from .content import Verdict
from .peer import Peer

LONGEST = 120.0  # seconds that a peer works alone


class Suspects:
    """The connected peers under suspicion, each with the time since when it works alone. Who was told off has none."""

    def __init__(self, picker: Picker) -> None:
        self.picker = picker
        self.since: dict[Peer, float | None] = {}
        self.reads = False  # whether somebody reads the content
        self.told = 0  # how often a peer was told to work alone

    def heed(self, verdict: Verdict, peers: Iterable[Peer], now: float) -> None:
        """A piece was checked. A wrong one of several makes suspects. A right one clears its only sender, and a named liar clears all."""
        if not verdict.is_had and not verdict.liars:
            self._suspect([peer for peer in peers if peer.address in verdict.senders], now)
            return
        for peer in list(self.since):
            if verdict.liars or verdict.senders == {peer.address}:
                self.tell_off(peer)
                self.forget(peer)

    def _suspect(self, senders: list[Peer], now: float) -> None:
        """These brought a wrong piece. All suspects work alone then, and earlier ones do so again."""
        for peer in senders:
            self.since.setdefault(peer, None)
        for peer, since in self.since.items():
            if since is None and not self.reads:
                self.since[peer] = now
                self.told += 1
                self.picker.alone(peer.worker)

    def tell_off(self, peer: Peer) -> bool:
        """The peer works with the others again, and stays under suspicion; whether it worked alone."""
        if self.since.get(peer) is None:
            return False
        self.since[peer] = None
        self.picker.alone(peer.worker, False)
        return True

    def time_out(self, peer: Peer, now: float) -> None:
        """A peer that brings little, and is never late, might else keep a piece for hours."""
        since = self.since.get(peer)
        if since is not None and now - since > LONGEST:
            self.tell_off(peer)

    def set_reading(self, reads: bool) -> None:
        """While somebody reads nobody works alone: what is read next would wait for one peer."""
        self.reads = reads
        if reads:
            for peer in self.since:
                self.tell_off(peer)

    def forget(self, peer: Peer) -> None:
        """The peer is cleared, or gone."""
        self.since.pop(peer, None)
