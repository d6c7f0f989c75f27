"""What a reader waits for is asked of a far quicker peer too."""

from __future__ import annotations

import unittest

from fetch.peer import ALL_LEVELS, Peer
from fetch.serving import URGENT
from fetch.session import FAR_QUICKER, HURRY

from .spoken import Speaking, message
from .support import BLOCK, BLOCK_MESSAGE, CANCEL, CONTENT, HAVE_ALL, PIECE, UNCHOKE

RATE = 100000  # bytes a second of the slow peer


class Hurried(Speaking):
    """Two peers that show all. The lines of both are full."""

    had = 0

    def setUp(self) -> None:
        super().setUp()
        self.slow, self.quick = self.peer(True, 1), self.peer(True, 2)
        for peer in (self.slow, self.quick):
            self.hear(peer, message(HAVE_ALL) + message(UNCHOKE))
        self.piece = next(iter(self.slow.asked))[0]
        self.blocks = {block for block in self.slow.asked if block[0] == self.piece}
        self.session.picker.set_in_order_from(URGENT)
        self.session.picker.set_level(self.piece, ALL_LEVELS)  # as before a reader

    def brought(self, peer: Peer) -> bytes:
        """The peer brings as many blocks as the piece has; what it is told then."""
        for piece, begin in list(peer.asked)[: len(self.blocks)]:
            at = piece * PIECE + begin
            self.session.receive(peer, message(BLOCK_MESSAGE, piece, begin, data=CONTENT[at : at + BLOCK]))
        return self.said(peer)

    def hurry(self, seconds: float, quicker: float) -> set[tuple[int, int]]:
        """So long after the requests a reader waits for the piece, and one peer is so much quicker; the piece's blocks that it is asked for."""
        self.session.now += seconds
        for peer, rate in ((self.slow, RATE), (self.quick, int(RATE * quicker))):
            peer.down.add(rate, self.session.now)
        self.session.hurry({self.piece})
        self.brought(self.quick)
        return self.blocks & self.quick.asked.keys()

    def test_far_quicker(self) -> None:
        """It is asked for what the other one doesn't bring, which hears a cancel once the block is there."""
        self.assertEqual(self.hurry(HURRY + 1.0, FAR_QUICKER + 1.0), self.blocks)
        self.said(self.slow)
        piece, begin = min(self.blocks)
        at = piece * PIECE + begin
        self.session.receive(self.quick, message(BLOCK_MESSAGE, piece, begin, data=CONTENT[at : at + BLOCK]))
        self.assertTrue(self.said(self.slow).startswith(message(CANCEL, piece, begin, BLOCK)))
        self.assertEqual(self.session.figures.timeouts, 0)

    def test_little_quicker(self) -> None:
        self.assertEqual(self.hurry(HURRY + 1.0, FAR_QUICKER - 1.0), set())

    def test_nothing_came(self) -> None:
        """Of no peer it is known how quick it is."""
        self.session.now += HURRY + 1.0
        self.session.hurry({self.piece})
        self.brought(self.quick)
        self.assertEqual(self.blocks & self.quick.asked.keys(), set())

    def test_just_asked(self) -> None:
        self.assertEqual(self.hurry(HURRY / 2, FAR_QUICKER + 1.0), set())

    def test_others(self) -> None:
        """Pieces that no reader waits for stay with whom they were asked of."""
        others = self.slow.asked.keys() - self.blocks
        self.hurry(HURRY + 1.0, FAR_QUICKER + 1.0)
        self.assertEqual(others & self.quick.asked.keys(), set())


if __name__ == "__main__":
    unittest.main()
