"""What is asked of peers: time-outs, rejects, depths, and whose number is whose."""

from __future__ import annotations

import unittest

from fetch.peer import FIRST_DEPTH, Peer, milliseconds
from fetch.session import MOST_TIMEOUTS, REJECT_REST, REST, SILENCE
from fetch.swarm import TICK
from fetch.wire import WireFault

from .spoken import Speaking, message
from .support import (
    BITFIELD, BLOCK, BLOCK_MESSAGE, CANCEL, CHOKE, CONTENT, EXTENDED, HAVE, HAVE_ALL, INTERESTED, NOT_INTERESTED, PIECE, PIECES, REJECT,
    REQUEST, UNCHOKE, flags_of,
)  # fmt: skip


LEAST_DEPTH = 4
ENDGAME_DEPTH = 6


class Asked(Speaking):
    """One peer, or two, that have all. Nothing is there."""

    had = 0

    def joined(self, port: int = 1) -> Peer:
        """A peer that has all and unchokes us, so that it is asked."""
        peer = self.peer(True, port)
        self.hear(peer, message(HAVE_ALL) + message(UNCHOKE))
        return peer

    def bring(self, peer: Peer, block: tuple[int, int]) -> bytes:
        """The peer sends a block; what it is told then."""
        at = block[0] * PIECE + block[1]
        return self.hear(peer, message(BLOCK_MESSAGE, *block, data=CONTENT[at : at + BLOCK]))

    def bring_much(self, peer: Peer) -> None:
        """The rule of depths is told of 200 blocks in a second."""
        peer.by_rate.came(200 * BLOCK, milliseconds(self.session.now))
        self.session.now += 1.0
        self.session.follow_rate(peer)

    def be_late(self, peer: Peer) -> None:
        """The peer brings nothing, until what it was asked for is to be taken back."""
        self.session.now += SILENCE + 1
        self.assertTrue(self.session.time_out(peer))
        self.session.now += REST + 1

    def test_depth(self) -> None:
        peer = self.joined()
        self.assertEqual(len(peer.asked), FIRST_DEPTH)
        self.assertEqual(self.download.parts.picker.outstanding(peer.worker), FIRST_DEPTH)

    def test_quick(self) -> None:
        """A new peer that is quicker than its first depth is asked for more at the next tick, and not a second later."""
        peer = self.joined()
        peer.by_rate.came(100 * BLOCK, milliseconds(self.session.now))
        self.session.now += TICK
        self.download.parts.swarm._tick()
        self.assertEqual(len(peer.asked), 100 + LEAST_DEPTH)

    def test_time_out(self) -> None:
        """A silent peer's requests are taken back after they were late; then it rests, and others may be asked."""
        peer = self.joined()
        block = next(iter(peer.asked))
        self.be_late(peer)
        self.assertTrue(self.session.time_out(peer))
        self.assertEqual((len(peer.asked), self.download.parts.picker.outstanding(peer.worker)), (0, 0))
        self.session.ask_idle()
        self.assertEqual(len(peer.asked), 0)
        # A block that comes after all is kept, and ends the rest.
        self.bring(peer, block)
        self.assertEqual(self.session.figures.unasked, 0)
        self.assertIn(block[0], self.download.parts.content.held)
        self.assertGreater(len(peer.asked), 0)

    def test_late(self) -> None:
        """A silent peer's requests stay with it, and another peer is asked for them; of who brings a block second it is cancelled."""
        peer = self.joined()
        block, *others = peer.asked
        self.session.now += SILENCE + 1
        self.assertTrue(self.session.time_out(peer))
        self.assertEqual(len(peer.asked), FIRST_DEPTH)
        other = self.joined()
        self.bring_much(other)
        self.assertLessEqual(set(peer.asked), set(other.asked))
        self.assertEqual(self.session.figures.endgame_requests, 0)
        self.bring(peer, block)
        self.assertNotIn(block, other.asked)
        self.bring(other, others[0])
        self.assertNotIn(others[0], peer.asked)
        self.assertEqual((self.session.figures.twice, self.session.figures.cancels), (0, 2))

    def test_rests(self) -> None:
        """After its rest it gets another try with few requests, and after some tries it is let go."""
        peer = self.joined()
        for _ in range(MOST_TIMEOUTS - 1):
            self.be_late(peer)
            self.assertTrue(self.session.time_out(peer))
            self.session.follow_rate(peer)
            self.session.now += REST
            self.session.ask_idle()
            self.assertEqual(len(peer.asked), LEAST_DEPTH)
        self.be_late(peer)
        self.assertFalse(self.session.time_out(peer))

    def test_reject(self) -> None:
        """A rejected block is asked of that peer no more for a moment, and of another peer at once."""
        peer = self.joined()
        block = next(iter(peer.asked))
        said = self.hear(peer, message(REJECT, *block, BLOCK))
        self.assertEqual((said, self.download.parts.picker.outstanding(peer.worker)), (b"", FIRST_DEPTH - 1))
        self.session.now += REJECT_REST
        self.session.ask_idle()
        self.assertEqual(self.download.parts.picker.outstanding(peer.worker), FIRST_DEPTH)

    def test_lack(self) -> None:
        """A peer that has a piece no more is asked for nothing of it, with no cancel, and another one is (BEP 54)."""
        first, second = self.joined(), self.joined(2)
        piece, _ = next(iter(first.asked))
        said = self.hear(first, message(EXTENDED, data=b"\x07" + piece.to_bytes(4, "big")))
        self.assertFalse(first.shows(piece))
        self.assertEqual((first.piece_count, len(first.asked)), (PIECES - 1, FIRST_DEPTH))
        for begin in range(0, PIECE, BLOCK):
            self.assertNotIn(message(CANCEL, piece, begin, BLOCK), said)
            self.assertNotIn((piece, begin), first.asked)
        self.session.picker.depth(second.worker, 4 * PIECES)
        self.session.ask(second)
        self.assertLess({(piece, begin) for begin in range(0, PIECE, BLOCK)}, second.asked.keys())

    def test_lacks_all(self) -> None:
        """Whose only wanted piece is gone has nothing for us. A piece that is none ends the connection."""
        peer = self.peer(False)
        self.hear(peer, message(HAVE, 3))
        self.assertEqual(self.hear(peer, message(EXTENDED, data=b"\x07\0\0\0\x03")), message(NOT_INTERESTED))
        self.assertEqual(self.hear(peer, message(EXTENDED, data=b"\x07\0\0\0\x03") + message(EXTENDED, data=b"\x09what")), b"")
        for wrong in (b"", b"\x07\0\0\0\x29", b"\x07\0\0\0", b"\0i7e"):
            with self.subTest(wrong), self.assertRaises(WireFault):
                self.hear(peer, message(EXTENDED, data=wrong))

    def test_choke(self) -> None:
        """All that was asked is free when a peer chokes us; a block that was under way is kept."""
        peer = self.joined()
        block = next(iter(peer.asked))
        self.hear(peer, message(CHOKE))
        self.assertEqual((len(peer.asked), self.session.asks), (0, {}))
        self.bring(peer, block)
        self.assertIn(block[0], self.download.parts.content.held)

    def test_choke_at_once(self) -> None:
        """With the fast extension a choke with an unchoke right behind takes back nothing but what is rejected (BEP 6)."""
        peer = self.joined()
        block, other, *rest = peer.asked
        said = self.hear(peer, message(CHOKE) + message(REJECT, *block, BLOCK) + message(UNCHOKE))
        self.assertEqual((said, list(peer.asked)), (b"", [other, *rest]))
        self.bring(peer, other)
        self.assertIn(other[0], self.download.parts.content.held)
        self.assertEqual(list(peer.late), [block])

    def test_choke_at_once_plain(self) -> None:
        """Without that extension all is asked for again (BEP 3)."""
        peer = self.peer(False)
        self.hear(peer, message(BITFIELD, data=flags_of(range(PIECES))) + message(UNCHOKE))
        self.hear(peer, message(CHOKE) + message(UNCHOKE))
        self.assertEqual((len(peer.asked), self.session.figures.requests), (FIRST_DEPTH, 2 * FIRST_DEPTH))

    def test_unasked(self) -> None:
        """A block that nobody asked for is no more than counted, so that nobody fills pieces with nonsense."""
        peer = self.peer(False)
        self.bring(peer, (7, 0))
        self.assertEqual((self.session.figures.unasked, self.download.parts.content.held, peer.down.total), (1, {}, 0))

    def test_rising_rate(self) -> None:
        peer = self.joined()
        self.bring_much(peer)
        # 200 blocks in the first second, so as many are asked, and four more; there are 161 in all.
        self.assertEqual(peer.depth, 204)
        self.assertEqual(len(peer.asked), 161)

    def test_endgame_depth(self) -> None:
        """The second peer is asked for few of the blocks that the first one was asked for."""
        first = self.joined()
        self.bring_much(first)
        second = self.joined(2)
        self.assertEqual(len(second.asked), ENDGAME_DEPTH)
        self.assertTrue(set(second.asked) <= set(first.asked))

    def test_pieces_counted(self) -> None:
        peer = self.peer(False)
        self.hear(peer, message(BITFIELD, data=flags_of(range(0, PIECES, 2))) + message(4, 1) + message(4, 1))
        self.assertEqual(peer.piece_count, 22)


class Last(Speaking):
    """Only the last piece is missing, so that a block may be asked of two peers."""

    had = 40

    def test_cancel(self) -> None:
        """What one of two brought is cancelled at the other one."""
        peers = [self.peer(False, port) for port in (1, 2)]
        for peer in peers:
            self.said(peer)
            asked = self.hear(peer, message(HAVE, 40) + message(UNCHOKE))
            self.assertEqual(asked, message(INTERESTED) + message(REQUEST, 40, 0, 12345))
        self.hear(peers[0], message(BLOCK_MESSAGE, 40, 0, data=CONTENT[40 * PIECE :]))
        self.assertTrue(self.said(peers[1]).startswith(message(CANCEL, 40, 0, 12345)))
        self.assertEqual((self.session.asks, self.session.figures.endgame_requests), ({}, 1))


class Numbers(Speaking):
    """A worker's number isn't given to another peer while it names the sender of a block."""

    had = 0
    most_peers = 1  # so that there are two numbers for peers, and one for the disk

    def test_kept(self) -> None:
        first = self.peer(True, 1)
        self.hear(first, message(HAVE_ALL) + message(UNCHOKE))
        (piece, begin) = next(iter(first.asked))
        self.hear(first, message(BLOCK_MESSAGE, piece, begin, data=CONTENT[piece * PIECE + begin :][:BLOCK]))
        number = first.worker
        self.leave(first)
        for port in (2, 3, 4):
            peer = self.peer(True, port)
            self.assertNotEqual(peer.worker, number)
            self.leave(peer)
        self.assertEqual(self.download.parts.content.owners[self.download.parts.picker.sender(piece, begin // BLOCK)], ("127.0.0.1", 1))


if __name__ == "__main__":
    unittest.main()
