"""Who works alone after a check that failed, until a liar is named."""

from __future__ import annotations

import time
import unittest

from piecepick import DepthByRate

from fetch.content import Verdict
from fetch.peer import MOST_DEPTH, Peer, milliseconds
from fetch.session import SILENCE
from fetch.suspects import LONGEST

from .spoken import Speaking, message
from .support import BLOCK, BLOCK_MESSAGE, CONTENT, HAVE_ALL, PIECE, PIECES, REJECT, UNCHOKE


class Suspected(Speaking):
    """Peers that have all, each asked for one block at a time. Pieces come in order."""

    seeders = 5
    lies_at = 4  # the peer, by its port, that sends what is wrong

    def setUp(self) -> None:
        super().setUp()
        parts = self.download.parts
        self.picker, self.swarm, self.content = parts.picker, parts.swarm, parts.content
        self.suspects = self.session.suspects
        self.picker.set_in_order()
        self.peers = [self.joined(port) for port in range(1, self.seeders + 1)]
        self.liar = self.peers[self.lies_at - 1]

    def joined(self, port: int) -> Peer:
        """A peer that unchokes us, so that it is asked for a block."""
        peer = self.peer(True, port)
        peer.by_rate = DepthByRate(milliseconds(self.session.now), depth=1, deepest=MOST_DEPTH)
        self.picker.depth(peer.worker, 1)
        self.hear(peer, message(HAVE_ALL) + message(UNCHOKE))
        return peer

    def deepen(self, peer: Peer, depth: int) -> set[int]:
        """The peer may be asked for so many blocks. The pieces that it is asked for then."""
        self.picker.depth(peer.worker, depth)
        self.session.ask(peer)
        return self.pieces_at(peer)

    def pieces_at(self, peer: Peer) -> set[int]:
        """The pieces that the peer is asked for."""
        return {piece for piece, _ in peer.asked}

    def send(self, peer: Peer) -> None:
        """The peer sends the block that it was asked for first, and the liar a wrong one."""
        piece, begin = next(iter(peer.asked))
        block = CONTENT[piece * PIECE + begin :][:BLOCK]
        self.hear(peer, message(BLOCK_MESSAGE, piece, begin, data=bytes(len(block)) if peer is self.liar else block))

    def bring(self, peer: Peer) -> None:
        """The same, and a piece that is full is checked. Who is banned by that goes."""
        self.send(peer)
        end = time.monotonic() + 10
        while self.download.parts.checker.under_way:
            self.assertLess(time.monotonic(), end)
            self.swarm._settle()
            time.sleep(0.001)
        for other in list(self.session.peers.values()):
            if self.swarm.addresses.is_banned(other.address):
                self.leave(other)
        self.session.ask_idle()

    def bring_each(self) -> None:
        """Each peer brings a block, if it is asked for one."""
        for peer in self.peers:
            if peer.is_joined and peer.asked:
                self.bring(peer)

    def alone(self) -> list[int]:
        """The ports of those that work alone."""
        return sorted(peer.address[1] for peer, since in self.suspects.since.items() if since is not None)


class Five(Suspected):
    """Five peers, and nothing is there. The first four bring piece 0, which is wrong. The liar has begun piece 2 by then."""

    had = 0

    def setUp(self) -> None:
        super().setUp()
        self.bring_each()
        self.assertEqual((self.content.failed, self.alone()), (1, [1, 2, 3, 4]))
        self.assertEqual(self.pieces_at(self.liar), {2})

    def test_named(self) -> None:
        """The next piece of the liar is of the liar alone, and names it. Nobody else is banned, and all work with the others again."""
        for _ in range(4):
            self.assertFalse(any(2 in self.pieces_at(peer) for peer in self.peers if peer is not self.liar))
            self.assertEqual((self.content.failed, self.swarm.banned), (1, 0))
            self.bring_each()
        self.assertTrue(self.swarm.addresses.is_banned(self.liar.address))
        self.assertEqual((self.content.failed, self.suspects.since), (2, {}))
        for _ in range(2 * PIECES):
            self.bring_each()
        self.assertEqual((self.content.failed, self.swarm.banned, len(self.session.peers)), (2, 1, 4))
        self.assertEqual(self.content.had_count, PIECES)

    def test_cleared(self) -> None:
        """A right piece clears its only sender, which goes on with pieces of others then."""
        honest = self.peers[0]
        self.bring(honest)
        for _ in range(4):
            self.assertEqual((self.pieces_at(honest), self.alone()), ({3}, [1, 2, 3, 4]))
            self.bring(honest)
        self.assertEqual((self.alone(), honest in self.suspects.since, self.content.has(3)), ([2, 3, 4], False, True))
        # It had begun a piece when it was cleared. The least one is piece 0, which the fifth peer has begun.
        self.assertEqual((self.pieces_at(honest), self.pieces_at(self.peers[4])), ({4}, {0}))
        self.bring(honest)
        self.assertEqual(self.pieces_at(honest), {0})

    def test_late(self) -> None:
        """What is asked of a silent suspect is asked of others, and so is the rest of its piece. It is one again after another failure."""
        helper = self.peers[4]
        self.assertNotIn(2, self.deepen(helper, 12))
        self.session.now += SILENCE + 1
        self.assertTrue(self.session.time_out(self.liar))
        self.assertEqual((self.alone(), self.liar in self.suspects.since), ([1, 2, 3], True))
        self.assertIn(2, self.deepen(helper, 24))
        self.suspects.heed(Verdict(39, False, {helper.address, None}), self.peers, self.session.now)
        self.assertEqual(self.alone(), [1, 2, 3, 4, 5])

    def test_reject(self) -> None:
        """A suspect that rejects a request works with the others again: it might reject the rest of its piece for ever."""
        self.bring(self.liar)
        piece, begin = next(iter(self.liar.asked))
        self.assertNotIn(2, self.deepen(self.peers[4], 12))
        self.hear(self.liar, message(REJECT, piece, begin, BLOCK))
        self.assertEqual((piece, self.alone()), (2, [1, 2, 3]))
        self.assertIn(2, self.deepen(self.peers[4], 24))

    def test_long(self) -> None:
        """Nobody works alone for long."""
        now = self.session.now
        self.suspects.time_out(self.liar, now + LONGEST)
        self.assertEqual(self.alone(), [1, 2, 3, 4])
        self.suspects.time_out(self.liar, now + LONGEST + 1)
        self.assertEqual(self.alone(), [1, 2, 3])

    def test_gone(self) -> None:
        """A suspect that goes is one no more, and the worker's next peer isn't one."""
        worker = self.liar.worker
        self.leave(self.liar)
        self.assertNotIn(self.liar, self.suspects.since)
        self.swarm.free_workers.remove(worker)
        self.swarm.free_workers.insert(0, worker)
        other = self.joined(6)
        self.assertEqual(other.worker, worker)
        self.assertEqual(self.alone(), [1, 2, 3])
        self.assertEqual(self.deepen(other, 2), {0})  # where the fifth peer works too


class One(Suspected):
    """A liar, which is alone at first."""

    had = 0
    seeders = lies_at = 1

    def send_block(self, piece: int, begin: int) -> None:
        """The liar sends a block of zeros."""
        self.assertIn((piece, begin), self.liar.asked)
        self.hear(self.liar, message(BLOCK_MESSAGE, piece, begin, data=bytes(BLOCK)))

    def test_discarded(self) -> None:
        """Whoever is named has sent blocks of other pieces too. They are asked for again, so that no further piece fails."""
        self.deepen(self.liar, 6)
        self.send_block(1, 0)
        for begin in range(BLOCK, PIECE, BLOCK):
            self.send_block(0, begin)
        self.assertEqual((self.content.held[1], self.content.discarded), (bytearray([1, 0, 0, 0]), 0))
        self.bring(self.liar)
        self.assertTrue(self.swarm.addresses.is_banned(self.liar.address))
        self.assertEqual((self.content.failed, self.content.discarded, self.content.held), (1, 1, {}))
        self.peers = [self.joined(2)]
        for _ in range(4 * PIECES):
            self.bring_each()
        self.assertEqual((self.content.failed, self.content.had_count), (1, PIECES))


class Two(Suspected):
    """Two peers, and three pieces that aren't there. Both bring piece 38, which is wrong, and have begun piece 39 by then."""

    had = 38
    seeders = 2
    lies_at = 2

    def test_idle(self) -> None:
        """A suspect that has nothing else to bring goes on with what others have begun."""
        honest, liar = self.peers
        for peer in (honest, liar, honest, liar):
            self.bring(peer)
        self.assertEqual((self.alone(), self.content.failed), ([1, 2], 1))
        self.assertEqual((self.pieces_at(honest), self.pieces_at(liar)), ({39}, {39}))
        self.bring(liar)
        self.bring(honest)
        # Nobody who works alone goes on with piece 39: the liar begins piece 38 anew, and the other one the last piece.
        self.assertEqual((self.pieces_at(liar), self.pieces_at(honest)), ({38}, {40}))
        self.send(honest)
        self.assertEqual((self.pieces_at(honest), self.alone()), ({39}, [2]))


if __name__ == "__main__":
    unittest.main()
