"""What a reader changes: the levels before it, the order, and whom urgent blocks are asked of."""

from __future__ import annotations

import unittest
from unittest import mock

from piecepick import Picker

from fetch.content import Verdict
from fetch.peer import ALL_LEVELS, FIRST_DEPTH, FIRST_DEPTH_READING, Peer
from fetch.serving import LOOK, NEAREST, URGENT, Gate, Urgent, levels_before

from .spoken import Speaking, message
from .support import BITFIELD, BLOCK, BLOCK_MESSAGE, CANCEL, CONTENT, HAVE_ALL, PIECE, PIECES, UNCHOKE, flags_of

USUAL = 4
NEAREST_PIECES = NEAREST // PIECE


class Levels(unittest.TestCase):
    """The levels by how near a piece is."""

    def test_near(self) -> None:
        levels = levels_before(range(5, 100), 1 << 20)
        self.assertEqual(levels, dict.fromkeys(range(5, 7), 7) | dict.fromkeys(range(7, 13), 6) | dict.fromkeys(range(13, 37), 5))

    def test_long_pieces(self) -> None:
        """The piece that is read and the next one are the nearest, however long they are."""
        self.assertEqual(levels_before(range(3, 9), 1 << 25), {3: 7, 4: 7})
        self.assertEqual(levels_before(range(8, 9), 1 << 25), {8: 7})


class Reading(Speaking):
    """Readers, and perhaps peers. Of the content nothing is there; the last piece isn't read."""

    had = 0
    in_order = False

    def setUp(self) -> None:
        super().setUp()
        self.picker = self.download.parts.picker
        self.gate = Gate(self.download.parts.content, lambda: None)
        self.gate.is_closed = True  # so that no reader waits
        levels = bytearray([USUAL] * PIECES)
        levels[30:32], levels[39] = b"\7\0", 7
        self.picker.set_levels(levels)
        self.picker.set_in_order(self.in_order)
        self.urgent = Urgent(self.gate, self.session, bytes(levels), self.in_order)

    def read(self, first: int, last: int = PIECES - 2, reader: int = 0) -> None:
        """A reader needs these pieces next."""
        self.gate.wait(reader, range(first, last + 1))
        self.urgent.tick()

    def leave_reader(self, reader: int = 0) -> None:
        """It goes."""
        self.gate.leave(reader)
        self.urgent.tick()

    def look(self) -> None:
        """The next look at the peers."""
        self.session.now += LOOK
        self.urgent.tick()

    def told(self) -> list[int]:
        """The levels of all pieces."""
        return [self.picker.level(piece) for piece in range(PIECES)]

    def joined(self, port: int, rate: float | None, pieces: range = range(PIECES)) -> Peer:
        """A peer that chokes us still, of which this rate was measured before."""
        peer = self.peer(False, port)
        self.hear(peer, message(BITFIELD, data=flags_of(pieces)))
        peer.pace.rate = rate
        return peer


class Before(Reading):
    """Levels and order."""

    def test_levels(self) -> None:
        """What a reader leaves has its own level again, and a higher one that the user told stays."""
        own = self.told()
        self.read(1)
        self.assertEqual(self.told(), [USUAL] + [7] * NEAREST_PIECES + [6] * 6 + [7, USUAL])
        self.read(25, 31)
        self.assertEqual(self.told(), own[:25] + [7] * 7 + own[32:])
        self.leave_reader()
        self.assertEqual(self.told(), own)

    def test_two_readers(self) -> None:
        """A piece before both has the level for the nearer one."""
        self.read(0)
        self.read(32, reader=1)
        self.assertEqual(set(self.told()[:40]), {7})
        self.leave_reader(1)
        self.assertEqual(self.told()[32:39], [6] * 7)

    def test_order(self) -> None:
        """As long as somebody reads, what is urgent comes in order and all else doesn't."""
        before = self.picker.order_from
        self.urgent.tick()
        self.assertEqual(self.picker.order_from, before)
        self.read(3)
        self.read(5, reader=1)
        self.leave_reader(0)
        self.assertEqual(self.picker.order_from, URGENT)
        self.leave_reader(1)
        self.assertEqual(self.picker.order_from, before)


class BeforeInOrder(Before):
    """The same where the user wants all in order."""

    in_order = True


class Reached(Reading):
    """Quick and slow peers."""

    def test_slow(self) -> None:
        """A slow peer is asked for what isn't urgent alone, until the reader goes."""
        self.read(0)
        quick, slow, new = self.joined(1, 1e6), self.joined(2, 1e3), self.joined(3, None)
        self.hear(quick, message(UNCHOKE))
        self.look()
        self.assertEqual([peer.reach for peer in (quick, slow, new)], [ALL_LEVELS, URGENT - 1, ALL_LEVELS])
        self.hear(slow, message(UNCHOKE))
        self.assertEqual(list(slow.asked), [(40, 0)])
        self.assertEqual(list(quick.asked)[:5], [(0, 0), (0, BLOCK), (0, 2 * BLOCK), (0, 3 * BLOCK), (1, 0)])
        self.leave_reader()
        self.assertEqual(slow.reach, ALL_LEVELS)
        self.assertGreater(len(slow.asked), 1)

    def test_first_depth(self) -> None:
        """A peer that joins while somebody reads is asked for few blocks at first, and one that joins later for as many as else."""
        self.read(0)
        early = self.joined(1, None)
        self.hear(early, message(UNCHOKE))
        self.assertEqual(list(early.asked), [(piece, at * BLOCK) for piece in (0, 1) for at in range(4)])
        self.assertEqual(self.picker.outstanding(early.worker), FIRST_DEPTH_READING)
        self.leave_reader()
        later = self.joined(2, None)
        self.hear(later, message(UNCHOKE))
        self.assertEqual(len(later.asked), FIRST_DEPTH)

    def test_taken_back(self) -> None:
        """What is urgent and in flight at a slow peer is cancelled there, and asked of others. It is kept where it comes all the same."""
        self.read(0)
        slow = self.joined(1, 1e3)
        self.hear(slow, message(UNCHOKE))
        quick = self.joined(2, 1e6)
        self.hear(quick, message(UNCHOKE))
        self.assertIn((0, 0), slow.asked)
        self.said(slow)
        self.look()
        self.assertEqual(list(slow.asked), [(40, 0)])
        said = self.said(slow)
        self.assertTrue(said.startswith(message(CANCEL, 0, 0, BLOCK) + message(CANCEL, 0, BLOCK, BLOCK)))
        self.assertEqual(self.picker.outstanding(slow.worker), 1)
        block = next(iter(quick.asked))
        self.hear(quick, message(BLOCK_MESSAGE, *block, data=CONTENT[block[0] * PIECE + block[1] :][:BLOCK]))
        self.assertIn((0, 0), quick.asked)
        self.hear(slow, message(BLOCK_MESSAGE, 0, 0, data=CONTENT[:BLOCK]))
        self.assertEqual((self.session.figures.unasked, self.download.parts.content.held[0][0]), (0, 1))

    def test_alone(self) -> None:
        """A slow peer that alone has an urgent piece brings it, and nobody less when there are only slow ones."""
        self.read(0)
        quick, slow, slower = self.joined(1, 1e6, range(39)), self.joined(2, 1e3), self.joined(3, 9e2)
        for peer in (quick, slow, slower):
            self.hear(peer, message(UNCHOKE))
        self.look()
        self.assertEqual([peer.reach for peer in (quick, slow, slower)], [ALL_LEVELS, ALL_LEVELS, URGENT - 1])
        self.leave(quick)
        self.look()
        self.assertEqual([peer.reach for peer in (slow, slower)], [ALL_LEVELS, ALL_LEVELS])

    def test_told_once(self) -> None:
        """A reach is told when it is another one, and no more."""
        with mock.patch.object(Picker, "reach", autospec=True, side_effect=Picker.reach) as reach:
            self.read(0)
            quick, slow = self.joined(1, 1e6), self.joined(2, 1e3)
            self.hear(quick, message(UNCHOKE))
            for _ in range(3):
                self.look()
            self.leave_reader()
            self.look()
        self.assertEqual([call.args[1:] for call in reach.call_args_list], [(slow.worker, URGENT - 1), (slow.worker, ALL_LEVELS)])

    def test_suspect(self) -> None:
        """While somebody reads nobody works alone, since a piece of several peers would wait for others."""
        suspect, since = self.joined(1, None), self.session.suspects.since
        failed = Verdict(40, False, {suspect.address, None})
        self.session.suspects.heed(failed, [suspect], 7.0)
        self.assertEqual(since, {suspect: 7.0})
        self.read(0)
        self.assertEqual(since, {suspect: None})
        self.session.suspects.heed(failed, [suspect], 8.0)
        self.assertEqual(since, {suspect: None})
        self.leave_reader()
        self.session.suspects.heed(failed, [suspect], 9.0)
        self.assertEqual(since, {suspect: 9.0})

    def test_measured(self) -> None:
        """The rate of a peer is that of its full line."""
        peer = self.peer(True)
        self.hear(peer, message(HAVE_ALL) + message(UNCHOKE))
        for _ in range(4):
            self.session.now += 1.0
            (piece, begin) = next(iter(peer.asked))
            self.hear(peer, message(BLOCK_MESSAGE, piece, begin, data=CONTENT[piece * PIECE + begin :][:BLOCK]))
        peer.pace.follow(self.session.now)
        self.assertAlmostEqual(peer.pace.rate or 0.0, BLOCK, delta=1.0)
        self.assertEqual(self.session.lines()[0].shows.bit_count(), PIECES)


if __name__ == "__main__":
    unittest.main()
