"""Each call, at each kind of picker."""

from __future__ import annotations

import hashlib
import unittest
from collections.abc import Callable
from typing import Any

from support import ALL, BLOCK, CONTENT, DIGESTS, INFO, METAINFO, PARTS, PIECE, PIECES, SEVERAL, bring, picker, with_peer

import piecepick
from piecepick import Answer, File, InputFault, Keeps, Kind, Picker, PickRule, PiecepickError, Reason, Status, hash_four, version

STORED = [Kind.STORED, Kind.FULL]
WITH_INTEREST = Answer(Kind.NOTED, interesting=True)


def refused(reason: Reason) -> Answer:
    """A refusal."""
    return Answer(Kind.REFUSED, reason=reason)


def bring_to(file: bytearray, made: Picker, worker: int, piece: int, begin: int, data: bytes) -> Kind:
    """A block comes to a client that keeps the content itself: it writes the bytes where they are stored, and at no other answer."""
    kind = made.arrived(worker, piece, begin, data).kind
    if kind in STORED:
        file[begin : begin + len(data)] = data
    return kind


class CallCase(unittest.TestCase):
    """A case that looks at statuses."""

    def assert_status(self, status: Status, call: Callable[..., object], *arguments: object) -> None:
        """The call raises just this status."""
        with self.assertRaises(PiecepickError) as caught:
            call(*arguments)
        self.assertIs(caught.exception.status, status)


class Opening(CallCase):
    """Pickers are made of a metainfo file or of parts."""

    def test_metainfo(self) -> None:
        for data in (METAINFO, bytearray(METAINFO), memoryview(METAINFO)):
            with Picker(data) as made:
                self.assertEqual((made.pieces, made.workers, made.total), (PIECES, 50, len(CONTENT)))
                self.assertEqual(made.name, b"some")
                self.assertEqual(made.infohash, hashlib.sha1(INFO).digest())
                self.assertEqual([made.piece_hash(piece) for piece in range(PIECES)], DIGESTS)
                self.assertEqual([made.piece_length(piece) for piece in range(PIECES)], [len(part) for part in PARTS])
                self.assertEqual(made.blocks(6), 2)

    def test_files(self) -> None:
        with Picker(METAINFO) as made:
            self.assertEqual(made.files, [File(len(CONTENT), (b"some",))])
        with Picker(SEVERAL) as made:
            paths = [(b"folder", b"one"), (b"folder", b"", b"..", b"a/b\0"), (b"folder", b"deep", b"two")]
            self.assertEqual(made.files, [File(length, path) for length, path in zip((5, 0, 11), paths)])
            self.assertEqual(made.total, 16)
        with Picker.open_parts(PIECE, len(CONTENT), b"".join(DIGESTS)) as made:
            self.assertEqual(made.files, [])

    def test_parts(self) -> None:
        with Picker.open_parts(PIECE, len(CONTENT), b"".join(DIGESTS), workers=2) as made:
            self.assertEqual((made.pieces, made.workers, made.name, made.infohash), (PIECES, 2, b"", bytes(20)))
        self.assert_status(Status.PIECES_LENGTH, Picker.open_parts, PIECE, len(CONTENT), bytes(21))
        self.assert_status(Status.COUNT_MISMATCH, Picker.open_parts, PIECE, len(CONTENT), bytes(20))
        self.assert_status(Status.PIECE_LENGTH, Picker.open_parts, 0, 1, bytes(20))
        self.assert_status(Status.NO_CONTENT, Picker.open_parts, 1, 0, b"")

    def test_no_torrent(self) -> None:
        self.assert_status(Status.BENCODE, Picker, b"")
        self.assert_status(Status.BENCODE, Picker, METAINFO + b"e")
        self.assert_status(Status.NOT_DICTIONARY, Picker, b"i1e")
        self.assert_status(Status.MISSING_KEY, Picker, b"de")
        self.assertRaises(ValueError, Picker, b"")

    def test_options(self) -> None:
        for name, number, status in [
            ("workers", 0, Status.WORKER),
            ("workers", 1025, Status.WORKER),
            ("keeps", 3, Status.OPTIONS),
            ("depth", 0, Status.RULES),
            ("depth", 65, Status.RULES),
            ("deepest", 4097, Status.RULES),
            ("askers", 0, Status.RULES),
            ("open", 1025, Status.RULES),
            ("rush", 4097, Status.RULES),
            ("shown", 2, Status.RULES),
            ("random", PIECES + 1, Status.RULES),
        ]:
            with self.subTest(name=name, number=number):
                self.assert_status(status, lambda choice: Picker(METAINFO, **choice), {name: number})

    def test_version(self) -> None:
        self.assertEqual(version(), "1.2.0")


class Peers(CallCase):
    """What comes on the wire."""

    def test_a_peer_comes_and_goes(self) -> None:
        with picker() as made:
            self.assertEqual(made.next(0), refused(Reason.NOT_JOINED))
            self.assertEqual(made.join(0), Answer(Kind.JOINED))
            self.assertEqual(made.join(0), refused(Reason.ALREADY_JOINED))
            self.assert_status(Status.WORKER, made.join, 3)
            self.assertEqual(made.next(0).kind, Kind.CHOKED)
            self.assertEqual(made.unchoke(0).kind, Kind.QUIET)
            self.assertEqual(made.next(0).kind, Kind.NOTHING_LEFT)
            self.assertEqual(made.have(0, 2), WITH_INTEREST)
            self.assert_status(Status.PIECE, made.have, 0, PIECES)
            self.assertEqual(made.availability(2), 1)
            self.assertEqual(made.choke(0).kind, Kind.QUIET)
            self.assertEqual(made.leave(0).kind, Kind.QUIET)
            self.assertEqual(made.availability(2), 0)

    def test_bitfields(self) -> None:
        with picker() as made:
            made.join(0)
            self.assert_status(Status.BITS_LENGTH, made.bits, 0, b"\0\0")
            self.assert_status(Status.BITS_LENGTH, made.haves, 0, b"")
            self.assert_status(Status.SPARE_BITS, made.bits, 0, b"\x01")
            self.assertEqual(made.bits(0, b"\0"), Answer(Kind.NOTED))
            self.assertEqual(made.bits(0, ALL), refused(Reason.LATE_BITS))
            self.assertEqual(made.haves(0, bytearray(ALL)), WITH_INTEREST)

    def test_blocks_are_asked_and_released(self) -> None:
        with with_peer() as made:
            self.assertEqual(made.depth(0, 2).kind, Kind.QUIET)
            self.assertEqual(made.depth(0, 501), refused(Reason.WRONG_DEPTH))
            first, second = made.next(0), made.next(0, 2**64 - 1)
            self.assertEqual([first.kind, second.kind, made.next(0).kind], [Kind.REQUEST, Kind.REQUEST, Kind.PIPE_FULL])
            self.assertEqual(made.outstanding(0), 2)
            self.assertEqual([made.outstanding_at(0, 0), made.outstanding_at(0, 1)], [first, second])
            self.assert_status(Status.PLACE, made.outstanding_at, 0, 2)
            self.assertEqual(made.release(0, first.piece, first.begin).kind, Kind.QUIET)
            self.assertEqual(made.release(0, first.piece, first.begin), refused(Reason.NOT_REQUESTED))
            self.assertEqual(made.outstanding(0), 1)

    def test_reach(self) -> None:
        with with_peer() as made:
            made.set_levels(bytes([7, 5, 4, 2, 0, 0, 0]))
            self.assertEqual(made.reach(0, 4).kind, Kind.QUIET)
            self.assertEqual([made.next(0).piece for _ in range(4)], [2, 2, 3, 3])
            self.assertEqual(made.next(0).kind, Kind.IDLE)
            self.assertEqual(made.reach(0, 7).kind, Kind.QUIET)
            self.assertEqual(made.next(0).block, (0, 0, BLOCK))
            for level in (8, 260, 2**32 - 1):
                self.assertEqual(made.reach(0, level), refused(Reason.WRONG_LEVEL))
            self.assertEqual(made.reach(1, 7), refused(Reason.NOT_JOINED))
            self.assert_status(Status.WORKER, made.reach, 3, 7)
            self.assertEqual(made.reach(0, 0).kind, Kind.QUIET)
            self.assertEqual((made.outstanding(0), made.next(0).kind), (5, Kind.IDLE))

    def test_reach_goes_with_its_peer(self) -> None:
        with with_peer() as made:
            made.reach(0, 3)
            self.assertEqual(made.next(0).kind, Kind.IDLE)
            made.leave(0)
            made.join(0)
            made.bits(0, ALL)
            made.unchoke(0)
            self.assertEqual(made.next(0).kind, Kind.REQUEST)

    def test_a_dropped_piece_is_asked_of_another_peer(self) -> None:
        with with_peer() as made:
            made.want(b"\x80")
            made.join(1)
            made.have(1, 0)
            made.unchoke(1)
            blocks = [(0, 0, BLOCK), (0, BLOCK, BLOCK)]
            self.assertEqual([made.next(0).block for _ in blocks], blocks)
            before = made.epoch
            self.assertEqual(made.lack(0, 0), Answer(Kind.NOTED))
            self.assertGreater(made.epoch, before)
            self.assertEqual((made.outstanding(0), made.availability(0), made.next(0).kind), (0, 1, Kind.NOTHING_LEFT))
            self.assertEqual([made.next(1).block for _ in blocks], blocks)
            self.assertEqual(made.have(0, 0), WITH_INTEREST)
            self.assertEqual(made.availability(0), 2)
            self.assert_status(Status.WORKER, made.lack, 3, 0)
            self.assert_status(Status.PIECE, made.lack, 0, PIECES)

    def test_a_piece_that_was_never_shown_may_be_dropped(self) -> None:
        with picker() as made:
            self.assertEqual(made.lack(0, 4), refused(Reason.NOT_JOINED))
            made.join(0)
            self.assertEqual(made.lack(0, 4), Answer(Kind.NOTED))
            self.assertEqual(made.bits(0, ALL), refused(Reason.LATE_BITS))
            self.assertEqual(made.have(0, 2), WITH_INTEREST)
            self.assertEqual(made.lack(0, 4), WITH_INTEREST)
            self.assertEqual((made.availability(2), made.availability(4)), (1, 0))

    def test_usual_depth(self) -> None:
        with Picker.open_parts(20 * BLOCK, 20 * BLOCK, bytes(20)) as made:
            made.join(0)
            made.have(0, 0)
            made.unchoke(0)
            self.assertEqual([made.next(0).kind for _ in range(17)], [Kind.REQUEST] * 16 + [Kind.PIPE_FULL])

    def test_a_block_from_another_peer_is_cancelled(self) -> None:
        with with_peer() as made:
            made.join(1)
            piece, begin, length = made.next(0).block
            block = PARTS[piece][begin : begin + length]
            self.assertEqual(made.arrived(1, piece, begin, block[1:]), refused(Reason.WRONG_LENGTH))
            self.assertEqual(made.arrived(1, piece, 5, block), refused(Reason.NO_SUCH_BLOCK))
            self.assertEqual(made.arrived(1, piece, begin, block).kind, Kind.STORED)
            self.assertEqual(made.arrived(0, piece, begin, block).kind, Kind.DROPPED)
            self.assertEqual(made.sender(piece, begin // BLOCK), 1)
            self.assert_status(Status.NOT_HELD, made.sender, piece, 1 - begin // BLOCK)
            self.assert_status(Status.BLOCK, made.sender, piece, 2)

    def test_cancel(self) -> None:
        with with_peer() as made:
            made.join(1)
            asked = made.next(0)
            piece, begin, length = asked.block
            made.arrived(1, piece, begin, PARTS[piece][begin : begin + length])
            self.assertEqual(made.next(0), asked._replace(kind=Kind.CANCEL))

    def test_epoch(self) -> None:
        with with_peer() as made:
            made.join(1)
            before = made.epoch
            made.leave(1)
            self.assertGreater(made.epoch, before)


class Late(CallCase):
    """A request that takes too long."""

    def begin(self, depth: int = 4) -> Picker:
        """Two peers that have each piece. The first one is asked for the first block of piece 0, and is late with it."""
        made = with_peer()
        self.addCleanup(made.close)
        made.join(1)
        made.bits(1, ALL)
        made.unchoke(1)
        for worker in range(2):
            made.depth(worker, depth)
        self.assert_asked(made, 0, (0, 0), PickRule.RAREST)
        self.assertEqual(made.late(0, 0, 0), Answer(Kind.QUIET))
        return made

    def assert_asked(self, made: Picker, worker: int, block: tuple[int, int], rule: PickRule) -> None:
        """The next request is for this block, by this rule."""
        piece, begin = block
        self.assertEqual(made.next(worker, 0).block, (piece, begin, BLOCK))
        self.assertIs(made.rule(piece, begin // BLOCK), rule)

    def assert_cancelled(self, made: Picker, worker: int, block: tuple[int, int]) -> None:
        """The next answer is a cancel of this block."""
        self.assertEqual(made.next(worker, 0), Answer(Kind.CANCEL, *block, BLOCK))

    def test_another_peer_is_asked(self) -> None:
        made = self.begin()
        self.assertEqual((made.outstanding(0), made.outstanding_at(0, 0).block), (1, (0, 0, BLOCK)))
        self.assert_asked(made, 0, (0, BLOCK), PickRule.RAREST)
        self.assert_asked(made, 1, (0, 0), PickRule.LATE)
        self.assertIs(made.arrived(1, 0, 0, PARTS[0][:BLOCK]).kind, Kind.STORED)
        self.assert_cancelled(made, 0, (0, 0))
        self.assert_asked(made, 0, (1, 0), PickRule.RAREST)

    def test_the_block_comes(self) -> None:
        made = self.begin()
        self.assertIs(made.arrived(0, 0, 0, PARTS[0][:BLOCK]).kind, Kind.STORED)
        self.assertEqual(made.outstanding(0), 0)
        self.assert_asked(made, 0, (0, BLOCK), PickRule.BEGUN)
        self.assert_asked(made, 1, (1, 0), PickRule.RAREST)

    def test_it_counts_for_the_depth(self) -> None:
        made = self.begin(depth=1)
        self.assertIs(made.next(0).kind, Kind.PIPE_FULL)
        made.depth(0, 2)
        self.assert_asked(made, 0, (0, BLOCK), PickRule.RAREST)

    def test_what_is_refused(self) -> None:
        made = self.begin()
        self.assertEqual(made.late(2, 0, 0), refused(Reason.NOT_JOINED))
        for worker, piece, begin in ((1, 0, 0), (0, 0, BLOCK), (0, 0, 1), (0, 1, 0)):
            self.assertEqual(made.late(worker, piece, begin), refused(Reason.NOT_REQUESTED))
        self.assert_status(Status.WORKER, made.late, 3, 0, 0)
        self.assert_status(Status.PIECE, made.late, 0, PIECES, 0)
        made.arrived(0, 0, 0, PARTS[0][:BLOCK])
        self.assertEqual(made.late(0, 0, 0), refused(Reason.NOT_REQUESTED))

    def test_twice_is_as_once(self) -> None:
        made = self.begin()
        self.assertEqual(made.late(0, 0, 0), Answer(Kind.QUIET))
        self.assertEqual(made.outstanding(0), 1)
        made.arrived(1, 0, 0, PARTS[0][:BLOCK])
        self.assert_cancelled(made, 0, (0, 0))
        self.assert_asked(made, 0, (0, BLOCK), PickRule.BEGUN)

    def test_a_choke_ends_it(self) -> None:
        for worker in range(2):
            made = self.begin()
            made.choke(0)
            made.unchoke(0)
            self.assert_asked(made, worker, (0, 0), PickRule.RAREST)

    def test_a_release_ends_it(self) -> None:
        for worker in range(2):
            made = self.begin()
            self.assertEqual(made.release(0, 0, 0), Answer(Kind.QUIET))
            self.assertEqual(made.late(0, 0, 0), refused(Reason.NOT_REQUESTED))
            self.assertEqual(made.outstanding(0), 0)
            self.assert_asked(made, worker, (0, 0), PickRule.RAREST)

    def test_no_other_peer(self) -> None:
        with with_peer() as made:
            for piece in range(PIECES - 1):
                bring(made, piece, PARTS[piece])
                made.settle(piece, DIGESTS[piece])
            last = made.arrived(0, PIECES - 1, BLOCK, PARTS[-1][BLOCK:]).kind, made.next(0).block
            self.assertEqual(last, (Kind.STORED, (PIECES - 1, 0, BLOCK)))
            made.late(0, PIECES - 1, 0)
            self.assertIs(made.next(0).kind, Kind.IDLE)
            self.assertIs(made.arrived(0, PIECES - 1, 0, PARTS[-1][:BLOCK]).kind, Kind.FULL)
            self.assertIs(made.settle(PIECES - 1, DIGESTS[-1]).kind, Kind.COMPLETE)
            self.assertEqual((made.next(0).kind, made.is_complete), (Kind.NOTHING_LEFT, True))

    def test_endgame_is_another_rule(self) -> None:
        made = self.begin()
        made.want(b"\x80")
        self.assert_asked(made, 0, (0, BLOCK), PickRule.RAREST)
        self.assertIs(made.next(0).kind, Kind.IDLE)
        self.assert_asked(made, 1, (0, 0), PickRule.LATE)
        self.assert_asked(made, 1, (0, BLOCK), PickRule.ENDGAME)
        self.assertEqual([made.next(worker).kind for worker in range(2)], [Kind.IDLE, Kind.IDLE])

    def test_epoch(self) -> None:
        made = self.begin()
        self.assert_asked(made, 0, (0, BLOCK), PickRule.RAREST)
        before = made.epoch
        made.late(0, 0, BLOCK)
        self.assertGreater(made.epoch, before)


class InFlight(CallCase):
    """A request that the picker didn't choose, and that is in flight. Two peers have each piece."""

    def setUp(self) -> None:
        self.made = with_peer()
        self.addCleanup(self.made.close)
        self.made.join(1)
        self.made.bits(1, ALL)
        self.made.unchoke(1)

    def assert_counts(self, worker: int, piece: int, begin: int) -> None:
        """It counts from now on."""
        self.assertEqual(self.made.requested(worker, piece, begin), Answer(Kind.IN_FLIGHT, piece, begin, BLOCK))

    def assert_not_now(self, worker: int, piece: int, begin: int) -> None:
        """It is refused, and nothing changes."""
        before = self.made.epoch, self.made.outstanding(worker)
        self.assertEqual(self.made.requested(worker, piece, begin), refused(Reason.NOT_WAITING))
        self.assertEqual((self.made.epoch, self.made.outstanding(worker)), before)

    def test_it_counts(self) -> None:
        """It is the last of the line, nobody else is asked for it, and a cancel is due where another peer brings it."""
        made = self.made
        before = made.epoch
        self.assertEqual(made.next(0, 0).block, (0, 0, BLOCK))
        self.assert_counts(0, 3, BLOCK)
        self.assertEqual([made.outstanding_at(0, place).block for place in range(made.outstanding(0))], [(0, 0, BLOCK), (3, BLOCK, BLOCK)])
        self.assertEqual((made.askers(3, 1), made.epoch), (1, before))
        self.assertEqual([made.next(1, 0).block for _ in range(3)], [(0, BLOCK, BLOCK), (3, 0, BLOCK), (1, 0, BLOCK)])
        self.assertIs(made.arrived(1, 3, BLOCK, PARTS[3][BLOCK:]).kind, Kind.STORED)
        self.assertEqual(made.next(0), Answer(Kind.CANCEL, 3, BLOCK, BLOCK))

    def test_endgame_begins(self) -> None:
        self.made.want(b"\x80")
        before = self.made.epoch
        self.assert_counts(0, 0, BLOCK)
        self.assertEqual(self.made.epoch, before)
        self.assert_counts(0, 0, 0)
        self.assertGreater(self.made.epoch, before)
        self.assertEqual(self.made.next(1).block, (0, 0, BLOCK))
        self.assertIs(self.made.rule(0, 0), PickRule.ENDGAME)

    def test_what_is_refused(self) -> None:
        made = self.made
        self.assertEqual(made.requested(2, 0, 0), refused(Reason.NOT_JOINED))
        for begin in (1, PIECE, 2**32 - 1):
            self.assertEqual(made.requested(0, 0, begin), refused(Reason.NO_SUCH_BLOCK))
        self.assert_status(Status.WORKER, made.requested, 3, PIECES, 0)
        self.assert_status(Status.PIECE, made.requested, 2, PIECES, 0)
        with with_peer(Keeps.JOURNAL) as journal:
            self.assert_status(Status.KEEPS, journal.requested, 0, 0, 0)

    def test_what_is_in_flight_or_held(self) -> None:
        made = self.made
        made.depth(0, 1)
        self.assert_counts(0, 0, 0)
        self.assert_not_now(0, 0, BLOCK)  # as many as may be are in flight
        made.depth(0, 4)
        for worker in range(2):
            self.assert_not_now(worker, 0, 0)
        made.late(0, 0, 0)
        self.assert_not_now(0, 0, 0)
        self.assert_counts(1, 0, 0)
        made.arrived(1, 0, 0, PARTS[0][:BLOCK])
        self.assert_not_now(1, 0, 0)
        self.assert_not_now(0, 1, 0)  # a cancel is due
        self.assertIs(made.next(0).kind, Kind.CANCEL)
        self.assert_counts(0, 1, 0)

    def test_what_the_peer_gets_nothing_of(self) -> None:
        made = self.made
        made.set_level(1, 5)
        made.reach(0, 4)
        self.assert_not_now(0, 1, 0)
        made.set_level(1, 0)
        self.assert_not_now(0, 1, 0)
        made.set_level(1, 4)
        made.lack(0, 1)
        self.assert_not_now(0, 1, 0)
        made.have(0, 1)
        made.alone(1)
        self.assert_counts(1, 5, 0)
        self.assert_not_now(0, 5, BLOCK)
        self.assert_counts(0, 1, 0)
        self.assert_not_now(1, 1, BLOCK)
        made.choke(0)
        self.assert_not_now(0, 1, 0)


class Alone(CallCase):
    """Two peers, and two pieces of two blocks, which both have. The second peer works alone, and has begun piece 0."""

    def setUp(self) -> None:
        self.made = Picker.open_parts(PIECE, 2 * PIECE, bytes(40), workers=3)
        self.addCleanup(self.made.close)
        for worker in range(2):
            self.come(worker)
        self.assertEqual(self.made.alone(1), Answer(Kind.QUIET))
        self.assert_asked(1, (0, 0))

    def come(self, worker: int) -> None:
        """A peer that has both pieces joins, and unchokes us."""
        self.made.join(worker)
        self.made.bits(worker, b"\xc0")
        self.made.unchoke(worker)

    def assert_asked(self, worker: int, *blocks: tuple[int, int]) -> None:
        """The next requests are for these blocks."""
        for piece, begin in blocks:
            self.assertEqual(self.made.next(worker, 0), Answer(Kind.REQUEST, piece, begin, BLOCK))

    def test_its_piece_is_asked_of_nobody_else(self) -> None:
        self.assert_asked(0, (1, 0), (1, BLOCK))
        self.assertIs(self.made.next(0).kind, Kind.IDLE)
        before = self.made.epoch
        self.assertEqual(self.made.alone(1, False), Answer(Kind.QUIET))
        self.assertGreater(self.made.epoch, before)
        self.assert_asked(0, (0, BLOCK))

    def test_it_goes_on_with_no_piece_of_others(self) -> None:
        self.assert_asked(0, (1, 0))
        self.assert_asked(1, (0, BLOCK))
        self.assertIs(self.made.next(1).kind, Kind.IDLE)
        self.made.alone(1, False)
        self.assert_asked(1, (1, BLOCK))

    def test_endgame(self) -> None:
        self.assert_asked(0, (1, 0), (1, BLOCK))
        self.assert_asked(1, (0, BLOCK))
        self.assert_asked(0, (0, 0))
        self.assertIs(self.made.rule(0, 0), PickRule.ENDGAME)
        self.assertEqual((self.made.askers(0, 0), self.made.askers(0, 1)), (2, 1))
        self.assert_asked(1, (1, 0))

    def test_a_choke_shares_its_piece(self) -> None:
        self.assertIs(self.made.arrived(1, 0, 0, bytes(BLOCK)).kind, Kind.STORED)
        self.assert_asked(0, (1, 0), (1, BLOCK))
        self.assertIs(self.made.next(0).kind, Kind.IDLE)
        self.made.choke(1)
        self.assert_asked(0, (0, BLOCK))

    def test_it_goes_with_its_peer(self) -> None:
        self.made.leave(1)
        self.assertEqual(self.made.alone(1), refused(Reason.NOT_JOINED))
        self.come(1)
        self.assert_asked(1, (0, 0))
        self.assert_asked(0, (0, BLOCK))

    def test_what_is_refused(self) -> None:
        for yes in (True, False):
            self.assertEqual(self.made.alone(2, yes), refused(Reason.NOT_JOINED))
            self.assert_status(Status.WORKER, self.made.alone, 3, yes)


class Endgame(unittest.TestCase):
    """What a second peer is asked for, of twenty pieces of a block each."""

    def asked(self, made: Picker, worker: int) -> int:
        """How many blocks the peer is asked for until it has none."""
        count = 0
        while (kind := made.next(worker).kind) is Kind.REQUEST:
            count += 1
        self.assertIs(kind, Kind.IDLE)
        return count

    def begin(self, flags: bytes, **choices: Any) -> Picker:
        """Two peers that show these pieces, and have unchoked us."""
        made = Picker.open_parts(BLOCK, 40 * BLOCK, bytes(800), workers=2, depth=64, **choices)
        self.addCleanup(made.close)
        for worker in range(2):
            made.join(worker)
            made.bits(worker, flags)
            made.unchoke(worker)
        return made

    def test_rush(self) -> None:
        choices: list[tuple[dict[str, int], int]] = [({}, 32), ({"rush": 0}, 0), ({"rush": 1}, 1), ({"rush": 33}, 33), ({"rush": 4096}, 40)]
        for choice, again in choices:
            with self.subTest(choice):
                made = self.begin(b"\xff\xff\xff\xff\xff", **choice)
                self.assertEqual((self.asked(made, 0), self.asked(made, 1)), (40, again))

    def test_next_rush(self) -> None:
        """With one in flight the peer gets a second one once the first came from the other peer."""
        made = self.begin(b"\xff\xff\xff\xff\xff", rush=1)
        self.assertEqual((self.asked(made, 0), self.asked(made, 1)), (40, 1))
        block = made.outstanding_at(1, 0)
        self.assertIs(made.arrived(0, block.piece, block.begin, bytes(BLOCK)).kind, Kind.FULL)
        self.assertEqual(made.next(1), block._replace(kind=Kind.CANCEL))
        self.assertEqual(self.asked(made, 1), 1)

    def test_shown(self) -> None:
        choices: list[tuple[dict[str, bool], int]] = [({}, 3), ({"shown": True}, 3), ({"shown": False}, 0)]
        for choice, again in choices:
            with self.subTest(choice):
                made = self.begin(b"\xe0\0\0\0\0", **choice)
                self.assertEqual((self.asked(made, 0), self.asked(made, 1)), (3, again))


class Pieces(CallCase):
    """What is to be downloaded, for all peers."""

    def test_levels(self) -> None:
        with with_peer() as made:
            self.assertEqual(made.level(3), 4)
            self.assertEqual(made.set_level(3, 7).kind, Kind.QUIET)
            self.assertEqual((made.level(3), made.next(0).piece), (7, 3))
            self.assertEqual(made.set_level(3, 8), refused(Reason.WRONG_LEVEL))
            self.assertEqual(made.set_level(3, 2**32 - 1), refused(Reason.WRONG_LEVEL))
            self.assert_status(Status.PIECE, made.set_level, PIECES, 1)
            self.assertEqual(made.set_levels(bytes(PIECES)).kind, Kind.QUIET)
            self.assertEqual((made.has_wanted, made.is_complete), (True, False))
            self.assertEqual(made.set_levels(bytes(PIECES - 1)), refused(Reason.WRONG_COUNT))
            self.assertEqual(made.want(b"\x40").kind, Kind.QUIET)
            self.assertEqual((made.level(1), made.level(3), made.has_wanted), (4, 0, False))

    def test_losses(self) -> None:
        """A lost piece is lacking, and a discarded block too; of a complete piece none is discarded, and a journal loses nothing."""
        digest = hashlib.sha1(bytes(2 * BLOCK)).digest()
        with Picker.open_parts(2 * BLOCK, 4 * BLOCK, 2 * digest, workers=1, keeps=Keeps.NOTHING) as made:
            made.join(0)
            for begin in (0, BLOCK):
                made.arrived(0, 0, begin, bytes(BLOCK))
            self.assertEqual(made.discard(0, BLOCK).kind, Kind.FAILED)
            self.assertFalse(made.is_waiting(0))
            self.assertEqual(made.discard(0, 1), refused(Reason.NO_SUCH_BLOCK))
            self.assertIs(made.arrived(0, 0, BLOCK, bytes(BLOCK)).kind, Kind.FULL)
            self.assertIs(made.settle(0, digest).kind, Kind.COMPLETE)
            self.assertEqual(made.discard(0, 0), refused(Reason.NOT_WAITING))
            before = made.epoch
            self.assertEqual(made.lose(0).kind, Kind.FAILED)
            self.assertEqual((made.has_piece(0), made.epoch > before), (False, True))
            self.assertIs(made.arrived(0, 0, 0, bytes(BLOCK)).kind, Kind.STORED)
            self.assert_status(Status.PIECE, made.lose, 2)
            self.assert_status(Status.PIECE, made.discard, 2, 0)
        with Picker(METAINFO, keeps=Keeps.JOURNAL) as made:
            self.assert_status(Status.KEEPS, made.lose, 0)
            self.assert_status(Status.KEEPS, made.discard, 0, 0)

    def test_order(self) -> None:
        with with_peer() as made:
            self.assertFalse(made.is_in_order)
            self.assertEqual(made.set_in_order().kind, Kind.QUIET)
            self.assertTrue(made.is_in_order)
            self.assertEqual(made.next(0).block, (0, 0, BLOCK))
            made.set_in_order(False)
            self.assertFalse(made.is_in_order)

    def test_order_of_some_levels(self) -> None:
        with with_peer() as made:
            made.set_levels(bytes([4, 4, 4, 4, 4, 5, 5]))
            self.assertEqual(made.order_from, 8)
            self.assertEqual(made.set_in_order_from(5).kind, Kind.QUIET)
            self.assertEqual((made.order_from, made.is_in_order), (5, False))
            self.assertEqual([made.next(0, 6).piece for _ in range(4)], [5, 5, 6, 6])
            # All are as rare here, and the word names the first one of them that isn't in order.
            self.assertEqual(made.next(0, 3).block, (3, 0, BLOCK))
            self.assertEqual(made.set_in_order_from(1).kind, Kind.QUIET)
            self.assertEqual((made.order_from, made.is_in_order), (1, True))
            self.assertEqual(made.next(0, 3).block, (0, 0, BLOCK))
            for level in (9, 260, 2**32 - 1):
                self.assertEqual(made.set_in_order_from(level), refused(Reason.WRONG_LEVEL))
            self.assertEqual(made.order_from, 1)

    def test_the_newest_order_holds(self) -> None:
        with picker() as made:
            for rising, level in ((True, 0), (False, 8)):
                self.assertEqual(made.set_in_order_from(5).kind, Kind.QUIET)
                self.assertEqual(made.set_in_order(rising).kind, Kind.QUIET)
                self.assertEqual((made.order_from, made.is_in_order), (level, rising))


class Rules(CallCase):
    """By which rule a block was requested."""

    def ruled(self, made: Picker, worker: int) -> tuple[int, PickRule]:
        """The piece of the next request, and its rule."""
        piece, begin, _ = made.next(worker, 1).block
        return piece, made.rule(piece, begin // BLOCK)

    def test_each(self) -> None:
        with Picker(METAINFO) as made:
            for worker in range(2):
                made.join(worker)
                made.bits(worker, ALL)
                made.unchoke(worker)
            self.assertEqual(self.ruled(made, 0), (1, PickRule.RANDOM))
            self.assertEqual(self.ruled(made, 0), (1, PickRule.BEGUN))
            bring(made, 1, PARTS[1])
            self.assertIs(made.settle(1, DIGESTS[1]).kind, Kind.COMPLETE)
            self.assertEqual(self.ruled(made, 0), (2, PickRule.RAREST))
            made.set_in_order()
            self.assertEqual([self.ruled(made, 0) for _ in range(2)], [(0, PickRule.IN_ORDER)] * 2)
            # Both blocks of the one piece that is wanted are in flight at the other peer.
            made.want(b"\x80")
            self.assertEqual([self.ruled(made, 1) for _ in range(2)], [(0, PickRule.ENDGAME)] * 2)
            self.assertIs(type(made.rule(0, 0)), PickRule)
            self.assert_status(Status.PIECE, made.rule, PIECES, 0)
            self.assert_status(Status.BLOCK, made.rule, 0, 2)


class Nothing(CallCase):
    """A picker that keeps nothing."""

    def test_settle(self) -> None:
        with with_peer() as made:
            self.assert_status(Status.NOT_WAITING, made.settle, 1, DIGESTS[1])
            self.assertEqual(bring(made, 1, PARTS[1]), STORED)
            self.assertTrue(made.is_waiting(1))
            self.assertEqual(made.settle(1, bytes(20)).kind, Kind.FAILED)
            self.assertEqual(bring(made, 1, PARTS[1]), STORED)
            self.assertEqual(made.settle(1, bytearray(DIGESTS[1])).kind, Kind.COMPLETE)
            self.assertEqual((made.has_piece(1), made.has_piece(2), made.is_waiting(1)), (True, False, False))
            for digest in (b"", bytes(19), bytes(21)):
                self.assertRaises(ValueError, made.settle, 1, digest)

    def test_verdict(self) -> None:
        with with_peer() as made:
            self.assert_status(Status.NOT_WAITING, made.verdict, 1, True)
            self.assertEqual(bring(made, 1, PARTS[1]), STORED)
            self.assertIs(made.verdict(1, False).kind, Kind.FAILED)
            self.assertEqual(bring(made, 1, PARTS[1]), STORED)
            self.assertEqual((made.is_interesting(0), made.is_interesting(1)), (True, False))
            self.assertIs(made.verdict(1, True).kind, Kind.COMPLETE)
            self.assertTrue(made.has_piece(1))

    def test_a_bad_copy_comes_second(self) -> None:
        file, bad = bytearray(PIECE), bytes(BLOCK)
        with with_peer() as made:
            made.join(1)
            self.assertIs(bring_to(file, made, 0, 1, 0, PARTS[1][:BLOCK]), Kind.STORED)
            self.assertIs(bring_to(file, made, 1, 1, 0, bad), Kind.DROPPED)
            self.assertIs(bring_to(file, made, 0, 1, BLOCK, PARTS[1][BLOCK:]), Kind.FULL)
            self.assertIs(bring_to(file, made, 1, 1, BLOCK, bad), Kind.DROPPED)
            self.assertEqual([made.sender(1, 0), made.sender(1, 1)], [0, 0])
            self.assertEqual(file, PARTS[1])
            self.assertIs(made.settle(1, hashlib.sha1(file).digest()).kind, Kind.COMPLETE)

    def test_a_bad_copy_comes_first(self) -> None:
        file, bad = bytearray(PIECE), bytes(BLOCK)
        with with_peer() as made:
            made.join(1)
            self.assertIs(bring_to(file, made, 1, 1, 0, bad), Kind.STORED)
            self.assertIs(bring_to(file, made, 0, 1, 0, PARTS[1][:BLOCK]), Kind.DROPPED)
            self.assertIs(bring_to(file, made, 0, 1, BLOCK, PARTS[1][BLOCK:]), Kind.FULL)
            self.assertEqual([made.sender(1, 0), made.sender(1, 1)], [1, 0])
            self.assertIs(made.settle(1, hashlib.sha1(file).digest()).kind, Kind.FAILED)

    def test_restore(self) -> None:
        with picker() as made:
            self.assertEqual(made.restore(2, 6, PARTS[6], DIGESTS[6]), refused(Reason.NOT_JOINED))
            made.join(2)
            self.assert_status(Status.LENGTH, made.restore, 2, 6, PARTS[6][1:], DIGESTS[6])
            self.assert_status(Status.WORKER, made.restore, 3, 6, PARTS[6], DIGESTS[6])
            self.assertEqual(made.restore(2, 6, PARTS[6], bytes(20)).kind, Kind.FAILED)
            self.assertEqual(made.restore(2, 6, memoryview(PARTS[6]), DIGESTS[6]).kind, Kind.COMPLETE)
            self.assert_status(Status.BEGUN, made.restore, 2, 6, PARTS[6], DIGESTS[6])
            self.assertTrue(made.has_piece(6))

    def test_resume(self) -> None:
        with picker() as made:
            self.assertEqual(made.resume(2, 6, True), refused(Reason.NOT_JOINED))
            made.join(2)
            self.assert_status(Status.WORKER, made.resume, 3, 6, True)
            self.assert_status(Status.PIECE, made.resume, 2, PIECES, True)
            self.assertEqual(made.resume(2, 6, False).kind, Kind.FAILED)
            self.assertEqual(made.resume(2, 6, True).kind, Kind.COMPLETE)
            self.assert_status(Status.BEGUN, made.resume, 2, 6, True)
            self.assertEqual((made.has_piece(6), made.sender(6, 0)), (True, 2))

    def test_received(self) -> None:
        with with_peer() as made:
            self.assertEqual(made.received(0, 1, 0, BLOCK - 1), refused(Reason.WRONG_LENGTH))
            self.assertEqual(made.received(0, 1, 5, BLOCK), refused(Reason.NO_SUCH_BLOCK))
            for length in (-1, 1 << 64):
                self.assertRaises(ValueError, made.received, 0, 1, 0, length)
            kinds = [made.received(0, 1, begin, BLOCK).kind for begin in (0, 0, BLOCK)]
            self.assertEqual(kinds, [Kind.STORED, Kind.DROPPED, Kind.FULL])
            self.assertEqual((made.is_waiting(1), made.verdict(1, True).kind), (True, Kind.COMPLETE))

    def test_what_it_lacks(self) -> None:
        with with_peer() as made:
            bring(made, 1, PARTS[1])
            self.assert_status(Status.KEEPS, made.job_take, 1)
            self.assert_status(Status.KEEPS, made.settle_now, 1)
            self.assert_status(Status.KEEPS, made.read, 1)
            self.assert_status(Status.KEEPS, made.audit)


class Begun(CallCase):
    """A picker that keeps what is begun."""

    def test_download(self) -> None:
        with with_peer(Keeps.BEGUN) as made:
            got = {}
            while (answer := made.next(0)).kind is Kind.REQUEST:
                piece, begin, length = answer.block
                if made.arrived(0, piece, begin, memoryview(PARTS[piece])[begin : begin + length]).kind is Kind.FULL:
                    with made.job_take(piece) as job:
                        job.hash()
                        self.assertEqual(job.settle().kind, Kind.COMPLETE)
                        got[piece] = bytes(job.read())
            self.assertEqual(answer.kind, Kind.NOTHING_LEFT)
            self.assertTrue(made.is_complete)
            self.assertEqual(b"".join(got[piece] for piece in range(PIECES)), CONTENT)

    def test_job(self) -> None:
        with with_peer(Keeps.BEGUN) as made:
            self.assert_status(Status.NOT_WAITING, made.job_take, 1)
            self.assert_status(Status.PIECE, made.job_take, PIECES)
            bring(made, 1, PARTS[1])
            job = made.job_take(1)
            self.assertEqual((job.piece, job.length), (1, PIECE))
            self.assert_status(Status.NOT_HASHED, job.settle)
            self.assertEqual(job.read(), PARTS[1])
            job.hash()
            self.assertEqual(job.settle().kind, Kind.COMPLETE)
            self.assert_status(Status.NOT_WAITING, job.settle)
        self.assertEqual(job.read(), PARTS[1])
        self.assert_status(Status.LENGTH, job.read_into, bytearray(PIECE - 1))
        self.assert_status(Status.CLOSED, job.settle)
        job.close()

    def test_stale(self) -> None:
        with with_peer(Keeps.BEGUN) as made:
            bring(made, 0, PARTS[1])
            first, second = made.job_take(0), made.job_take(0)
            for job in (first, second):
                job.hash()
            self.assertEqual(first.settle().kind, Kind.FAILED)
            bring(made, 0, PARTS[0])
            self.assert_status(Status.STALE, second.settle)

    def test_what_it_lacks(self) -> None:
        with with_peer(Keeps.BEGUN) as made:
            bring(made, 1, PARTS[1])
            self.assert_status(Status.KEEPS, made.settle, 1, DIGESTS[1])
            self.assert_status(Status.KEEPS, made.restore, 0, 2, PARTS[2], DIGESTS[2])
            self.assert_status(Status.KEEPS, made.resume, 0, 2, True)
            self.assert_status(Status.KEEPS, made.received, 0, 2, 0, BLOCK)
            self.assert_status(Status.KEEPS, made.settle_now, 1)


class Journal(CallCase):
    """A picker that keeps all."""

    def test_download(self) -> None:
        with with_peer(Keeps.JOURNAL) as made:
            for piece, part in enumerate(PARTS):
                bring(made, piece, part)
                self.assert_status(Status.INCOMPLETE, made.read, piece)
                self.assertEqual(made.settle_now(piece).kind, Kind.COMPLETE)
                self.assertEqual(made.read(piece), part)
            self.assert_status(Status.LENGTH, made.read_into, 0, bytearray(1))
            self.assert_status(Status.PIECE, made.settle_now, PIECES)
            with self.assertRaisesRegex(InputFault, "^read: no such piece$"):
                made.read(PIECES)
            self.assertTrue(made.is_complete and made.has_wanted)
            made.audit()

    def test_job(self) -> None:
        with with_peer(Keeps.JOURNAL) as made:
            bring(made, 6, PARTS[5][: len(PARTS[6])])
            with made.job_take(6) as job:
                job.hash()
                self.assertEqual(job.settle().kind, Kind.FAILED)
            made.audit()


class Hashing(CallCase):
    """Messages one by one, and four at once."""

    def test_hashing(self) -> None:
        for messages in (PARTS[:4], PARTS[3:], [b"", b"a", b"abc", bytes(1000)]):
            wanted = [hashlib.sha1(message).digest() for message in messages]
            self.assertEqual(hash_four(*messages), wanted)
            self.assertEqual([piecepick.hash(message) for message in messages], wanted)
        self.assertRaises(TypeError, piecepick.hash, "text")
        self.assertRaises(TypeError, hash_four, b"", b"", b"", "text")


class Faults(CallCase):
    """What is raised is a ValueError where the caller passed what isn't."""

    def test_kinds(self) -> None:
        with with_peer() as made:
            self.assertRaises(InputFault, made.join, 3)
            with self.assertRaises(PiecepickError) as caught:
                made.settle(0, DIGESTS[0])
            self.assertNotIsInstance(caught.exception, ValueError)
            self.assertEqual(str(caught.exception), "settle: the piece isn't waiting for a check: a block is lacking, or it is complete")


if __name__ == "__main__":
    unittest.main()
