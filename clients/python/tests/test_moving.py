"""A picker for more workers takes the place of one that runs. The client reports to it what it knows, and both answer alike from then on."""

from __future__ import annotations

import random
import unittest
from dataclasses import dataclass, field

from support import BLOCK, METAINFO, PIECES

from piecepick import Answer, Kind, Picker, PiecepickError

FEW, MORE = 4, 9


@dataclass
class Peer:
    """What a client remembers of a peer: no call asks the picker for it."""

    shows: set[int] = field(default_factory=set)
    opened: bool = False
    depth: int = 5
    reach: int = 7
    alone: bool = False
    late: set[tuple[int, int]] = field(default_factory=set)


def flags(pieces: set[int]) -> bytes:
    """These pieces as a bitfield."""
    return bytes([sum(0x80 >> piece for piece in pieces)])


def in_flight(picker: Picker, worker: int) -> list[tuple[int, int, int]]:
    """The blocks that are in flight at the worker's peer, the oldest request first: piece, begin and length."""
    return [picker.outstanding_at(worker, place).block for place in range(picker.outstanding(worker))]


# excerpt: move
def moved(old: Picker, peers: dict[int, Peer], workers: int) -> Picker:
    """A picker for so many workers that stands where the old one does. No cancel is due at the old one."""
    new = Picker(METAINFO, workers=workers, depth=5, random=0, askers=1)
    disk = workers - 1
    for worker in [*peers, disk]:
        new.join(worker)
    for piece in range(old.pieces):
        if old.has_piece(piece):
            new.resume(disk, piece, True)
        else:
            move_blocks(old, new, piece, {*peers}, disk)
    # Late ones first: others may be asked for their blocks.
    for worker in sorted(peers, key=lambda worker: not peers[worker].late):
        move_peer(old, new, worker, peers[worker])
    new.set_levels(bytes(old.level(piece) for piece in range(old.pieces)))
    new.set_in_order_from(old.order_from)
    for worker, peer in peers.items():
        new.reach(worker, peer.reach)
        new.alone(worker, peer.alone)
    new.leave(disk)
    return new


def move_blocks(old: Picker, new: Picker, piece: int, connected: set[int], disk: int) -> None:
    """The held blocks of a piece, by who sent each. Who has left is the disk."""
    for index in range(old.blocks(piece)):
        try:
            sender = old.sender(piece, index)
        except PiecepickError:
            continue  # it isn't held
        begin = index * BLOCK
        length = min(BLOCK, old.piece_length(piece) - begin)
        new.received(sender if sender in connected else disk, piece, begin, length)


def move_peer(old: Picker, new: Picker, worker: int, peer: Peer) -> None:
    """What a peer shows, and what is in flight there."""
    new.haves(worker, flags(peer.shows))
    if peer.opened:
        new.unchoke(worker)
    blocks = in_flight(old, worker)
    new.depth(worker, max(peer.depth, len(blocks)))
    for piece, begin, _ in blocks:
        new.requested(worker, piece, begin)
        if (piece, begin) in peer.late:
            new.late(worker, piece, begin)
    new.depth(worker, peer.depth)
# end of excerpt


class Client:
    """Random events of peers, each reported to all pickers, whose answers have to be the same."""

    def __init__(self, case: unittest.TestCase, seed: int) -> None:
        self.case = case
        self.rng = random.Random(seed)
        self.pickers = [Picker(METAINFO, workers=FEW, depth=5, random=0, askers=1)]
        self.peers: dict[int, Peer] = {}

    def told(self, call: str, *arguments: int | bytes | bool) -> Answer:
        """The answer of each picker, which is one."""
        answers = [getattr(picker, call)(*arguments) for picker in self.pickers]
        self.case.assertEqual(len({*answers}), 1, (call, arguments, answers))
        first: Answer = answers[0]
        return first

    def step(self) -> None:
        """One event, of any kind."""
        worker = self.rng.randrange(FEW - 1)
        if worker not in self.peers:
            self.told("join", worker)
            self.peers[worker] = Peer()
        peer = self.peers[worker]
        events = [self.ask, self.ask, self.ask, self.bring, self.bring, self.show, self.open, self.choke, self.tell, self.level, self.leave]
        self.rng.choices(events, [9, 9, 9, 6, 6, 3, 4, 1, 3, 2, 1])[0](worker, peer)

    def ask(self, worker: int, _peer: Peer) -> None:
        self.told("next", worker, self.rng.randrange(1000))

    def bring(self, worker: int, _peer: Peer) -> None:
        blocks = in_flight(self.pickers[0], worker)
        if not blocks:
            return
        piece, begin, length = self.rng.choice(blocks)
        kind = self.told("received", worker, piece, begin, length).kind
        for peer in self.peers.values():
            peer.late.discard((piece, begin))
        if kind is Kind.FULL:
            self.told("verdict", piece, self.rng.randrange(5) > 0)

    def show(self, worker: int, peer: Peer) -> None:
        piece = self.rng.randrange(PIECES)
        self.told("have", worker, piece)
        peer.shows.add(piece)

    def open(self, worker: int, peer: Peer) -> None:
        self.told("unchoke", worker)
        peer.opened = True

    def choke(self, worker: int, peer: Peer) -> None:
        self.told("choke", worker)
        peer.opened = False
        peer.late.clear()

    def tell(self, worker: int, peer: Peer) -> None:
        """Something of the peer, or a request of it that is late or given up."""
        what = self.rng.choice(["depth", "reach", "alone", "late", "late", "late", "release"])
        blocks = in_flight(self.pickers[0], worker)
        if what == "depth":
            peer.depth = self.rng.randrange(1, 9)
            self.told("depth", worker, peer.depth)
        elif what == "reach":
            peer.reach = self.rng.randrange(2, 8)
            self.told("reach", worker, peer.reach)
        elif what == "alone":
            peer.alone = self.rng.randrange(2) > 0
            self.told("alone", worker, peer.alone)
        elif blocks:
            piece, begin, _ = self.rng.choice(blocks)
            if what == "release":
                self.told("release", worker, piece, begin)
                peer.late.discard((piece, begin))
            elif worker == 0:
                self.told("late", worker, piece, begin)
                peer.late.add((piece, begin))

    def level(self, _worker: int, _peer: Peer) -> None:
        if self.rng.randrange(4):
            self.told("set_level", self.rng.randrange(PIECES), self.rng.randrange(8))
        else:
            self.told("set_in_order_from", self.rng.randrange(9))

    def leave(self, worker: int, _peer: Peer) -> None:
        self.told("leave", worker)
        del self.peers[worker]

    def settle_cancels(self) -> None:
        """No cancel is due any more."""
        for worker in self.peers:
            while self.told("next", worker, 0).kind is Kind.CANCEL:
                pass


class Moving(unittest.TestCase):
    def test_a_larger_picker_answers_alike(self) -> None:
        in_all, late, alone = 0, 0, 0
        for seed in range(600):
            client = Client(self, seed)
            for _ in range(client.rng.randrange(5, 120)):
                client.step()
            client.settle_cancels()
            late += sum(len(peer.late) for peer in client.peers.values())
            alone += sum(peer.alone for peer in client.peers.values())
            old = client.pickers[0]
            with old, moved(old, client.peers, MORE) as new:
                for worker in client.peers:
                    self.assertEqual(in_flight(new, worker), in_flight(old, worker))
                    in_all += old.outstanding(worker)
                for piece in range(PIECES):
                    self.assertEqual(new.availability(piece), old.availability(piece))
                client.pickers.append(new)
                for _ in range(60):
                    client.step()
        self.assertGreater(in_all, 300)
        self.assertGreater(late, 10)
        self.assertGreater(alone, 100)


if __name__ == "__main__":
    unittest.main()
