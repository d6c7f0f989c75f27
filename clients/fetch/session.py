"""What is said with peers: each message goes to the picker, and what the picker answers goes to the peer. Nothing here knows of sockets."""

from __future__ import annotations

import time
from collections.abc import Callable
from dataclasses import dataclass
from typing import Protocol

from piecepick import Answer, InputFault, Kind, PickRule, Reason

from .blame import Address
from .content import Content, Verdict
from .deadlines import Line
from .extensions import Extensions
from .layout import BLOCK
from .peer import ALL_LEVELS, FIRST_DEPTH_READING, FIRST_DEPTH_WEB, NO_WORKER, Peer, milliseconds
from .suspects import Suspects
from .uploads import Uploads
from .wire import Message, WireFault, block_of, numbers_of, port_of, spell, spell_bitfield, spell_port

SILENCE = 15.0  # seconds with no block, after which a silent peer's oldest requests are late
SLOWEST = 60.0  # seconds after which a request is late though other blocks come, and after as many more it is taken back
REST = 10.0  # seconds in which nothing is asked of a peer that is late; if no block comes in them, its late requests are taken back
REJECT_REST = 1.0  # the same of a peer that rejected a request
HURRY = 0.2  # seconds after which a request is late where a reader waits for the block
FAR_QUICKER = 3.0  # times a peer's rate that another one has, which may bring such a block sooner
MOST_TIMEOUTS = 6  # rests one after the other, until a peer is let go


class Record(Protocol):
    """Who wants to know what the picker does."""

    def requested(self, peer: Peer, block: tuple[int, int], is_endgame: bool) -> None:
        """A block is asked of a peer; in endgame another one is expected to bring it too."""

    def came(self, peer: Peer, block: tuple[int, int], is_twice: bool) -> None:
        """A block came; it may have been held already."""

    def checked(self, piece: int, is_had: bool) -> None:
        """A piece was checked."""


@dataclass
class Figures:
    """What happened so far, in numbers."""

    blocks: int = 0
    bytes: int = 0
    twice: int = 0
    unasked: int = 0
    requests: int = 0
    cancels: int = 0
    endgame_requests: int = 0
    rejects: int = 0
    late_bitfields: int = 0
    timeouts: int = 0


class Session:
    """All joined peers of one download."""

    def __init__(self, content: Content, uploads: Uploads, record: Record | None = None, extensions: Extensions | None = None) -> None:
        self.content, self.picker, self.layout = content, content.picker, content.layout
        self.uploads, self.record = uploads, record
        self.extensions = extensions or Extensions()
        self.dht_port = 0  # that of our own node, where peers are told of it
        self.on_node: Callable[[Address], None] = lambda address: None
        self.suspects = Suspects(self.picker)
        self.peers: dict[int, Peer] = {}  # by worker
        self.asks: dict[tuple[int, int], int] = {}  # of how many peers each block is asked now
        self.figures = Figures()
        self.now = time.monotonic()
        self.has_new_interest = False  # since the swarm looked
        self._hear: dict[int, Callable[[Peer, memoryview], None]] = {
            Message.CHOKE: self._choke, Message.UNCHOKE: self._unchoke, Message.INTERESTED: self._interested,
            Message.NOT_INTERESTED: self._not_interested, Message.HAVE: self._have, Message.BITFIELD: self._bitfield,
            Message.REQUEST: self._request, Message.PIECE: self._piece, Message.CANCEL: self._cancel, Message.HAVE_ALL: self._have_all,
            Message.HAVE_NONE: self._have_none, Message.REJECT: self._reject, Message.ALLOWED_FAST: self._allowed_fast,
            Message.EXTENDED: self._extended, Message.PORT: self._port,
        }  # fmt: skip

    # Peers come and go.

    def join(self, peer: Peer, worker: int) -> None:
        """The handshakes were exchanged: the peer gets a worker's number, and is shown what is had."""
        peer.worker = worker
        peer.pieces = bytearray(len(self.content.had))
        self.peers[worker] = peer
        self.content.owners[worker] = peer.address
        self.picker.join(worker)
        if self.suspects.reads or peer.is_web:
            peer.begin_with(FIRST_DEPTH_READING if self.suspects.reads else FIRST_DEPTH_WEB)
            self.picker.depth(worker, peer.depth)
        if peer.is_fast and self.content.had_count == self.layout.pieces:
            peer.say(Message.HAVE_ALL)
        elif peer.is_fast and self.content.had_count == 0:
            peer.say(Message.HAVE_NONE)
        elif self.content.had_count:
            peer.unsent += spell_bitfield(self.content.had)
        if peer.is_extended:
            self.extensions.greet(peer)
        if peer.has_dht and self.dht_port:
            peer.unsent += spell_port(self.dht_port)

    def part(self, peer: Peer) -> None:
        """The connection is gone."""
        self._take_back_all(peer)
        del self.peers[peer.worker]
        self.suspects.forget(peer)
        self.picker.leave(peer.worker)
        peer.worker = NO_WORKER

    def receive(self, peer: Peer, data: bytes) -> None:
        """Takes what came from a joined peer, and asks for more. Raises WireFault where the peer doesn't keep to the protocol."""
        peer.heard = self.now
        try:
            for kind, payload in peer.inbound.messages(data):
                if hear := self._hear.get(kind):
                    hear(peer, payload)
        except InputFault as fault:
            raise WireFault(str(fault)) from fault
        finally:
            self._measure(peer)
        if peer.has_choked:
            self._heed_choke(peer)
        self.ask(peer)

    def _measure(self, peer: Peer) -> None:
        """The rates hear of all blocks at once that came at once, since each word to them takes a while."""
        if peer.came:
            peer.down.add(peer.came, self.now)
            peer.pace.came(peer.came, self.now)
            peer.by_rate.came(peer.came, milliseconds(self.now))
            peer.came = 0

    # What the peer says.

    def _choke(self, peer: Peer, payload: memoryview) -> None:
        """By BEP 6 what was requested stands until it is rejected. It counts as lost all the same, unless an unchoke comes right behind.

        libtorrent says both to a peer that it has unchoked already, and that is interested now.
        """
        numbers_of(Message.CHOKE, payload)
        peer.chokes_us = peer.has_choked = True
        if not peer.is_fast:
            self._heed_choke(peer)

    def _heed_choke(self, peer: Peer) -> None:
        peer.has_choked = False
        self._take_back_all(peer)
        peer.pace.fill(False, self.now)
        self.picker.choke(peer.worker)

    def _unchoke(self, peer: Peer, payload: memoryview) -> None:
        numbers_of(Message.UNCHOKE, payload)
        peer.chokes_us = peer.has_choked = False
        peer.block_came = self.now
        self.picker.unchoke(peer.worker)

    def _interested(self, peer: Peer, payload: memoryview) -> None:
        numbers_of(Message.INTERESTED, payload)
        peer.interests_us = self.has_new_interest = True

    def _not_interested(self, peer: Peer, payload: memoryview) -> None:
        numbers_of(Message.NOT_INTERESTED, payload)
        peer.interests_us = False

    def _have(self, peer: Peer, payload: memoryview) -> None:
        (piece,) = numbers_of(Message.HAVE, payload)
        answer = self.picker.have(peer.worker, piece)
        if not peer.shows(piece):
            peer.pieces[piece >> 3] |= 0x80 >> (piece & 7)
            peer.piece_count += 1
        self._interest(peer, answer)

    def _bitfield(self, peer: Peer, payload: memoryview) -> None:
        answer = self.picker.bits(peer.worker, payload)
        if answer.reason is Reason.LATE_BITS:
            self.figures.late_bitfields += 1
            answer = self.picker.haves(peer.worker, payload)
        self._show(peer, bytes(payload))
        self._interest(peer, answer)

    def _have_all(self, peer: Peer, payload: memoryview) -> None:
        numbers_of(Message.HAVE_ALL, payload)
        flags = all_flags(self.layout.pieces)
        self._show(peer, flags)
        self._interest(peer, self.picker.haves(peer.worker, flags))

    def _have_none(self, peer: Peer, payload: memoryview) -> None:
        numbers_of(Message.HAVE_NONE, payload)

    def _show(self, peer: Peer, flags: bytes) -> None:
        """The peer has these pieces, beside what it had before."""
        peer.pieces = bytearray(old | new for old, new in zip(peer.pieces, flags, strict=True))
        peer.piece_count = int.from_bytes(peer.pieces, "big").bit_count()

    def _interest(self, peer: Peer, answer: Answer) -> None:
        """The peer has something for us, where the picker's answer says so."""
        if answer.interesting and not peer.is_interested:
            peer.is_interested = True
            peer.say(Message.INTERESTED)

    def _lose_interest(self, peer: Peer) -> None:
        """The peer has nothing for us any more."""
        if peer.is_interested:
            peer.is_interested = False
            peer.say(Message.NOT_INTERESTED)

    def review_interest(self, peer: Peer) -> None:
        """We may have said that we are interested before it was known what there is."""
        if not self.picker.is_interesting(peer.worker):
            self._lose_interest(peer)

    def _request(self, peer: Peer, payload: memoryview) -> None:
        piece, begin, length = numbers_of(Message.REQUEST, payload)
        self.uploads.request(peer, piece, begin, length)

    def _cancel(self, peer: Peer, payload: memoryview) -> None:
        piece, begin, length = numbers_of(Message.CANCEL, payload)
        self.uploads.cancel(peer, piece, begin, length)

    def _piece(self, peer: Peer, payload: memoryview) -> None:
        piece, begin, data = block_of(payload)
        block = (piece, begin)
        self.figures.blocks += 1
        self.figures.bytes += len(data)
        self._count_down(peer, block)
        if not peer.takes(block):
            self.figures.unasked += 1
            return
        peer.came += len(data)
        peer.block_came, peer.timeouts, peer.rests_until = self.now, 0, 0.0
        kind = self.content.arrived(peer.worker, piece, begin, data)
        if kind is Kind.REFUSED:
            raise WireFault("a block has another length than was asked for")
        if kind is Kind.DROPPED:
            self.figures.twice += 1
            peer.twice += 1
        if self.record:
            self.record.came(peer, block, kind is Kind.DROPPED)
        if block in self.asks:
            self._cancel_elsewhere(block)

    def _cancel_elsewhere(self, block: tuple[int, int]) -> None:
        """The block came, and others were asked for it: the picker has a cancel for each, before they send it too."""
        for peer in self.peers.values():
            if block in peer.asked:
                self.ask(peer)

    def _reject(self, peer: Peer, payload: memoryview) -> None:
        piece, begin, _ = numbers_of(Message.REJECT, payload)
        if (piece, begin) not in peer.asked:
            peer.late.pop((piece, begin), None)
            return
        self.figures.rejects += 1
        self.take_back(peer, (piece, begin))
        self.picker.release(peer.worker, piece, begin)
        self.suspects.tell_off(peer)  # others may have the block of a piece of its own
        # The picker may offer the same block at once, so the peer is left alone for a moment.
        peer.rests_until, peer.epoch = self.now + REJECT_REST, -1

    def _allowed_fast(self, peer: Peer, payload: memoryview) -> None:
        """The picker asks nothing of a peer that chokes us, so this is read alone."""
        numbers_of(Message.ALLOWED_FAST, payload)

    def _extended(self, peer: Peer, payload: memoryview) -> None:
        piece = self.extensions.hear(peer, payload, self.now)
        if piece is not None:
            self._lack(peer, piece)

    def _port(self, peer: Peer, payload: memoryview) -> None:
        """A node of the DHT is at the peer's host."""
        self.on_node((peer.address[0], port_of(payload)))

    def _lack(self, peer: Peer, piece: int) -> None:
        """The peer has the piece no more, so what was asked of it there is free for others."""
        answer = self.picker.lack(peer.worker, piece)
        if peer.shows(piece):
            peer.pieces[piece >> 3] &= ~(0x80 >> (piece & 7))
            peer.piece_count -= 1
        for block in [block for block in peer.asked if block[0] == piece]:
            self.take_back(peer, block)
        if not answer.interesting:
            self._lose_interest(peer)

    # What is asked of the peer.

    def ask(self, peer: Peer) -> None:
        """Says to the peer what the picker has for it: cancels, and requests until its pipe is full."""
        if peer.chokes_us or self.now < peer.rests_until:
            return
        peer.epoch = self.picker.epoch
        while (answer := self.picker.next(peer.worker)).kind in (Kind.CANCEL, Kind.REQUEST):
            block = (answer.piece, answer.begin)
            if answer.kind is Kind.REQUEST:
                self._send_request(peer, block, answer)
            else:
                self.figures.cancels += 1
                self.take_back(peer, block)
                peer.say(Message.CANCEL, *answer.block)
        peer.pace.fill(answer.kind is Kind.PIPE_FULL, self.now)
        if answer.kind is Kind.NOTHING_LEFT:
            self._lose_interest(peer)
        elif answer.kind is Kind.IDLE and not peer.asked and (self.suspects.tell_off(peer) or self.set_alone(peer, False)):
            self.ask(peer)  # pieces that others have begun

    def set_alone(self, peer: Peer, is_alone: bool) -> bool:
        """A peer begins pieces of its own from now on, or works with the others again; whether that is new."""
        if peer.is_alone == is_alone:
            return False
        peer.is_alone = is_alone
        self.picker.alone(peer.worker, is_alone)
        return True

    def set_reading(self, reads: bool) -> None:
        """While somebody reads nobody works alone, be it a suspect or a web server."""
        self.suspects.set_reading(reads)
        for peer in self.peers.values():
            if peer.is_web:
                self.set_alone(peer, not reads)

    def _send_request(self, peer: Peer, block: tuple[int, int], answer: Answer) -> None:
        others = self.asks.get(block, 0)
        is_endgame = others > 0 and self.picker.rule(answer.piece, answer.begin // BLOCK) is PickRule.ENDGAME
        if self.record:
            self.record.requested(peer, block, is_endgame)
        self.asks[block] = others + 1
        before = peer.depth
        peer.by_rate.set_in_endgame(is_endgame)
        if peer.depth != before:
            self.picker.depth(peer.worker, peer.depth)
        self.figures.requests += 1
        self.figures.endgame_requests += is_endgame
        peer.asked[block] = self.now
        if not peer.is_interested:
            peer.is_interested = True
            peer.say(Message.INTERESTED)
        peer.unsent += spell(Message.REQUEST, *answer.block)

    def _count_down(self, peer: Peer, block: tuple[int, int]) -> None:
        """The block is asked of one peer less, if it was asked of this one."""
        if block in peer.asked:
            self.asks[block] -= 1
            if self.asks[block] == 0:
                del self.asks[block]

    def take_back(self, peer: Peer, block: tuple[int, int]) -> None:
        """A request stands no more at the peer."""
        self._count_down(peer, block)
        peer.forget(block)

    def _take_back_all(self, peer: Peer) -> None:
        for block in list(peer.asked):
            self.take_back(peer, block)

    def ask_idle(self) -> None:
        """Asks the peers again whose answer may be another one by what others did."""
        epoch = self.picker.epoch
        for peer in self.peers.values():
            if peer.epoch != epoch:
                self.ask(peer)

    # Time passes.

    def time_out(self, peer: Peer) -> bool:
        """Has others asked for what a peer doesn't bring, and later takes it back; whether the peer is worth to be kept."""
        lost = [
            block for block, told in peer.told_late.items()
            if self.now - max(told, peer.block_came) > REST or self.now - told > SLOWEST
        ]  # fmt: skip
        for block in lost:
            self.take_back(peer, block)
            self.picker.release(peer.worker, *block)
        if lost:
            peer.timeouts += 1
            self._rest(peer)
        self._tell_late(peer)
        self.suspects.time_out(peer, self.now)
        return peer.timeouts < MOST_TIMEOUTS

    def _tell_late(self, peer: Peer) -> None:
        """Requests that take too long are late: they stay with the peer, and others may be asked for these blocks."""
        late = [
            block for block, since in peer.asked.items()
            if block not in peer.told_late and (self.now - max(since, peer.block_came) > SILENCE or self.now - since > SLOWEST)
        ]  # fmt: skip
        for block in late:
            self.figures.timeouts += 1
            peer.told_late[block] = self.now
            self.picker.late(peer.worker, *block)
        if late:
            peer.by_rate.timed_out()
            self.suspects.tell_off(peer)
            self.set_alone(peer, False)
            self._rest(peer)

    def hurry(self, pieces: set[int]) -> None:
        """Readers need these pieces next. What a peer was asked for some time ago is asked of others too, where one of them is far quicker."""
        quickest = max((peer.down.per_second(self.now) for peer in self.peers.values() if not peer.chokes_us), default=0.0)
        is_late = False
        for peer in self.peers.values():
            if peer.down.per_second(self.now) * FAR_QUICKER >= quickest:
                continue
            for block, since in peer.asked.items():
                if block[0] in pieces and block not in peer.told_late and self.now - since > HURRY:
                    is_late = True
                    peer.told_late[block] = self.now
                    self.picker.late(peer.worker, *block)
        if is_late:
            self.ask_idle()

    def _rest(self, peer: Peer) -> None:
        """Nothing is asked of the peer for a while, unless a block comes from it."""
        peer.rests_until, peer.epoch = self.now + REST, -1
        peer.pace.fill(False, self.now)

    def follow_rate(self, peer: Peer) -> None:
        """The peer's depth follows its rate: up at once, and down by steps. What is asked stays asked."""
        before = peer.depth
        if peer.by_rate.follow(milliseconds(self.now)) != before:
            self.picker.depth(peer.worker, peer.depth)
            self.ask(peer)

    def lines(self) -> list[Line]:
        """Of each peer how long a block takes behind a full line, and what may be asked of it now."""
        found = []
        for peer in self.peers.values():
            is_open = not peer.chokes_us and self.now >= peer.rests_until
            seconds = peer.pace.seconds(BLOCK * (max(len(peer.asked), peer.depth) + 1))
            found.append(Line(peer, seconds, int.from_bytes(peer.pieces, "big") if is_open else 0))
        return found

    def set_reach(self, peer: Peer, level: int) -> None:
        """No block above this level is asked of the peer from now on, nor stays asked: others may bring it sooner."""
        before, peer.reach = peer.reach, level
        if level != before:
            self.picker.reach(peer.worker, level)
        beyond = [block for block in peer.asked if self.picker.level(block[0]) > level] if level < ALL_LEVELS else []
        for piece, begin in beyond:
            self.figures.cancels += 1
            self.take_back(peer, (piece, begin))
            self.picker.release(peer.worker, piece, begin)
            peer.say(Message.CANCEL, piece, begin, self.layout.block_length(piece, begin // BLOCK))
        if level > before or beyond:
            self.ask(peer)

    def settle(self) -> list[Verdict]:
        """Settles the pieces that were checked, and tells the peers of those that are had."""
        verdicts = list(self.content.verdicts())
        for verdict in verdicts:
            self.suspects.heed(verdict, self.peers.values(), self.now)
            if self.record:
                self.record.checked(verdict.piece, verdict.is_had)
            if verdict.is_had:
                for peer in self.peers.values():
                    peer.say(Message.HAVE, verdict.piece)
        lost, self.content.lost = self.content.lost, []
        for piece in lost:
            for peer in self.peers.values():
                self.extensions.tell_lost(peer, piece)
        if lost or any(not verdict.is_had for verdict in verdicts):
            self.reconsider()
        elif verdicts and self.picker.has_wanted:
            for peer in self.peers.values():
                self._lose_interest(peer)
        return verdicts

    def reconsider(self) -> None:
        """More may be wanted than before: tells the peers that have something of it."""
        for peer in self.peers.values():
            if not peer.is_interested:
                # What the peer has is told once more, since the answer says whether it has something for us.
                self._interest(peer, self.picker.haves(peer.worker, peer.pieces))


def all_flags(pieces: int) -> bytes:
    """The flags of a peer that has each piece, as in a `bitfield` message."""
    flags = bytearray(b"\xff" * (pieces // 8))
    if pieces % 8:
        flags.append(0xFF00 >> pieces % 8 & 0xFF)
    return bytes(flags)
