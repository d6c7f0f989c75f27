"""The loop: sockets, who is connected, and what is due by the clock."""

from __future__ import annotations

import contextlib
import errno
import os
import selectors
import socket
import time
from collections.abc import Callable
from dataclasses import dataclass

from .addresses import Addresses
from .blame import Address
from .choking import ROUND, Candidate, Choker
from .content import Verdict
from .limits import Limit
from .lingering import linger
from .partings import Partings
from .peer import Peer
from .session import Session
from .wire import KEEPALIVE, Handshake, Inbound, WireFault

HANDSHAKE_SECONDS = 10.0  # until the handshakes have to be exchanged
QUIET_SECONDS = 180.0  # with no byte from a peer, until it is let go
STUCK_SECONDS = 120.0  # with no byte taken by a peer
KEEPALIVE_SECONDS = 100.0
MOST_CONNECTING = 10
MOST_BACKLOG = 1 << 20  # bytes unsent, above which nothing more is read from a peer
HELD_SECONDS = 20.0  # with no word on time-outs, after the limit was reached
READ = 1 << 18  # bytes that are read at a time
TICK = 0.2  # seconds
SLOW_TICK = 1.0


CLOSED = "closed the connection"
CLOSED_EARLY = "closed the connection before its handshake: it may have another torrent, no place, or want encryption"


def said_by(error: OSError) -> str:
    """An error of a connection, for the user."""
    return error.strerror or str(error)


@dataclass(frozen=True)
class Limits:
    """How many peers, and whom we tell who we are."""

    peer_id: bytes
    peers: int = 50
    slots: int = 4
    source: str = ""  # our own address for connections that we begin; any where it is empty


class Swarm:
    """The connections of one download."""

    def __init__(
        self, session: Session, addresses: Addresses, limits: Limits, listener: socket.socket | None, down: Limit | None = None
    ) -> None:
        self.down = down or Limit(None)
        self._held = -HELD_SECONDS  # when nothing was read since the limit was reached
        self.session, self.addresses, self.limits, self.listener = session, addresses, limits, listener
        self.content = session.content
        self.choker = Choker(limits.slots)
        self.selector = selectors.DefaultSelector()
        self.peers: set[Peer] = set()
        self.free_workers = list(range(self.content.disk))
        self.is_stopping = self.is_closing = False
        self.partings = Partings()
        self.lost = self.banned = self.connections = 0
        self.on_verdict: Callable[[Verdict], None] = lambda verdict: None
        self._woken, self._waker = socket.socketpair()
        self._waker.setblocking(False)
        self._woken.setblocking(False)
        self.selector.register(self._woken, selectors.EVENT_READ)
        if listener:
            listener.setblocking(False)
            self.selector.register(listener, selectors.EVENT_READ)
        self._ticked = self._slowly_ticked = self._choked = 0.0

    @property
    def unsent(self) -> int:
        """The bytes that wait to be sent."""
        return sum(len(peer.unsent) for peer in self.peers)

    def wake(self) -> None:
        """Ends the wait of the loop, from any thread."""
        with contextlib.suppress(OSError):
            self._waker.send(b"\0")

    @property
    def wake_handle(self) -> int:
        """What a signal writes to."""
        return self._waker.fileno()

    # Connections begin and end.

    def connect(self) -> None:
        """Begins connections to those that may be tried now."""
        connecting = sum(not peer.is_joined for peer in self.peers)
        while connecting < MOST_CONNECTING and len(self.peers) < self.limits.peers and (known := self.addresses.due(self.session.now)):
            known.is_in_use = True
            connecting += 1
            self._connect(known.address)

    def _connect(self, address: Address) -> None:
        """Begins a connection."""
        family = socket.AF_INET6 if ":" in address[0] else socket.AF_INET
        connection = socket.socket(family, socket.SOCK_STREAM)
        connection.setblocking(False)
        try:
            if self.limits.source:
                connection.bind((self.limits.source, 0))
            error = connection.connect_ex(address)
        except OSError as fault:  # an address of another kind
            error = fault.errno or errno.EINVAL
        if error not in (0, errno.EINPROGRESS):
            connection.close()
            self.partings.note(address, os.strerror(error))
            self.addresses.failed(address, self.session.now)
            return
        self._add(connection, address, is_incoming=False)

    def _accept(self) -> None:
        """Takes a connection of another peer."""
        assert self.listener
        try:
            connection, address = self.listener.accept()
        except OSError:
            return
        connection.setblocking(False)
        where = (address[0], address[1])
        if len(self.peers) >= self.limits.peers or self.addresses.is_banned(where):
            connection.close()
            return
        self._add(connection, where, is_incoming=True).is_connected = True

    def attach(self, connection: socket.socket, address: Address) -> Peer:
        """A peer of this process, which stands for a web server."""
        connection.setblocking(False)
        peer = self._add(connection, address, is_incoming=False)
        peer.is_web = True
        return peer

    def take_over(self, connection: socket.socket, address: Address, heard: bytes, is_interested: bool) -> None:
        """Goes on with a connection on which we have said who we are, and that we are interested or not, and the peer has said this."""
        if len(self.peers) >= self.limits.peers or self.addresses.is_banned(address):
            connection.close()
            return
        if known := self.addresses.known.get(address):
            known.is_in_use = True
        peer = self._add(connection, address, is_incoming=False)
        peer.is_connected, peer.is_interested = True, is_interested
        peer.unsent.clear()
        self._hear(peer, heard)
        if peer.is_joined:
            self.session.review_interest(peer)

    def _add(self, connection: socket.socket, address: Address, is_incoming: bool) -> Peer:
        peer = Peer(connection, address, is_incoming, Inbound(self.session.layout.pieces), self.session.now)
        self.peers.add(peer)
        if not is_incoming:
            peer.unsent += self._handshake()
        peer.events = selectors.EVENT_READ if is_incoming else selectors.EVENT_READ | selectors.EVENT_WRITE
        with contextlib.suppress(OSError):
            connection.setsockopt(socket.IPPROTO_TCP, socket.TCP_NODELAY, 1)
        self.selector.register(connection, peer.events, peer)
        return peer

    def _handshake(self) -> bytes:
        """Who we are."""
        return Handshake(self.content.infohash, self.limits.peer_id, has_dht=self.session.dht_port > 0).spell()

    def drop(self, peer: Peer, why: str = "") -> None:
        """Ends a connection. `why` is for the user, and nothing where the program ends."""
        if peer not in self.peers:
            return
        self.partings.note(peer.address, why, peer.down.total > 0)
        self.peers.discard(peer)
        self.selector.unregister(peer.connection)
        peer.connection.close()
        if peer.is_joined:
            self.lost += not self.is_closing
            self.free_workers.append(peer.worker)
            self.session.part(peer)
        if not peer.is_incoming:
            ended = self.addresses.ended if peer.down.total or peer.up.total else self.addresses.failed
            ended(peer.address, self.session.now)

    def _ban(self, address: Address) -> None:
        """Lets go of who sent wrong data, for ever."""
        if self.addresses.is_banned(address):
            return
        self.banned += 1
        self.addresses.ban(address)
        for peer in [peer for peer in self.peers if self.addresses.is_banned(peer.address)]:
            self.drop(peer, "sent wrong data, and is banned")

    def _greet(self, peer: Peer, handshake: Handshake) -> None:
        """The handshake came: the peer joins. Raises WireFault where it isn't welcome."""
        if handshake.infohash != self.content.infohash:
            raise WireFault("the peer has another torrent")
        if handshake.peer_id == self.limits.peer_id:
            for other in self.peers:
                if not other.is_incoming and other.connection.getsockname()[:2] == peer.address:
                    self.addresses.forget(other.address)
            raise WireFault("the peer is this program")
        if any(other.peer_id == handshake.peer_id for other in self.session.peers.values()):
            raise WireFault("the peer is connected already")
        worker = self._free_worker()
        if worker is None:
            raise WireFault("there is no place for another peer")
        if peer.is_incoming:
            peer.unsent += self._handshake()
        peer.peer_id, peer.is_fast, peer.is_extended, peer.has_dht = (
            handshake.peer_id, handshake.is_fast, handshake.is_extended, handshake.has_dht
        )  # fmt: skip
        self.connections += 1
        self.session.join(peer, worker)
        if peer.is_web and not self.session.suspects.reads:
            self.session.set_alone(peer, True)

    def _free_worker(self) -> int | None:
        """A worker's number that names the sender of no block of a begun piece, so that nobody is taken for another peer."""
        for place, worker in enumerate(self.free_workers):
            if worker not in self.content.owners or not self.content.names_a_sender(worker):
                return self.free_workers.pop(place)
        return None

    # Bytes come and go.

    def _receive(self, peer: Peer) -> None:
        """Reads what came. A peer that breaks the protocol is let go."""
        if not self.down.allows(self.session.now):
            return
        try:
            data = peer.connection.recv(self.down.room(READ))
        except (BlockingIOError, InterruptedError):
            return
        except OSError as error:
            self.drop(peer, said_by(error))
            return
        if not data:
            self.drop(peer, CLOSED if peer.is_joined else CLOSED_EARLY)
            return
        peer.is_connected = True
        self.down.take(len(data))
        self._hear(peer, data)

    def _hear(self, peer: Peer, data: bytes) -> None:
        """The peer has said this."""
        try:
            if not peer.is_joined:
                handshake = peer.inbound.handshake(data)
                if handshake is None:
                    return
                self._greet(peer, handshake)
                data = b""
            self.session.receive(peer, data)
        except WireFault as fault:
            self.drop(peer, str(fault))

    def _send(self, peer: Peer) -> None:
        """Sends what can be sent."""
        if not peer.is_connected:
            if error := peer.connection.getsockopt(socket.SOL_SOCKET, socket.SO_ERROR):
                self.drop(peer, os.strerror(error))
                return
            peer.is_connected = True
        try:
            sent = peer.connection.send(peer.unsent)
        except (BlockingIOError, InterruptedError):
            return
        except OSError as fault:
            self.drop(peer, said_by(fault))
            return
        del peer.unsent[:sent]
        peer.said = self.session.now

    def _watch(self, peer: Peer, may_read: bool) -> None:
        """Tells the selector what is awaited of a peer."""
        events = selectors.EVENT_WRITE if peer.unsent or not peer.is_connected else 0
        if len(peer.unsent) < MOST_BACKLOG and may_read:
            events |= selectors.EVENT_READ
        if events != peer.events:
            peer.events = events
            self.selector.modify(peer.connection, events, peer)

    # The loop.

    def turn(self) -> None:
        """One turn: what came, what may be sent, what was checked, and what is due."""
        for key, events in self.selector.select(TICK):
            self.session.now = time.monotonic()
            if key.fileobj is self._woken:
                self._woken.recv(4096)
            elif key.fileobj is self.listener:
                self._accept()
            else:
                peer: Peer = key.data
                if events & selectors.EVENT_READ:
                    self._receive(peer)
                if events & selectors.EVENT_WRITE and peer in self.peers:
                    self._send(peer)
        self.session.now = time.monotonic()
        self._settle()
        self.session.ask_idle()
        self._look_at_clock()
        may_read = self.down.allows(self.session.now)
        if not may_read:
            self._held = self.session.now
        for peer in self.peers:
            if peer.wants:
                self.session.uploads.serve(peer, self.session.now)
            self._watch(peer, may_read)

    def _settle(self) -> None:
        for verdict in self.session.settle():
            for address in verdict.liars:
                self._ban(address)
            self.on_verdict(verdict)

    def _look_at_clock(self) -> None:
        """What is due; and who became interested is unchoked at once, where a slot is free."""
        is_time = self.session.now - self._ticked >= TICK
        if is_time:
            self._tick()
        if (is_time or self.session.has_new_interest) and self._has_new_interest():
            self._choke()
        self.session.has_new_interest = False

    def _tick(self) -> None:
        """What is due five times a second, once a second, and each round of choking."""
        now = self._ticked = self.session.now
        self.connect()
        for peer in self.session.peers.values():
            self.session.follow_rate(peer)  # so often, since a new peer may be far quicker than its first depth
        if now - self._slowly_ticked >= SLOW_TICK:
            self._slowly_ticked = now
            for peer in list(self.peers):
                self._look_after(peer)
            self.session.extensions.exchange_peers(self.session.peers.values(), now)
        if now - self._choked >= ROUND:
            self._choke()

    def _look_after(self, peer: Peer) -> None:
        """Lets go of a peer that is dead, takes back what it doesn't bring, and keeps a quiet connection alive."""
        now = self.session.now
        if not peer.is_joined:
            if now - peer.began > HANDSHAKE_SECONDS:
                self.drop(peer, "no handshake came" if peer.is_connected else "doesn't answer")
            return
        if why := self._is_dead(peer):
            self.drop(peer, why)
            return
        if self._is_useless(peer):
            self.drop(peer, "has all, as we have")
            self.addresses.postpone(peer.address, now)
            return
        peer.pace.follow(now)
        if now - peer.said > KEEPALIVE_SECONDS and not peer.unsent:
            peer.unsent += KEEPALIVE

    def _is_dead(self, peer: Peer) -> str:
        """Why a peer isn't worth to be kept; empty where it is."""
        now = self.session.now
        if peer.unsent and now - peer.said > STUCK_SECONDS:
            return "takes nothing"
        if now - peer.heard > QUIET_SECONDS:
            return "is silent"
        if now - self._held < HELD_SECONDS:
            return ""  # what it sent may wait for us
        return "" if self.session.time_out(peer) else "doesn't bring what it is asked for"

    def _is_useless(self, peer: Peer) -> bool:
        """Whether neither side can ever have something for the other: both have all."""
        return peer.piece_count == self.session.layout.pieces == self.content.had_count

    def _has_new_interest(self) -> bool:
        """Whether there is a free slot and somebody who would take it."""
        unchoked = sum(not peer.we_choke and peer.interests_us for peer in self.session.peers.values())
        return unchoked < self.limits.slots and any(peer.we_choke and peer.interests_us for peer in self.session.peers.values())

    def _choke(self) -> None:
        """Chooses who is uploaded to."""
        now, is_seed = self.session.now, self.session.picker.has_wanted
        self._choked = now
        candidates = [
            Candidate(peer, (peer.up if is_seed else peer.down).per_second(now), now - peer.began)
            for peer in self.session.peers.values() if peer.interests_us
        ]  # fmt: skip
        chosen = self.choker.choose(candidates)
        for peer in self.session.peers.values():
            if peer in chosen:
                self.session.uploads.unchoke(peer)
            else:
                self.session.uploads.choke(peer)

    def close(self) -> None:
        """Ends all connections."""
        self.is_closing = True
        if self.session.uploads.total:
            for other in filter(None, (self.listener, self._woken)):
                self.selector.unregister(other)
            linger(self.selector, self.peers, self.drop)
        for peer in list(self.peers):
            self.drop(peer)
        self.selector.close()
        if self.listener:
            self.listener.close()
        self._woken.close()
        self._waker.close()
