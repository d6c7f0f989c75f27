"""Finds the info dictionary of a magnet link: by the link's peers, its trackers, the DHT, and peers that peers tell (BEP 9)."""

from __future__ import annotations

import contextlib
import errno
import os
import queue
import selectors
import socket
import time
from dataclasses import dataclass
from typing import TYPE_CHECKING

from .addresses import Addresses, Origin, is_loopback
from .asking import Asking
from .blame import Address
from .metadata import LARGEST, WrongInfo
from .partings import Partings
from .wire import WireFault

if TYPE_CHECKING:
    from .announcing import Announcer

MOST_CONNECTIONS = 20
MOST_BYTES = 2 * LARGEST  # of info dictionaries that come at a time
CONNECT_SECONDS = 10.0  # until a peer has said the first thing
PATIENCE = 30.0  # seconds from the last byte on
LONGEST = 120.0  # seconds for all of it
SMALL = 1 << 18  # bytes of a dictionary that is begun whatever others take
MOST_UNSENT = 1 << 16  # bytes: who reads nothing is let go
READ = 1 << 16
TICK = 0.2


@dataclass(frozen=True)
class Met:
    """A connection for who goes on with it, what its peer has said, and whether we have said that we are interested."""

    connection: socket.socket
    address: Address
    heard: bytes
    is_interested: bool


@dataclass(eq=False)
class Link:
    """A connection."""

    connection: socket.socket
    address: Address
    asking: Asking
    began: float
    heard: float
    is_connected: bool = False


class Seeker:
    """Asks peers until one has given the dictionary. The loop is `turn`, or `run` until it is there."""

    def __init__(self, infohash: bytes, peer_id: bytes, source: str = "", has_dht: bool = False) -> None:
        self.infohash, self.peer_id, self.source, self.has_dht = infohash, peer_id, source, has_dht
        self.addresses, self.partings = Addresses(), Partings()
        self.links: set[Link] = set()
        self.info: bytes | None = None
        self.announcer: Announcer | None = None
        self.is_stopping = False
        self._found: queue.SimpleQueue[list[Address]] = queue.SimpleQueue()
        self._selector = selectors.DefaultSelector()
        self._woken, self._waker = socket.socketpair()
        for end in (self._woken, self._waker):
            end.setblocking(False)
        self._selector.register(self._woken, selectors.EVENT_READ)

    def wake(self) -> None:
        """Ends the wait of the loop, from any thread."""
        with contextlib.suppress(OSError):
            self._waker.send(b"\0")

    @property
    def wake_handle(self) -> int:
        """What a signal writes to."""
        return self._waker.fileno()

    def hear_of(self, peers: list[Address]) -> None:
        """The DHT has found peers; any thread may say so."""
        self._found.put(peers)
        self.wake()

    def _may_begin(self, size: int) -> bool:
        """Whether a dictionary of this size has room beside the others that come. A small one has, so that no liar holds it up."""
        return size <= SMALL or size + sum(link.asking.size for link in self.links) <= MOST_BYTES

    def _connect(self, address: Address, now: float) -> None:
        connection = socket.socket(socket.AF_INET6 if ":" in address[0] else socket.AF_INET, socket.SOCK_STREAM)
        connection.setblocking(False)
        try:
            if self.source:
                connection.bind((self.source, 0))
            error = connection.connect_ex(address)
        except OSError as fault:  # an address of another kind
            error = fault.errno or errno.EINVAL
        if error not in (0, errno.EINPROGRESS):
            connection.close()
            self._fail(address, os.strerror(error), now)
            return

        def on_peers(peers: list[Address]) -> None:
            self.addresses.hear(peers, Origin.EXCHANGE, address)

        link = Link(connection, address, Asking(self.infohash, self.peer_id, self._may_begin, on_peers, self.has_dht), now, now)
        self.links.add(link)
        self._selector.register(connection, selectors.EVENT_READ | selectors.EVENT_WRITE, link)

    def _fail(self, address: Address, why: str, now: float) -> None:
        self.partings.note(address, why)
        self.addresses.failed(address, now)

    def _drop(self, link: Link, why: str, now: float) -> None:
        self.links.discard(link)
        self._selector.unregister(link.connection)
        link.connection.close()
        self._fail(link.address, why, now)

    def turn(self) -> None:
        """What came, what may be sent, and what is due."""
        for key, events in self._selector.select(TICK):
            now = time.monotonic()
            if key.fileobj is self._woken:
                self._woken.recv(4096)
                continue
            link: Link = key.data
            if why := self._handle(link, events, now):
                self._drop(link, why, now)
        self._tick(time.monotonic())

    def _handle(self, link: Link, events: int, now: float) -> str:
        """What a connection has; why it ends, or nothing."""
        try:
            if not link.is_connected and (error := link.connection.getsockopt(socket.SOL_SOCKET, socket.SO_ERROR)):
                return os.strerror(error)
            link.is_connected = True
            if events & selectors.EVENT_READ:
                data = link.connection.recv(READ)
                if not data:
                    return "closed the connection before it gave the info dictionary"
                link.heard = now
                link.asking.receive(data)
                self.info = self.info or link.asking.info
            if link.asking.unsent:
                del link.asking.unsent[: link.connection.send(link.asking.unsent)]
        except (BlockingIOError, InterruptedError):
            pass
        except WrongInfo as fault:
            self.addresses.ban(link.address)
            return str(fault)
        except WireFault as fault:
            return str(fault)
        except OSError as error:
            return error.strerror or str(error)
        wants = selectors.EVENT_READ | (selectors.EVENT_WRITE if link.asking.unsent else 0)
        self._selector.modify(link.connection, wants, link)
        return "takes nothing" if len(link.asking.unsent) > MOST_UNSENT else ""

    def _tick(self, now: float) -> None:
        """New addresses, new connections, and those that are over."""
        while not self._found.empty():
            self.addresses.hear(self._found.get(), Origin.DHT, (self.source, 0) if is_loopback(self.source) else None)
        if self.announcer:
            for address in self.announcer.tick(now, len(self.links)):
                self.addresses.add(address)
        for link in list(self.links):
            patience = PATIENCE if link.asking.is_greeted else CONNECT_SECONDS
            if now - link.heard > patience or now - link.began > LONGEST:
                self._drop(link, "doesn't give the info dictionary" if link.asking.is_greeted else "doesn't answer", now)
            elif link.asking.is_greeted:
                self._begin(link, now)
        while len(self.links) < MOST_CONNECTIONS and (known := self.addresses.due(now)):
            known.is_in_use = True
            self._connect(known.address, now)

    def _begin(self, link: Link, now: float) -> None:
        """Who was held back may have room now."""
        try:
            link.asking.begin()
        except WireFault as fault:
            self._drop(link, str(fault), now)
            return
        if link.asking.unsent:
            self._selector.modify(link.connection, selectors.EVENT_READ | selectors.EVENT_WRITE, link)

    def give(self, origins: set[Origin]) -> list[Met]:
        """Leaves the connections to these peers to who goes on with them."""
        met = []
        for link in list(self.links):
            known = self.addresses.known.get(link.address)
            if known and known.origin in origins and (heard := link.asking.heard) is not None:
                self._selector.unregister(link.connection)
                self.links.discard(link)
                met.append(Met(link.connection, link.address, heard, link.asking.is_interested))
        return met

    def close(self) -> None:
        """Ends all connections."""
        for link in self.links:
            self._selector.unregister(link.connection)
            link.connection.close()
        self._selector.close()
        self._woken.close()
        self._waker.close()
        if self.announcer:
            self.announcer.stop(waits=self.info is None)
