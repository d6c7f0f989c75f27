"""The web servers of a download (BEP 19): which of them is asked, and when one that failed is tried again."""

from __future__ import annotations

import socket
from dataclasses import dataclass

from .addresses import delay
from .metainfo import is_folder, web_seeds_of
from .parts import Parts
from .peer import Peer

MOST = 4  # servers at a time


@dataclass
class Server:
    """A server, and how it went there so far."""

    url: str
    peer: Peer | None = None
    failures: int = 0
    next_try: float = 0.0


class WebSeeds:
    """All servers of one download."""

    def __init__(self, parts: Parts) -> None:
        self.parts = parts
        self.servers = [Server(url) for url in web_seeds_of(parts.metainfo)] if parts.options.uses_web_seeds else []
        self._is_alone = False  # whether nobody else is connected

    def tick(self, now: float) -> None:
        """Looks who is gone, and who may be tried."""
        if not self.servers:
            return
        for server in self.servers:
            if server.peer and server.peer not in self.parts.swarm.peers:
                self._end(server, server.peer, now)
        working = sum(server.peer is not None for server in self.servers)
        for server in self.servers:
            may_begin = working < MOST and server.peer is None and now >= server.next_try and not self.parts.picker.has_wanted
            if may_begin and not self.parts.swarm.addresses.is_banned((server.url, 0)):
                working += 1
                self._begin(server)
        self._set_order()

    def _begin(self, server: Server) -> None:
        from .ranges import Ranges  # here, so that all others start sooner
        from .webseed import WebSeed

        parts = self.parts
        ours, theirs = socket.socketpair()
        ranges = Ranges(server.url, parts.name, parts.layout, is_folder(parts.picker), parts.options.bind)

        def on_fault(why: str) -> None:
            parts.swarm.partings.say_later((server.url, 0), why)

        server.peer = parts.swarm.attach(ours, (server.url, 0))
        WebSeed(server.url, ranges, parts.content.infohash, theirs, on_fault).start()

    def _end(self, server: Server, peer: Peer, now: float) -> None:
        """Who brought nothing is tried again later and later."""
        server.peer = None
        server.failures = 1 if peer.down.total else server.failures + 1
        server.next_try = now + delay(server.failures)

    def _set_order(self) -> None:
        """While nobody else is connected all comes from the front on: servers show all pieces, and long ranges are quicker than short ones."""
        peers, options = self.parts.session.peers.values(), self.parts.options
        is_alone = all(peer.is_web for peer in peers)
        if is_alone != self._is_alone and options.serve is None:
            self._is_alone = is_alone
            self.parts.picker.set_in_order(options.in_order or is_alone)
