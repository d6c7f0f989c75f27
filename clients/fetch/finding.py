"""Finds peers for one download: by its trackers, the DHT, the local network, and web servers that have the content."""

from __future__ import annotations

import queue
from typing import TYPE_CHECKING

from .addresses import Origin, is_loopback
from .blame import Address
from .parts import Parts
from .reach import Reach
from .webseeds import WebSeeds

if TYPE_CHECKING:
    from .dht.node import Node
    from .dht.talk import Search
    from .local import Announced, Local


class Finding:
    """What looks for peers while a download runs. A private torrent keeps to its trackers (BEP 27)."""

    def __init__(self, parts: Parts, reach: Reach | None) -> None:
        self.parts = parts
        self.web_seeds = WebSeeds(parts)
        self.node: Node | None = None
        self._reach = reach
        self._search: Search | None = None
        self._local: Local | None = None
        self._announced: Announced | None = None
        self._found: queue.SimpleQueue[tuple[list[Address], Origin]] = queue.SimpleQueue()

    @property
    def knows_nobody(self) -> bool:
        """Whether there is neither a peer nor anything that could find one."""
        found_by = (self.parts.swarm.addresses.known, self.parts.announcer.tiers, self.node, self._local, self.web_seeds.servers)
        return not any(found_by)

    def start(self) -> None:
        """Looks from now on."""
        parts = self.parts
        if self._reach and not parts.is_private:
            self.node, self._local = self._reach.node(), self._reach.local()
        if self._local:
            self._announced = self._local.add(parts.content.infohash, parts.port, lambda peers: self._hear_of(peers, Origin.LOCAL))
        if self.node:
            self._search = self.node.search(parts.content.infohash, parts.port, lambda peers: self._hear_of(peers, Origin.DHT))
            parts.session.dht_port, parts.session.on_node = self.node.port, self.node.greet

    def _hear_of(self, peers: list[Address], origin: Origin) -> None:
        """Others have found peers; their own threads say so."""
        self._found.put((peers, origin))
        self.parts.swarm.wake()

    def tick(self, now: float) -> None:
        """Takes what was found, and announces where it is time for it."""
        swarm, host = self.parts.swarm, self.parts.options.bind
        told = self.parts.announcer.tick(now, len(self.parts.session.peers))
        for address in told:
            swarm.addresses.add(address)
        has_found = bool(told)
        while not self._found.empty():
            has_found = True
            swarm.addresses.hear(*self._found.get(), (host, 0) if is_loopback(host) else None)
        if has_found:
            swarm.connect()
        self.web_seeds.tick(now)

    def close(self) -> None:
        """Looks for nobody any more."""
        if self.node and self._search:
            self.node.end(self._search)
        if self._local and self._announced:
            self._local.remove(self._announced)
