"""The way from a magnet link to its torrent."""

from __future__ import annotations

import time
from contextlib import suppress
from typing import TYPE_CHECKING

from .addresses import Origin, looked_up
from .identity import NO_PORT, new_peer_id
from .magnet import Magnet
from .metainfo import is_private, metainfo_of
from .options import Options
from .reach import Reach
from .seeking import Seeker
from .source import NotFound, Source

if TYPE_CHECKING:  # who has no tracker starts sooner without them
    from .tracker import Announce, Event

UNKNOWN_LEFT = 1 << 14  # what a tracker is told to be left, where nobody knows: some give no peers to who needs nothing


class Following:
    """A magnet link that is followed, turn by turn, until a peer has given the info dictionary."""

    def __init__(self, link: Magnet, options: Options, reach: Reach) -> None:
        self.link, self.options = link, options
        self.node = reach.node()
        self.seeker = seeker = Seeker(link.infohash, new_peer_id(), options.bind, self.node is not None)
        if link.trackers and options.asks_trackers:
            from .announcing import Announcer

            seeker.announcer = Announcer([[url] for url in link.trackers], self._announce, seeker.wake, options.bind)
        self._search = self.node.search(link.infohash, 0, seeker.hear_of) if self.node else None
        self._local = reach.local()
        self._announced = self._local.add(link.infohash, 0, seeker.hear_of) if self._local else None
        self._began = time.monotonic()
        for address in options.peers:
            seeker.addresses.add(looked_up(address), Origin.USER)
        for address in link.peers:
            with suppress(ValueError):  # a name that nobody knows
                seeker.addresses.add(looked_up(address), Origin.USER)

    def _announce(self, event: Event) -> Announce:
        from .tracker import Announce

        return Announce(self.link.infohash, self.seeker.peer_id, NO_PORT, 0, 0, UNKNOWN_LEFT, event, 0)

    def turn(self) -> Source | None:
        """One turn of the loop; the torrent once it is there. Raises NotFound where nobody can give it, or the user ends it."""
        seeker, give_up = self.seeker, self.options.give_up
        if not (seeker.addresses.known or self.node or self._local or seeker.announcer):
            raise NotFound("no peer is known: HOST:PORT behind OUT names one")
        seeker.turn()
        if seeker.info is not None:
            return self._source(seeker.info)
        if seeker.is_stopping or (give_up is not None and time.monotonic() - self._began > give_up):
            note = seeker.announcer.note if seeker.announcer else ""
            raise NotFound(f"nobody gave the info of the magnet link. {seeker.partings.line() or note or 'no peer was found'}")
        return None

    def _source(self, info: bytes) -> Source:
        """The torrent, and the peers. A private one has those of its trackers and of the user alone (BEP 27)."""
        metainfo = metainfo_of(info, [[url] for url in self.link.trackers], self.link.web_seeds)
        origins = {Origin.USER, Origin.TRACKER} if is_private(metainfo) else set(Origin)
        known = self.seeker.addresses.known.values()
        return Source(metainfo, [(peer.address, peer.origin) for peer in known if peer.origin in origins], self.seeker.give(origins))

    @property
    def line(self) -> str:
        """How far it is."""
        seeker = self.seeker
        connected = sum(link.is_connected for link in seeker.links)
        nodes = f", {self.node.nodes} nodes of the DHT" if self.node else ""
        return f"looking for the torrent's info: {connected} of {len(seeker.addresses.known)} peers{nodes}"

    def close(self) -> None:
        """Ends."""
        self.seeker.close()
        if self.node and self._search:
            self.node.end(self._search)
        if self._local and self._announced:
            self._local.remove(self._announced)
