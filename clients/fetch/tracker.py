"""What is said between a downloader and any tracker."""

from __future__ import annotations

import ipaddress
from dataclasses import dataclass, field
from enum import StrEnum

from .blame import Address

NUMBER_WANTED = 80
SHORTEST_INTERVAL = 30.0  # seconds, whatever the tracker says
LONGEST_INTERVAL = 7200.0
USUAL_INTERVAL = 1800.0


class TrackerFault(Exception):
    """The tracker gave no answer that can be used; the text says why."""


class Event(StrEnum):
    """Why the tracker is told something."""

    NONE = ""
    STARTED = "started"
    STOPPED = "stopped"
    COMPLETED = "completed"


@dataclass(frozen=True)
class Announce:
    """What the tracker is told. `left` counts what isn't had, wanted or not."""

    infohash: bytes
    peer_id: bytes
    port: int
    uploaded: int
    downloaded: int
    left: int
    event: Event
    key: int

    @property
    def wanted(self) -> int:
        """How many peers the tracker should name."""
        return 0 if self.event is Event.STOPPED else NUMBER_WANTED


@dataclass(frozen=True)
class Told:
    """What the tracker answers."""

    interval: float
    shortest: float  # seconds before which nothing but an event may be announced
    peers: list[Address]
    seeders: int | None = None
    leechers: int | None = None
    warning: str = ""
    tracker_id: bytes = field(default=b"", repr=False)


def bounded(interval: object) -> float:
    """The seconds until the next announce, from what the tracker says."""
    if not isinstance(interval, int) or interval <= 0:
        return USUAL_INTERVAL
    return min(max(float(interval), SHORTEST_INTERVAL), LONGEST_INTERVAL)


def compact_peers(data: bytes, length: int = 4) -> list[Address]:
    """Addresses of so many bytes with two for the port, one behind the other (BEP 23; BEP 7 for 16 bytes)."""
    step = length + 2
    peers = []
    for at in range(0, len(data) - len(data) % step, step):
        host = ipaddress.ip_address(data[at : at + length])
        peers.append((str(host), int.from_bytes(data[at + length : at + step], "big")))
    return peers
