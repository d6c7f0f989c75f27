"""Peers that peers tell each other (BEP 11): the messages as bytes, and what was told to one peer."""

from __future__ import annotations

import ipaddress
from collections.abc import Iterable
from dataclasses import dataclass, field

from bencode import BencodeFault, Value, bdecode, bencode

from .blame import Address
from .tracker import compact_peers
from .wire import WireFault, spell_extended

EACH = 60.0  # seconds between two messages to a peer
SHORTEST = 45.0  # seconds between two messages of a peer; one that comes sooner isn't read
MOST = 50  # peers that come or go in one message
MOST_HEARD = 200  # that are taken from one peer in all


@dataclass
class Exchange:
    """What was said with one peer."""

    said: float = -EACH
    heard: float = -EACH
    told: set[Address] = field(default_factory=set)
    taken: int = 0

    def next(self, peers: Iterable[Address], now: float) -> tuple[list[Address], list[Address]] | None:
        """Who came and who went since the last message; None where it is too early, or nothing changed."""
        if now - self.said < EACH:
            return None
        connected = set(peers)
        came, went = sorted(connected - self.told)[:MOST], sorted(self.told - connected)[:MOST]
        if not came and not went:
            return None
        self.said = now
        self.told = (self.told | set(came)) - set(went)
        return came, went

    def take(self, payload: memoryview, now: float) -> list[Address]:
        """The peers of a message, as far as they are taken. Raises WireFault where these bytes are none."""
        if now - self.heard < SHORTEST:
            return []
        self.heard = now
        peers = read(payload)[: max(0, MOST_HEARD - self.taken)]
        self.taken += len(peers)
        return peers


def _compact(addresses: Iterable[Address], length: int) -> bytes:
    """The addresses of one kind, one behind the other."""
    found = [(ipaddress.ip_address(host).packed, port) for host, port in addresses]
    return b"".join(packed + port.to_bytes(2, "big") for packed, port in found if len(packed) == length)


def spell(number: int, came: list[Address], went: list[Address]) -> bytes:
    """A message, by the receiver's number. Nothing is said of what these peers prefer."""
    told: dict[bytes, Value] = {b"added": _compact(came, 4), b"dropped": _compact(went, 4)}
    told[b"added.f"] = bytes(len(told[b"added"]) // 6)  # type: ignore[arg-type]  # they are bytes
    if any(":" in host for host, _ in came + went):
        told |= {b"added6": _compact(came, 16), b"dropped6": _compact(went, 16)}
        told[b"added6.f"] = bytes(len(told[b"added6"]) // 18)  # type: ignore[arg-type]  # they are bytes
    return spell_extended(number, bencode(told))


def read(payload: memoryview) -> list[Address]:
    """The peers that came. A list that is cut short has those that are whole. Raises WireFault."""
    try:
        told = bdecode(bytes(payload))
    except BencodeFault as fault:
        raise WireFault(f"an exchange of peers is no bencoded value: {fault}") from fault
    if not isinstance(told, dict):
        raise WireFault("an exchange of peers is no dictionary")
    four, six = told.get(b"added"), told.get(b"added6")
    peers = compact_peers(four[: 6 * MOST]) if isinstance(four, bytes) else []
    return peers + (compact_peers(six[: 18 * MOST], 16) if isinstance(six, bytes) else [])
