"""Where peers may be found, when each may be tried again, and who isn't tried at all."""

from __future__ import annotations

import ipaddress
import random
import socket
from dataclasses import dataclass
from enum import Enum

from .blame import Address

FIRST_DELAY = 2.0  # seconds after the first failure; each one doubles it
LONGEST_DELAY = 600.0
MOST_KNOWN = 2000
MOST_FAILURES = 8  # of an address that nobody but a peer or the DHT has told, until it is forgotten


class Origin(Enum):
    """Who told an address. The user's are never forgotten, and of the others so many are kept at most."""

    USER = "the user"
    TRACKER = "a tracker"
    EXCHANGE = "a peer"
    DHT = "the DHT"
    LOCAL = "the local network"


MOST_OF = {Origin.USER: 1 << 30, Origin.TRACKER: MOST_KNOWN, Origin.EXCHANGE: 800, Origin.DHT: 800, Origin.LOCAL: 100}


@dataclass
class Known:
    """An address, and how it went there so far."""

    address: Address
    origin: Origin = Origin.TRACKER
    is_in_use: bool = False
    failures: int = 0
    next_try: float = 0.0


class Addresses:
    """All addresses of one download."""

    def __init__(self) -> None:
        self.known: dict[Address, Known] = {}
        self.counts = dict.fromkeys(Origin, 0)
        self.banned: set[Address] = set()
        self.banned_hosts: set[str] = set()

    def add(self, address: Address, origin: Origin = Origin.TRACKER) -> None:
        """An address was told. There is room for the user's in any case, and for some of each other origin."""
        if address[1] == 0 or address in self.known or self.is_banned(address):
            return
        is_full = len(self.known) >= MOST_KNOWN or self.counts[origin] >= MOST_OF[origin]
        if is_full and origin is not Origin.USER:
            return
        self.counts[origin] += 1
        self.known[address] = Known(address, origin)

    def hear(self, peers: list[Address], origin: Origin, teller: Address | None = None) -> None:
        """Others told of these peers. Those that can't be peers aren't taken, nor our own machine from who isn't on it."""
        is_local = teller is not None and is_loopback(teller[0])
        for address in peers:
            if is_possible(address[0]) and (is_local or not is_loopback(address[0])):
                self.add(address, origin)

    def _remove(self, address: Address) -> None:
        if known := self.known.pop(address, None):
            self.counts[known.origin] -= 1

    def due(self, now: float) -> Known | None:
        """One that may be tried now: the one that waits for the longest time."""
        ready = [known for known in self.known.values() if not known.is_in_use and known.next_try <= now]
        return min(ready, key=lambda known: (known.failures, known.next_try)) if ready else None

    def failed(self, address: Address, now: float) -> None:
        """There was no connection, or nothing came of it."""
        if known := self.known.get(address):
            known.is_in_use = False
            known.failures += 1
            known.next_try = now + delay(known.failures) * random.uniform(0.8, 1.2)
            if known.failures >= MOST_FAILURES and known.origin in (Origin.EXCHANGE, Origin.DHT):
                self._remove(address)

    def ended(self, address: Address, now: float) -> None:
        """A connection that brought something is gone."""
        if known := self.known.get(address):
            known.failures = 0
        self.failed(address, now)

    def postpone(self, address: Address, now: float) -> None:
        """Who is there has all, as we have."""
        if known := self.known.get(address):
            known.next_try = now + LONGEST_DELAY

    def forget(self, address: Address) -> None:
        """It leads to ourselves."""
        self._remove(address)
        self.banned.add(address)

    def ban(self, address: Address) -> None:
        """Who is there sent wrong data. Its whole host is banned, but for our own machine, where other peers may be."""
        self._remove(address)
        self.banned.add(address)
        if not is_loopback(address[0]):
            self.banned_hosts.add(address[0])
            for other in [other for other in self.known if other[0] == address[0]]:
                self._remove(other)

    def is_banned(self, address: Address) -> bool:
        """Whether nothing may come from there."""
        return address in self.banned or address[0] in self.banned_hosts


def is_possible(host: str) -> bool:
    """Whether a peer may be there: neither everybody, nor nobody, nor a name."""
    try:
        number = ipaddress.ip_address(host)
    except ValueError:
        return False
    return not (number.is_multicast or number.is_unspecified or number.is_reserved)


def is_loopback(host: str) -> bool:
    """Whether it is our own machine."""
    return host.startswith("127.") or host == "::1"


def delay(failures: int) -> float:
    """How long to wait after so many failures, in seconds."""
    return min(LONGEST_DELAY, FIRST_DELAY * 2.0 ** min(failures - 1, 20))


def parse(text: str) -> Address:
    """The address that a user has typed: HOST:PORT, or [HOST]:PORT. Raises ValueError."""
    host, colon, port = text.rpartition(":")
    host = host.removeprefix("[").removesuffix("]")
    if not colon or not host or not port.isascii() or not port.isdigit() or not 0 < int(port) < 1 << 16:
        raise ValueError(f"{text!r} is no address: HOST:PORT is one")
    return host, int(port)


def looked_up(address: Address) -> Address:
    """The address with its number in place of a name. Raises ValueError."""
    try:
        where = socket.getaddrinfo(*address, type=socket.SOCK_STREAM)[0][4]
    except OSError as error:
        raise ValueError(f"the peer {address[0]}:{address[1]} can't be looked up: {error.strerror}") from error
    return str(where[0]), int(where[1])
