"""Peers that other nodes announced here, and the tokens that let them do it (BEP 5)."""

from __future__ import annotations

import hashlib
import hmac
import random
import secrets

from ..blame import Address

MOST_TORRENTS = 200
MOST_OF_TORRENT = 100  # peers
MOST_TOLD = 50  # peers in one answer, so that it fits into a packet
LIFETIME = 1800.0  # seconds that an announce is good for
ROTATION = 300.0  # seconds of a secret; tokens of the one before are taken too
TOKEN_LENGTH = 8


class Tokens:
    """What a node has to show, before it may announce: that it gets packets at its address."""

    def __init__(self) -> None:
        self._secrets = [secrets.token_bytes(16)] * 2
        self._made: float | None = None

    def _turn(self, now: float) -> None:
        while self._made is None or now - self._made >= ROTATION:
            is_old = self._made is None or now - self._made >= 2 * ROTATION
            self._made = now if is_old or self._made is None else self._made + ROTATION
            self._secrets = [secrets.token_bytes(16), secrets.token_bytes(16) if is_old else self._secrets[0]]

    def give(self, host: str, now: float) -> bytes:
        """The token of a host now."""
        self._turn(now)
        return _token(self._secrets[0], host)

    def is_good(self, token: bytes, host: str, now: float) -> bool:
        """Whether the host was given this token in the last minutes."""
        self._turn(now)
        return any(hmac.compare_digest(token, _token(secret, host)) for secret in self._secrets)


def _token(secret: bytes, host: str) -> bytes:
    return hmac.new(secret, host.encode(), hashlib.sha1).digest()[:TOKEN_LENGTH]


class Store:
    """The announced peers of some torrents."""

    def __init__(self) -> None:
        self._peers: dict[bytes, dict[Address, float]] = {}

    def add(self, infohash: bytes, peer: Address, now: float) -> None:
        """A peer was announced. Where there is no room the oldest one goes, and a new torrent isn't taken."""
        self._forget_old(now)
        if infohash not in self._peers and len(self._peers) >= MOST_TORRENTS:
            return
        peers = self._peers.setdefault(infohash, {})
        peers.pop(peer, None)
        peers[peer] = now
        if len(peers) > MOST_OF_TORRENT:
            del peers[next(iter(peers))]

    def _forget_old(self, now: float) -> None:
        """Peers stand in the order of their announces."""
        for infohash, peers in list(self._peers.items()):
            while peers and now - peers[oldest := next(iter(peers))] > LIFETIME:
                del peers[oldest]
            if not peers:
                del self._peers[infohash]

    def peers_of(self, infohash: bytes, now: float) -> list[Address]:
        """Some of the peers of a torrent."""
        peers = [peer for peer, since in self._peers.get(infohash, {}).items() if now - since <= LIFETIME]
        return random.sample(peers, min(len(peers), MOST_TOLD))
