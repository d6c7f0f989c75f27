"""Magnet links (BEP 9): the infohash, and where peers may be found."""

from __future__ import annotations

import base64
import binascii
from collections.abc import Iterable
from dataclasses import dataclass, field
from urllib.parse import parse_qsl, urlsplit

from . import addresses
from .blame import Address
from .metainfo import MOST_TRACKERS, MOST_WEB_SEEDS, MetainfoFault

PREFIX = "magnet:"
LONGEST = 1 << 16  # letters
MOST_PEERS = 100
TOPIC, TOPIC_OF_V2 = "urn:btih:", "urn:btmh:"


@dataclass(frozen=True)
class Magnet:
    """What a link says. Each tracker is a tier of its own."""

    infohash: bytes
    name: str = ""
    trackers: list[str] = field(default_factory=list)
    peers: list[Address] = field(default_factory=list)
    web_seeds: list[str] = field(default_factory=list)


def parse(text: str) -> Magnet:
    """The link that the user has given. Raises MetainfoFault."""
    parts = urlsplit(text)
    if parts.scheme.lower() != "magnet" or len(text) > LONGEST:
        raise MetainfoFault("this is no magnet link")
    told = parse_qsl(parts.query)
    topics = [value for name, value in told if name == "xt" or name.startswith("xt.")]
    hashes = [topic[len(TOPIC) :] for topic in topics if topic.lower().startswith(TOPIC)]
    if not hashes:
        only_new = any(topic.lower().startswith(TOPIC_OF_V2) for topic in topics)
        raise MetainfoFault("the magnet link is for version 2 alone" if only_new else "the magnet link has no infohash: xt=urn:btih:.. is one")
    return Magnet(
        infohash=_infohash(hashes[0]),
        name=next((value for name, value in told if name == "dn"), ""),
        trackers=_unique(value for name, value in told if name == "tr" or name.startswith("tr."))[:MOST_TRACKERS],
        peers=_peers([value for name, value in told if name == "x.pe"]),
        web_seeds=_unique(value for name, value in told if name == "ws")[:MOST_WEB_SEEDS],
    )


def _unique(values: Iterable[str]) -> list[str]:
    """The addresses, each once, as ASCII."""
    return list(dict.fromkeys(value for value in values if value.isascii()))


def _infohash(text: str) -> bytes:
    """20 bytes, in 40 digits of base 16 or 32 of base 32."""
    try:
        if len(text) == 40:
            return binascii.unhexlify(text)
        if len(text) == 32:
            return base64.b32decode(text.upper())
    except (binascii.Error, ValueError):
        pass
    raise MetainfoFault("the infohash of the magnet link has neither 40 digits of base 16 nor 32 of base 32")


def _peers(texts: list[str]) -> list[Address]:
    """The peers, without those that are no addresses."""
    found = []
    for text in texts[:MOST_PEERS]:
        try:
            found.append(addresses.parse(text))
        except ValueError:
            continue
    return found
