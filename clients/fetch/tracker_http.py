"""Trackers that are asked by HTTP (BEP 3, BEP 23)."""

from __future__ import annotations

import ipaddress
from urllib.parse import urlencode

from bencode import BencodeFault, Value, bdecode

from . import web
from .blame import Address
from .tracker import Announce, Event, Told, TrackerFault, bounded, compact_peers

LARGEST = 1 << 20  # bytes of an answer
TIMEOUT = 15.0


def query(request: Announce, tracker_id: bytes = b"") -> str:
    """The parameters, as they stand behind the tracker's address."""
    parameters: dict[str, object] = {
        "info_hash": request.infohash, "peer_id": request.peer_id, "port": request.port, "uploaded": request.uploaded,
        "downloaded": request.downloaded, "left": request.left, "compact": 1, "numwant": request.wanted, "key": f"{request.key:08x}",
    }  # fmt: skip
    if request.event is not Event.NONE:
        parameters["event"] = request.event.value
    if tracker_id:
        parameters["trackerid"] = tracker_id
    return urlencode(parameters)


def announce(url: str, request: Announce, timeout: float = TIMEOUT, tracker_id: bytes = b"", source: str = "") -> Told:
    """Tells the tracker, and gives its answer. Raises TrackerFault."""
    address = url + ("&" if "?" in url else "?") + query(request, tracker_id)
    try:
        data = web.get(address, LARGEST, timeout, source)
    except web.WebFault as fault:
        raise TrackerFault(f"the tracker doesn't answer: {fault}") from fault
    return read(data)


def read(data: bytes) -> Told:
    """The answer that these bytes are. Raises TrackerFault where they are none, or tell of a failure."""
    try:
        answer = bdecode(data)
    except BencodeFault as fault:
        raise TrackerFault(f"the tracker's answer is no bencoded value: {fault}") from fault
    if not isinstance(answer, dict):
        raise TrackerFault("the tracker's answer is no dictionary")
    if isinstance(reason := answer.get(b"failure reason"), bytes):
        raise TrackerFault(f"the tracker refuses: {reason.decode('utf-8', 'replace')}")
    peers = _peers(answer.get(b"peers"))
    if isinstance(six := answer.get(b"peers6"), bytes):
        peers += compact_peers(six, 16)
    warning, tracker_id = answer.get(b"warning message"), answer.get(b"tracker id")
    seeders, leechers, shortest = answer.get(b"complete"), answer.get(b"incomplete"), answer.get(b"min interval")
    interval = bounded(answer.get(b"interval"))
    return Told(
        interval=interval,
        shortest=min(interval, bounded(shortest)) if isinstance(shortest, int) else interval,
        peers=peers,
        seeders=seeders if isinstance(seeders, int) else None,
        leechers=leechers if isinstance(leechers, int) else None,
        warning=warning.decode("utf-8", "replace") if isinstance(warning, bytes) else "",
        tracker_id=tracker_id if isinstance(tracker_id, bytes) else b"",
    )


def _peers(told: Value | None) -> list[Address]:
    """The peers of an answer: in compact form, or as a list of dictionaries. Those that name no address are left out."""
    if isinstance(told, bytes):
        return compact_peers(told)
    peers: list[Address] = []
    for entry in told if isinstance(told, list) else []:
        host, port = (entry.get(b"ip"), entry.get(b"port")) if isinstance(entry, dict) else (None, None)
        if isinstance(host, bytes) and isinstance(port, int) and 0 < port < 1 << 16:
            try:
                peers.append((str(ipaddress.ip_address(host.decode("ascii"))), port))
            except ValueError:
                continue  # a name, or nonsense: a lookup would hold up the loop
    return peers
