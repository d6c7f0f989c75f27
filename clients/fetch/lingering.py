"""The end of connections: a connection that is closed with something unread in it takes away what was sent last."""

from __future__ import annotations

import selectors
import socket
import time
from collections.abc import Callable

from .peer import Peer

LONGEST = 1.0  # seconds for peers to read what was sent to them
READ = 1 << 18


def linger(selector: selectors.BaseSelector, peers: set[Peer], drop: Callable[[Peer], None]) -> None:
    """Lets the peers read what was sent last. `drop` ends a connection, and takes its peer out of the set."""
    for peer in list(peers):
        try:
            peer.connection.shutdown(socket.SHUT_WR)
        except OSError:
            drop(peer)
    end = time.monotonic() + LONGEST
    while peers and (left := end - time.monotonic()) > 0:
        for key, _ in selector.select(left):
            if not _discard(selector, key.data):
                drop(key.data)


def _discard(selector: selectors.BaseSelector, peer: Peer) -> bool:
    """Reads what came and forgets it; whether the connection lasts."""
    peer.events = selectors.EVENT_READ
    selector.modify(peer.connection, peer.events, peer)
    try:
        return bool(peer.connection.recv(READ))
    except (BlockingIOError, InterruptedError):
        return True
    except OSError:
        return False
