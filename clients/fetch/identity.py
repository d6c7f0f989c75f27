"""Who we are among peers and trackers."""

from __future__ import annotations

import secrets

CLIENT = b"-PP0003-"
NO_PORT = 1  # is told a tracker by who takes no connections, since some refuse 0


def new_peer_id() -> bytes:
    """A number for one run, which names the program."""
    return CLIENT + secrets.token_bytes(12)
