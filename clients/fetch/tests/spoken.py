"""A download in this process, with peers that have no sockets: what they say goes in, and what they are told comes out."""

from __future__ import annotations

import struct
import tempfile
import unittest
from pathlib import Path
from typing import Any, cast

from fetch.transfer import Transfer
from fetch.options import Options
from fetch.peer import Peer
from fetch.wire import Inbound

from .support import CONTENT, PIECE, PIECES, single_torrent


def message(kind: int, *numbers: int, data: bytes = b"") -> bytes:
    """A message as BEP 3 spells it."""
    payload = struct.pack(f">{len(numbers)}I", *numbers) + data
    return struct.pack(">IB", 1 + len(payload), kind) + payload


class Speaking(unittest.TestCase):
    """One download for each test. Of the content so many pieces are there from the front on."""

    torrent = single_torrent()
    had = 10
    most_peers = 50
    choices: dict[str, Any] = {}  # other options

    def setUp(self) -> None:
        folder = tempfile.TemporaryDirectory()
        self.addCleanup(folder.cleanup)
        out = Path(folder.name, "out")
        Path(f"{out}.part").write_bytes(CONTENT[: self.had * PIECE])
        options = Options("", str(out), listens=False, asks_trackers=False, quiet=True, most_peers=self.most_peers, **self.choices)
        self.download = Transfer(options, self.torrent)
        self.addCleanup(self.download.close)
        self.download.prepare()
        self.session = self.download.parts.session

    def peer(self, is_fast: bool, port: int = 1) -> Peer:
        """A peer that has joined; what was said to it is looked at by `said`."""
        peer = Peer(cast(Any, None), ("127.0.0.1", port), True, Inbound(PIECES), self.session.now)
        peer.is_fast = is_fast
        worker = self.download.parts.swarm._free_worker()
        assert worker is not None
        self.session.join(peer, worker)
        return peer

    def leave(self, peer: Peer) -> None:
        """It goes."""
        self.download.parts.swarm.free_workers.append(peer.worker)
        self.session.part(peer)

    def said(self, peer: Peer) -> bytes:
        """What was said since the last call."""
        data = bytes(peer.unsent)
        peer.unsent.clear()
        return data

    def hear(self, peer: Peer, data: bytes) -> bytes:
        """The peer says something; what it is answered, with the blocks that it is given."""
        self.session.receive(peer, data)
        self.session.uploads.serve(peer, self.session.now)
        return self.said(peer)
