"""Peers that send nonsense, half of it nearly right: none of them ends the program or spoils the content.

FETCH_SESSIONS in the environment is the number of sessions in this process, 2,000 without it.
"""

from __future__ import annotations

import contextlib
import hashlib
import os
import random
import socket
import struct
import tempfile
import time
import unittest
from pathlib import Path
from typing import Any, cast

from fetch.transfer import Transfer
from fetch.options import Options
from fetch.peer import Peer
from fetch.wire import Inbound, WireFault

from .support import (
    BITFIELD, BLOCK, BLOCK_MESSAGE, CANCEL, CONTENT, EXTENDED, HAVE, HAVE_ALL, PIECE, PIECES, REJECT, REQUEST, UNCHOKE, Downloading,
    flags_of, single_torrent,
)  # fmt: skip

SESSIONS = int(os.environ.get("FETCH_SESSIONS", "2000"))
NUMBERS = [0, 1, PIECES - 1, PIECES, BLOCK, 2 * BLOCK, PIECE, 0x7FFFFFFF, 0xFFFFFFFF]
# Of the extension protocol.
HELLOS = [b"\0d1:md11:lt_donthavei3eee", b"\0d1:md11:lt_donthavei-1eee", b"\0d1:mlee", b"\0" + 40 * b"d1:m", b"\0i1e", b"\x63", b""]
INFO_AND_PEERS = [
    b"\x02d8:msg_typei0e5:piecei0ee", b"\x02d8:msg_typei0e5:piecei99999999eex", b"\x02d8:msg_typei7e5:piecei-1ee", b"\x02" + b"d" * 60,
    b"\x01d5:added7:\x0a\0\0\x01\x1a\xe1xe", b"\x01d5:addedle7:droppedi3ee", b"\x01le",
]  # fmt: skip
PORT = 9


def message(kind: int, payload: bytes = b"") -> bytes:
    """A message."""
    return struct.pack(">IB", 1 + len(payload), kind) + payload


class Nonsense:
    """What a hostile peer sends, by one seed."""

    def __init__(self, seed: int) -> None:
        self.chance = random.Random(seed)

    def number(self) -> int:
        """A number at the border of something, or any."""
        return self.chance.choice(NUMBERS) if self.chance.random() < 0.7 else self.chance.getrandbits(32)

    def numbers(self, count: int) -> bytes:
        """Some of them, as they are spelled."""
        return struct.pack(f">{count}I", *(self.number() for _ in range(count)))

    def part(self, asked: list[tuple[int, int]]) -> bytes:
        """Some bytes: a right message, one that is nearly right, or any; `asked` is what we ask of the peer."""
        chance = self.chance
        kind = chance.choice([0, 1, 1, 2, 3, HAVE, BITFIELD, REQUEST, BLOCK_MESSAGE, CANCEL, PORT, 13, HAVE_ALL, 15, REJECT, 17, EXTENDED, 255])
        if asked and chance.random() < 0.5:
            return self.answer(asked)
        if chance.random() < 0.1:
            return chance.randbytes(chance.randrange(60))
        count = {HAVE: 1, REQUEST: 3, CANCEL: 3, REJECT: 3, 13: 1, 17: 1, BLOCK_MESSAGE: 2}.get(kind, 0)
        payload = self.numbers(count)
        if kind == BITFIELD:
            payload = flags_of(range(chance.randrange(PIECES + 1))) if chance.random() < 0.8 else chance.randbytes(chance.randrange(9))
        if kind == EXTENDED:
            payload = chance.choice([b"\x07" + self.numbers(1), *HELLOS, *INFO_AND_PEERS])
        if kind == PORT:
            payload = chance.randbytes(2)
        if kind == BLOCK_MESSAGE:
            payload += bytes(chance.choice([0, 1, BLOCK - 1, BLOCK, BLOCK + 1]))
        if chance.random() < 0.05:
            payload = payload[:-1]
        if chance.random() < 0.05:
            payload += b"\0"
        return message(kind, payload)

    def answer(self, asked: list[tuple[int, int]]) -> bytes:
        """A block that was asked for, right or wrong or of another length; or its reject."""
        piece, begin = self.chance.choice(asked)
        head, at = struct.pack(">II", piece, begin), piece * PIECE + begin
        block = CONTENT[at : at + BLOCK]
        return self.chance.choice([
            message(BLOCK_MESSAGE, head + block), message(BLOCK_MESSAGE, head + bytes(len(block))), message(BLOCK_MESSAGE, head + block[:-1]),
            message(REJECT, head + struct.pack(">I", len(block))), 2 * message(BLOCK_MESSAGE, head + block),
        ])  # fmt: skip


class InProcess(unittest.TestCase):
    """Many sessions at one download, without sockets."""

    def setUp(self) -> None:
        folder = tempfile.TemporaryDirectory()
        self.addCleanup(folder.cleanup)
        self.out = Path(folder.name, "out")
        options = Options("", str(self.out), listens=False, asks_trackers=False, quiet=True)
        self.download = Transfer(options, single_torrent())
        self.addCleanup(self.download.close)
        self.download.prepare()

    def peer(self, number: int) -> Peer:
        """A peer that has joined."""
        peer = Peer(cast(Any, None), ("127.0.0.1", number % 60000 + 1), True, Inbound(PIECES), 0.0)
        peer.is_fast = number % 2 == 0
        worker = self.download.parts.swarm._free_worker()
        assert worker is not None
        self.download.parts.session.join(peer, worker)
        return peer

    def leave(self, peer: Peer) -> None:
        """It goes."""
        self.download.parts.swarm.free_workers.append(peer.worker)
        self.download.parts.session.part(peer)

    def run_session(self, number: int) -> bool:
        """One hostile session; whether it kept to the protocol until its end."""
        session, nonsense = self.download.parts.session, Nonsense(number)
        peer = self.peer(number)
        try:
            for _ in range(nonsense.chance.randrange(40)):
                session.now = time.monotonic()
                session.receive(peer, nonsense.part(list(peer.asked)))
                session.uploads.serve(peer, session.now)
                if nonsense.chance.random() < 0.1:
                    session.time_out(peer)
                    session.follow_rate(peer)
                    session.uploads.unchoke(peer)
            return True
        except WireFault:
            return False
        finally:
            self.leave(peer)
            session.settle()

    def test_sessions(self) -> None:
        outcomes = {True: 0, False: 0}
        for number in range(SESSIONS):
            outcomes[self.run_session(number)] += 1
        # Both kinds are there, so that the nonsense is neither too wild nor too tame.
        self.assertGreater(min(outcomes.values()), SESSIONS // 10)
        session = self.download.parts.session
        self.assertEqual((session.peers, session.asks), ({}, {}))
        self.finish()
        self.assertEqual(hashlib.sha1(self.out.read_bytes()).digest(), hashlib.sha1(CONTENT).digest())

    def finish(self) -> None:
        """An honest peer brings what is missing."""
        session = self.download.parts.session
        peer = self.peer(0)
        session.receive(peer, message(HAVE_ALL) + message(UNCHOKE))
        end = time.monotonic() + 30
        while not self.download.parts.picker.has_wanted and time.monotonic() < end:
            session.now = time.monotonic() + 100.0  # no rest after rejects
            for piece, begin in list(peer.asked):
                block = CONTENT[piece * PIECE + begin : piece * PIECE + begin + BLOCK]
                session.receive(peer, message(BLOCK_MESSAGE, struct.pack(">II", piece, begin) + block))
            session.settle()
            session.ask_idle()
            time.sleep(0.001)
        self.assertTrue(self.download.parts.picker.has_wanted)

    def test_deaf_peer(self) -> None:
        """Who asks and never reads is not answered without end."""
        session = self.download.parts.session
        self.finish()
        for number in (0, 1):
            peer = self.peer(number)
            session.uploads.unchoke(peer)
            with contextlib.suppress(WireFault):
                for begin in range(20000):
                    session.receive(peer, message(REQUEST, struct.pack(">III", 0, begin, BLOCK)))
                    session.uploads.serve(peer, session.now)
            self.assertLessEqual(len(peer.wants), 1 << 14)
            self.assertLess(len(peer.unsent), 1 << 20)
            self.leave(peer)


class BySockets(Downloading):
    """Hostile connections to the program, from both sides."""

    listens = True

    def attack(self, port: int, seed: int) -> None:
        """One connection that sends nonsense, mostly behind a right handshake."""
        nonsense = Nonsense(seed)
        with contextlib.suppress(OSError), socket.create_connection(("127.0.0.1", port), 5) as connection:
            if nonsense.chance.random() < 0.8:
                connection.sendall(b"\x13BitTorrent protocol" + nonsense.chance.randbytes(8) + self.infohash + nonsense.chance.randbytes(20))
            for _ in range(nonsense.chance.randrange(12)):
                connection.sendall(nonsense.part([]))

    def test_connections(self) -> None:
        with socket.socket() as listener:
            listener.bind(("127.0.0.1", 0))
            port = listener.getsockname()[1]
        seeder = self.seeder(delay=0.02)
        process = self.start("--bind", "127.0.0.1", "--port", str(port), "--give-up", "10", seeders=(seeder,))
        seed = 0
        while process.poll() is None and seed < 400:
            seed += 1
            self.attack(port, seed)
        seeder.manners.delay = 0.0
        _, errors = process.communicate(timeout=60)
        self.assertEqual((process.returncode, errors), (0, ""))
        self.assertGreater(seed, 100)
        self.assert_same()


if __name__ == "__main__":
    unittest.main()
