"""What is given to other peers, message by message, and in swarms of the program itself."""

from __future__ import annotations

import os
import signal
import socket
import time
import unittest
from pathlib import Path
from typing import Any, cast

from fetch.addresses import Origin
from fetch.peer import Peer
from fetch.limits import Limit
from fetch.wire import Inbound

from .spoken import Speaking, message
from .support import (
    BITFIELD, BLOCK, BLOCK_MESSAGE, CANCEL, CHOKE, CONTENT, EXTENDED, HAVE, HAVE_ALL, HAVE_NONE, INTERESTED, NOT_INTERESTED, PIECE, PIECES,
    REJECT, REQUEST, UNCHOKE, Downloading, flags_of, single_torrent,
)  # fmt: skip
from .trackers import HttpTracker

BLOCKS = 161


class Answers(Speaking):
    """What is said to one peer. Of the content the pieces 0 to 9 are there."""

    def test_shown(self) -> None:
        self.assertEqual(self.said(self.peer(True)), message(BITFIELD, data=flags_of(range(10))))

    def test_extended(self) -> None:
        """Who has the extension protocol is told which messages we take and how long our info is, behind what we have (BEP 9, 10)."""
        peer = Peer(cast(Any, None), ("127.0.0.1", 1), True, Inbound(PIECES), self.session.now)
        peer.is_extended = True
        self.session.join(peer, 0)
        length = len(self.torrent[self.torrent.index(b"4:info") + 6 : -1])
        told = b"\0d1:md11:lt_donthavei7e11:ut_metadatai2ee13:metadata_sizei%de1:v9:piecepicke" % length
        self.assertTrue(self.said(peer).endswith(message(EXTENDED, data=told)))

    def test_given(self) -> None:
        peer = self.peer(False)
        self.hear(peer, message(INTERESTED))
        self.session.uploads.unchoke(peer)
        self.assertEqual(self.said(peer), message(UNCHOKE))
        answer = self.hear(peer, message(REQUEST, 3, BLOCK, 100))
        at = 3 * PIECE + BLOCK
        self.assertEqual(answer, message(BLOCK_MESSAGE, 3, BLOCK, data=CONTENT[at : at + 100]))

    def test_choked(self) -> None:
        """A choked peer gets nothing, and is told so where it understands that (BEP 6)."""
        for is_fast, answer in ((True, message(REJECT, 3, 0, BLOCK)), (False, b"")):
            peer = self.peer(is_fast)
            self.said(peer)
            self.assertEqual(self.hear(peer, message(REQUEST, 3, 0, BLOCK)), answer)
            self.leave(peer)

    def test_not_there(self) -> None:
        peer = self.peer(True)
        self.session.uploads.unchoke(peer)
        self.said(peer)
        for numbers in ((10, 0, BLOCK), (PIECES, 0, BLOCK), (3, PIECE, 1), (3, 0, 0), (3, 0, PIECE + 1), (3, PIECE - 1, 2)):
            self.assertEqual(self.hear(peer, message(REQUEST, *numbers)), message(REJECT, *numbers), numbers)

    def test_choke_rejects(self) -> None:
        """What still waits when a peer is choked is rejected."""
        peer = self.peer(True)
        self.session.uploads.unchoke(peer)
        self.session.receive(peer, message(REQUEST, 3, 0, BLOCK) + message(REQUEST, 4, 0, BLOCK))
        self.said(peer)
        self.session.uploads.choke(peer)
        self.assertEqual(self.said(peer), message(CHOKE) + message(REJECT, 3, 0, BLOCK) + message(REJECT, 4, 0, BLOCK))

    def test_cancel(self) -> None:
        peer = self.peer(False)
        self.session.uploads.unchoke(peer)
        self.said(peer)
        self.assertEqual(self.hear(peer, message(REQUEST, 3, 0, BLOCK) + message(CANCEL, 3, 0, BLOCK)), b"")

    def test_interest(self) -> None:
        """Interest is told once, and taken back when the peer has nothing more for us."""
        peer = self.peer(False)
        self.said(peer)
        self.assertEqual(self.hear(peer, message(HAVE, 3)), b"")
        self.assertEqual(self.hear(peer, message(HAVE, 40)), message(INTERESTED))
        self.assertEqual(self.hear(peer, message(HAVE, 40)), b"")
        asked = self.hear(peer, message(UNCHOKE))
        self.assertEqual(asked, message(REQUEST, 40, 0, 12345))
        self.session.receive(peer, message(BLOCK_MESSAGE, 40, 0, data=CONTENT[40 * PIECE :]))
        end = time.monotonic() + 10
        while not self.session.settle() and time.monotonic() < end:
            time.sleep(0.01)
        self.session.now += 1
        self.session.ask(peer)
        self.assertEqual(self.said(peer), message(HAVE, 40) + message(NOT_INTERESTED))


class Nothing(Answers):
    """Nothing is there."""

    had = 0

    def test_shown(self) -> None:
        self.assertEqual(self.said(self.peer(True)), message(HAVE_NONE))
        self.leave(self.session.peers[0])
        self.assertEqual(self.said(self.peer(False)), b"")

    test_given = test_choke_rejects = test_cancel = test_interest = None  # type: ignore[assignment]  # tests of another state


class AtOnce(Speaking):
    """What doesn't wait for the next look at the clock."""

    choices = {"bind": "127.0.0.1"}

    def setUp(self) -> None:
        super().setUp()
        self.swarm = self.download.parts.swarm
        self.swarm.turn()
        self.swarm._ticked = self.session.now + 3600  # so that none of it is due

    def test_unchoked(self) -> None:
        """Who becomes interested is unchoked in the same turn, where a slot is free, and it is sent without a wait."""
        ours, theirs = socket.socketpair()
        self.addCleanup(theirs.close)
        self.swarm.attach(ours, ("127.0.0.1", 1))
        theirs.settimeout(10)
        theirs.sendall(b"\x13BitTorrent protocol" + bytes(8) + self.download.parts.content.infohash + bytes(20) + message(INTERESTED))
        end, came, whole = time.monotonic() + 10, b"", 68 + len(message(BITFIELD, data=flags_of(range(10))) + message(UNCHOKE))
        for _ in range(3):  # the handshake is sent, what came is read, and what was said then is sent
            self.swarm.turn()
        while len(came) < whole and time.monotonic() < end:
            came += theirs.recv(4096)
        self.assertTrue(came.endswith(message(UNCHOKE)), came)

    def test_connects(self) -> None:
        """Where an address is found a connection is begun."""
        listener = socket.create_server(("127.0.0.1", 0))
        self.addCleanup(listener.close)
        self.download.finding._hear_of([listener.getsockname()], Origin.LOCAL)
        self.download.finding.tick(self.session.now)
        self.assertEqual([peer.address for peer in self.swarm.peers], [listener.getsockname()])


class Lost(Speaking):
    """A piece that was there. Of the content the pieces 0 to 9 are."""

    def test_lost(self) -> None:
        """A piece that can't be read any more is rejected, and comes again from who has it. Who takes that message is told that it is lost."""
        peer = self.peer(True)
        self.hear(peer, message(EXTENDED, data=b"\0d1:md11:lt_donthavei3eee"))
        self.session.uploads.unchoke(peer)
        self.download.parts.picker.set_levels(bytes(4 * (piece == 3) for piece in range(PIECES)))
        self.said(peer)
        self.assertEqual(self.hear(peer, message(HAVE_ALL) + message(UNCHOKE)), b"")
        os.truncate(f"{self.download.parts.root}.part", 3 * PIECE)
        wanted = (3, 0, BLOCK)
        self.session.receive(peer, message(REQUEST, *wanted) + message(REQUEST, 3, BLOCK, BLOCK))
        self.session.uploads.serve(peer, self.session.now)
        self.assertEqual(self.said(peer), message(REJECT, *wanted) + message(REJECT, 3, BLOCK, BLOCK))
        self.assertEqual((self.session.content.has(3), self.session.content.had_count), (False, 9))
        self.session.settle()
        self.session.ask_idle()
        requests = b"".join(message(REQUEST, 3, begin, BLOCK) for begin in range(0, PIECE, BLOCK))
        self.assertEqual(self.said(peer), message(EXTENDED, data=b"\x03\0\0\0\x03") + message(INTERESTED) + requests)
        for begin in range(0, PIECE, BLOCK):
            self.hear(peer, message(BLOCK_MESSAGE, 3, begin, data=CONTENT[3 * PIECE + begin :][:BLOCK]))
        end = time.monotonic() + 10
        while not self.session.settle() and time.monotonic() < end:
            time.sleep(0.01)
        self.said(peer)
        self.assertEqual(self.hear(peer, message(REQUEST, *wanted)), message(BLOCK_MESSAGE, 3, 0, data=CONTENT[3 * PIECE :][:BLOCK]))


class All(Answers):
    """All is there."""

    had = PIECES

    def test_shown(self) -> None:
        self.assertEqual(self.said(self.peer(True)), message(HAVE_ALL))
        self.leave(self.session.peers[0])
        self.assertEqual(self.said(self.peer(False)), message(BITFIELD, data=flags_of(range(PIECES))))

    test_not_there = test_interest = None  # type: ignore[assignment]  # tests of another state


class Limits(unittest.TestCase):
    """How much is sent a second."""

    def test_rate(self) -> None:
        limit, sent = Limit(10000), 0
        for tenth in range(1000, 1200):
            while limit.allows(tenth / 10):
                limit.take(700)
                sent += 700
        # Twenty seconds, and what may be sent at once at the beginning.
        self.assertAlmostEqual(sent, 210000, delta=2000)
        self.assertTrue(Limit(None).allows(0.0))


class Swarms(Downloading):
    """Programs that give to each other."""

    listens = True

    def setUp(self) -> None:
        super().setUp()
        self.tracker = HttpTracker(shortest=1)
        self.addCleanup(self.tracker.close)
        url = self.tracker.url
        self.torrent_path.write_bytes(single_torrent().replace(b"27:http://127.0.0.1:9/announce", b"%d:%s" % (len(url), url.encode())))

    def start_at(self, out: Path, *words: str, seeders: Any = ()) -> Any:
        """Starts a program that has its content there."""
        self.out, old = out, self.out
        process = self.start("--bind", "127.0.0.1", *words, seeders=seeders)
        self.out = old
        self.addCleanup(process.communicate)
        self.addCleanup(process.kill)
        return process

    def test_leechers(self) -> None:
        """Three leechers of a slow seeder have a good part from each other."""
        seeder = self.seeder(delay=0.08)
        outs = [self.folder / f"out-{number}" for number in range(3)]
        leechers = [self.start_at(out, "--seed-minutes", "1", seeders=(seeder,)) for out in outs]
        end = time.monotonic() + 60
        while not all(out.exists() for out in outs) and time.monotonic() < end:
            time.sleep(0.1)
        self.assertEqual([out.read_bytes() == CONTENT for out in outs], [True] * 3)
        self.assertLess(seeder.blocks, 3 * BLOCKS * 4 // 5)
        for leecher in leechers:
            leecher.send_signal(signal.SIGINT)
        self.assertEqual([leecher.wait(20) for leecher in leechers], [0, 0, 0])
        self.assertEqual([told.get("event") for told in self.tracker.announces].count("stopped"), 3)

    def test_ratio(self) -> None:
        """Who seeds to a ratio of one ends by itself once it has given all."""
        full = self.folder / "full"
        full.write_bytes(CONTENT)
        giver = self.start_at(full, "--seed", "1")
        time.sleep(1.0)
        self.fetch(words=("--bind", "127.0.0.1"))
        self.assertEqual(giver.wait(20), 0)
        printed = dict(line.split() for line in giver.stdout.read().splitlines())
        self.assertEqual(printed["uploaded"], str(len(CONTENT)))

    def test_interrupted(self) -> None:
        """ctrl-C in between: the state is written, and the tracker is told."""
        seeder = self.seeder(delay=0.5)  # it takes over a minute for the content
        process = self.start_at(self.out, seeders=(seeder,))
        end = time.monotonic() + 60
        while seeder.blocks < 3 and time.monotonic() < end:
            time.sleep(0.05)
        process.send_signal(signal.SIGINT)
        self.assertEqual(process.wait(20), 1)
        self.assertEqual([told.get("event") for told in self.tracker.announces], ["started", "stopped"])
        self.assertTrue(Path(f"{self.out}.part").exists())
        self.assertTrue(Path(f"{self.out}.piecepick").exists())


if __name__ == "__main__":
    unittest.main()
