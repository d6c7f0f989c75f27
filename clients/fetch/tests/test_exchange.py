"""Peers that peers tell of (BEP 11), nodes of the DHT that they tell of (BEP 5), and what a private torrent keeps from (BEP 27)."""

from __future__ import annotations

import contextlib
import socket
import threading
import unittest
from typing import Any, cast

from bencode import bencode
from fetch.addresses import MOST_FAILURES, MOST_OF, Addresses, Origin
from fetch.dht.node import Node
from fetch.transfer import Transfer
from fetch.exchange import Exchange, read, spell
from fetch.extended import Extension
from fetch.options import Options
from fetch.peer import Peer
from fetch.reach import Reach
from fetch.wire import Inbound, WireFault

from .spoken import Speaking, message
from .support import EXTENDED, PIECES, Downloading, Seeder, folder_torrent, messages, say, single_torrent
from .trackers import compact

PORT = 9
# Two peers that came, 10.0.0.1:6881 and 10.0.0.2:80, and one that went, 10.0.0.3:81 (BEP 11, in the compact form of BEP 23).
TOLD = (
    b"d5:added12:\x0a\x00\x00\x01\x1a\xe1\x0a\x00\x00\x02\x00\x50" + b"7:added.f2:\0\0" + b"7:dropped6:\x0a\x00\x00\x03\x00\x51" + b"e"
)  # fmt: skip


class Messages(unittest.TestCase):
    """The messages, by bytes that were made by hand."""

    def test_spelled(self) -> None:
        said = spell(5, [("10.0.0.1", 6881), ("10.0.0.2", 80)], [("10.0.0.3", 81)])
        self.assertEqual(said, (2 + len(TOLD)).to_bytes(4, "big") + b"\x14\x05" + TOLD)
        self.assertEqual(read(memoryview(TOLD)), [("10.0.0.1", 6881), ("10.0.0.2", 80)])

    def test_lies(self) -> None:
        """Lists that are cut short or longer than they may be have what is whole, up to 50; nonsense is a fault."""
        self.assertEqual(read(memoryview(b"d5:added8:\x0a\x00\x00\x01\x1a\xe1ab6:added65:abcdee")), [("10.0.0.1", 6881)])
        self.assertEqual(len(read(memoryview(bencode({b"added": bytes(6) * 5000})))), 50)
        self.assertEqual(read(memoryview(b"d5:addedi3ee")), [])
        for wrong in (b"", b"le", b"d5:added", b"l" * 3000):
            with self.assertRaises(WireFault):
                read(memoryview(wrong))

    def test_once_a_minute(self) -> None:
        """Each peer is told once a minute at most, of 50 at a time, and of those that went."""
        talk = Exchange()
        peers = [("10.0.0.1", 1000 + number) for number in range(60)]
        told = talk.next(peers, 100.0)
        assert told is not None
        self.assertEqual((len(told[0]), told[1]), (50, []))
        self.assertIsNone(talk.next(peers, 159.0))
        self.assertEqual(talk.next(peers[1:], 160.0), (peers[50:], peers[:1]))
        self.assertIsNone(talk.next(peers[1:], 300.0))

    def test_flood(self) -> None:
        """One that tells too often isn't read, and of one peer no more than 200 are taken."""
        talk, payload = Exchange(), memoryview(bencode({b"added": compact([("10.0.0.1", 1 + number) for number in range(50)])}))
        self.assertEqual([len(talk.take(payload, now)) for now in (0.0, 1.0, 60.0, 120.0, 180.0, 240.0)], [50, 0, 50, 50, 50, 0])


class Kept(unittest.TestCase):
    """Which addresses are kept, by who told them."""

    def test_possible(self) -> None:
        """Neither everybody nor nobody is a peer, and our own machine is one where the teller is on it too."""
        addresses = Addresses()
        wrong = [("224.0.0.1", 1), ("0.0.0.0", 1), ("255.255.255.255", 1), ("name", 1), ("10.0.0.1", 0), ("127.0.0.1", 9)]
        addresses.hear(wrong, Origin.EXCHANGE, ("10.0.0.9", 1))
        self.assertEqual(addresses.known, {})
        addresses.hear([("127.0.0.1", 9)], Origin.EXCHANGE, ("127.0.0.1", 1))
        self.assertEqual(list(addresses.known), [("127.0.0.1", 9)])

    def test_bounds(self) -> None:
        """Peers and the DHT leave room for trackers, and what never answers is forgotten."""
        addresses = Addresses()
        for number in range(5000):
            addresses.hear([(f"10.1.{number >> 8}.{number & 255}", 1)], Origin.EXCHANGE)
            addresses.hear([(f"10.2.{number >> 8}.{number & 255}", 1)], Origin.DHT)
        self.assertEqual(len(addresses.known), MOST_OF[Origin.EXCHANGE] + MOST_OF[Origin.DHT])
        addresses.add(("10.3.0.1", 1))
        self.assertIn(("10.3.0.1", 1), addresses.known)
        for _ in range(MOST_FAILURES):
            addresses.failed(("10.1.0.1", 1), 0.0)
            addresses.failed(("10.3.0.1", 1), 0.0)
        self.assertNotIn(("10.1.0.1", 1), addresses.known)
        self.assertIn(("10.3.0.1", 1), addresses.known)


class Public(Speaking):
    """What is said where peers are exchanged."""

    torrent = folder_torrent()
    had = 0

    def extended_peer(self, port: int, worker: int, is_incoming: bool, listens: int = 0) -> Peer:
        """A peer that takes exchanges under the number 5."""
        peer = Peer(cast(Any, None), ("10.0.0.1", port), is_incoming, Inbound(PIECES), self.session.now)
        peer.is_extended = True
        self.session.join(peer, worker)
        self.hear(peer, message(EXTENDED, data=b"\0" + bencode({b"m": {b"ut_pex": 5}, b"p": listens})))
        return peer

    def test_told(self) -> None:
        """Each is told of the others that can be connected to: who came to us says its port, or isn't told of."""
        outgoing = self.extended_peer(6881, 0, False)
        incoming = self.extended_peer(50000, 1, True, listens=80)
        self.extended_peer(50001, 2, True)
        self.session.extensions.exchange_peers(self.session.peers.values(), self.session.now)
        self.assertIn(b"5:added6:\x0a\x00\x00\x01\x00\x50", self.said(outgoing))
        self.assertIn(b"5:added6:\x0a\x00\x00\x01\x1a\xe1", self.said(incoming))
        self.session.extensions.exchange_peers(self.session.peers.values(), self.session.now + 30)
        self.assertEqual(self.said(outgoing), b"")

    def test_heard(self) -> None:
        peer = self.extended_peer(6881, 0, False)
        self.hear(peer, message(EXTENDED, data=bytes([Extension.EXCHANGE]) + TOLD))
        self.assertEqual(set(self.download.parts.swarm.addresses.known), {("10.0.0.1", 6881), ("10.0.0.2", 80)})

    def test_node_told(self) -> None:
        """A peer with a node is told of ours, and its own is heard of."""
        heard: list[Any] = []
        self.session.dht_port, self.session.on_node = 4000, heard.append
        peer = Peer(cast(Any, None), ("10.0.0.1", 1), False, Inbound(PIECES), self.session.now)
        peer.has_dht = True
        self.session.join(peer, 0)
        self.assertTrue(self.said(peer).endswith(b"\0\0\0\x03\x09\x0f\xa0"))
        self.hear(peer, message(PORT, data=b"\x1a\xe1"))
        self.assertEqual(heard, [("10.0.0.1", 6881)])
        with self.assertRaises(WireFault):
            self.hear(peer, message(PORT, data=b"\x1a"))


class Private(Speaking):
    """A private torrent has its trackers alone."""

    torrent = single_torrent()
    had = 0

    def test_no_exchange(self) -> None:
        """Nobody is told that peers may be exchanged, and who tells of some all the same isn't heard."""
        peer = Peer(cast(Any, None), ("10.0.0.1", 1), False, Inbound(PIECES), self.session.now)
        peer.is_extended = True
        self.session.join(peer, 0)
        self.assertNotIn(b"ut_pex", self.said(peer))
        self.hear(peer, message(EXTENDED, data=bytes([Extension.EXCHANGE]) + TOLD))
        self.assertEqual(self.download.parts.swarm.addresses.known, {})

    def test_no_dht(self) -> None:
        """No node is begun for it, though one is allowed; for a public one it is."""
        for torrent, begins in ((single_torrent(), False), (folder_torrent(), True)):
            options = Options("", f"{self.download.parts.root}-{begins}", listens=False, quiet=True, uses_dht=True, bind="127.0.0.1", port=0)
            reach = Reach(options)
            self.addCleanup(reach.close)
            download = Transfer(options, torrent, reach)
            self.addCleanup(download.close)
            download.prepare()
            self.assertEqual(download.finding.node is not None, begins)
            self.assertEqual(download.parts.session.dht_port > 0, begins)


class Teller:
    """A peer that has nothing, and tells of others once. It speaks by its own code."""

    def __init__(self, infohash: bytes, told: list[tuple[str, int]]) -> None:
        self.infohash, self.told = infohash, told
        self.listener = socket.create_server(("127.0.0.1", 0))
        self.address = f"127.0.0.1:{self.listener.getsockname()[1]}"
        threading.Thread(target=self._run, daemon=True).start()

    def _run(self) -> None:
        with contextlib.suppress(OSError):
            connection, _ = self.listener.accept()
            with connection, connection.makefile("rb") as stream:
                stream.read(68)
                connection.sendall(b"\x13BitTorrent protocol" + b"\0\0\0\0\0\x10\0\0" + self.infohash + b"-TT0000-abcdefghijkl")
                say(connection, EXTENDED, b"\0d1:md6:ut_pexi1eee")
                say(connection, EXTENDED, bytes([Extension.EXCHANGE]) + bencode({b"added": compact(self.told)}))
                for _ in messages(stream):
                    pass


class Whole(Downloading):
    """The program, which is told of no peer but one that has nothing."""

    torrent = folder_torrent()

    def program(self, seeder: Seeder, *words: str, status: int = 0) -> None:
        """Downloads from who the teller tells of."""
        host, port = seeder.address.split(":")
        teller = Teller(self.infohash, [(host, int(port)), ("224.0.0.1", 5)])
        self.addCleanup(teller.listener.close)
        self.fetch(cast(Any, teller), words=words, status=status)

    def test_exchange(self) -> None:
        self.program(self.seeder())
        self.assertTrue((self.out / "d").exists())

    def test_none(self) -> None:
        """With --no-exchange nobody is heard of."""
        seeder = self.seeder()
        self.program(seeder, "--no-exchange", status=1)
        self.assertEqual(seeder.connections, 0)

    def test_dht(self) -> None:
        """Two programs that know no more than one node of the DHT find each other by it."""
        node = Node("127.0.0.1", 0, [])
        self.addCleanup(node.close)
        node.start()
        words = ("--dht", "--bind", "127.0.0.1", "--dht-node", f"127.0.0.1:{node.port}", "--no-tracker")
        self.fetch(self.seeder())
        out, self.listens = self.out, True
        giver = self.start(*words, "--seed-minutes", "5")
        self.addCleanup(giver.communicate)
        self.addCleanup(giver.kill)
        self.out = self.folder / "other"
        self.fetch(words=(*words, "--give-up", "50"))
        self.assertEqual((self.out / "d").read_bytes(), (out / "d").read_bytes())


if __name__ == "__main__":
    unittest.main()
