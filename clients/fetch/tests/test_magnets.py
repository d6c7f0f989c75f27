"""Magnet links, the info dictionary from peers and for them (BEP 9), and peers that lie about it."""

from __future__ import annotations

import contextlib
import hashlib
import io
import socket
import struct
import threading
import unittest
from collections.abc import Callable
from typing import Any, cast

from bencode import Value, bdecode, bencode
from fetch import magnet, metadata
from fetch.asking import Asking
from fetch.dht.node import Node
from fetch.metadata import Assembly, Word, WrongInfo
from fetch.metainfo import MetainfoFault, info_of, infohash_of, is_private, metainfo_of, trackers_of, web_seeds_of
from fetch.options import Options
from fetch.peer import Peer
from fetch.reach import Reach
from fetch.seeking import Link, Seeker
from fetch.source import obtain
from fetch.spans import end_of
from fetch.wire import Inbound, WireFault

from .spoken import Speaking, message
from .support import (
    BITFIELD, BLOCK_MESSAGE, CONTENT, EXTENDED, HAVE, HAVE_ALL, INTERESTED, NOT_INTERESTED, PIECE, PIECES, REQUEST, UNCHOKE, Downloading,
    flags_of, folder_torrent, messages, say, single_torrent,
)  # fmt: skip
from .trackers import HttpTracker

INFOHASH = bytes(range(0xC0, 0xC0 + 20))
HEX = "c0c1c2c3c4c5c6c7c8c9cacbcccdcecfd0d1d2d3"
BASE32 = "YDA4FQ6EYXDMPSGJZLF4ZTOOZ7INDUWT"


class Links(unittest.TestCase):
    """What a link says."""

    def test_parts(self) -> None:
        text = f"magnet:?xt=urn:btih:{HEX}&dn=a+b&tr=http%3A%2F%2Ft%2Fannounce&tr=udp://u:1&x.pe=10.0.0.1:6881&x.pe=[::1]:5&x.pe=no&ws=http://w/"
        found = magnet.parse(text)
        self.assertEqual((found.infohash, found.name, found.trackers), (INFOHASH, "a b", ["http://t/announce", "udp://u:1"]))
        self.assertEqual((found.peers, found.web_seeds), ([("10.0.0.1", 6881), ("::1", 5)], ["http://w/"]))

    def test_base32(self) -> None:
        """The same infohash in base 32 (RFC 4648), in letters of either case."""
        for digits in (BASE32, BASE32.lower()):
            self.assertEqual(magnet.parse(f"magnet:?xt=urn:btih:{digits}").infohash, INFOHASH)

    def test_refused(self) -> None:
        for text, why in (
            ("magnet:?dn=x", "no infohash"), ("magnet:?xt=urn:btmh:1220" + 64 * "0", "version 2"), ("magnet:?xt=urn:btih:12", "40 digits"),
            ("magnet:?xt=urn:btih:" + 40 * "g", "40 digits"), ("magnet:?xt=urn:btih:" + 32 * "1", "40 digits"), ("http://x", "no magnet link"),
            ("magnet:?xt=urn:btih:" + HEX + "&dn=" + 70000 * "x", "no magnet link"),
        ):  # fmt: skip
            with self.subTest(text[:40]), self.assertRaisesRegex(MetainfoFault, why):
                magnet.parse(text)

    def test_kept(self) -> None:
        """The info dictionary stays byte for byte as it is, even where its keys are in no order."""
        info = b"d6:pieces0:4:name1:ae"
        whole = metainfo_of(info, [["http://a/"]], ["http://w/"])
        self.assertEqual((info_of(whole), trackers_of(whole), web_seeds_of(whole)), (info, [["http://a/"]], ["http://w/"]))
        self.assertEqual(infohash_of(info), hashlib.sha1(info).digest())

    def test_private(self) -> None:
        self.assertTrue(is_private(single_torrent()))
        self.assertFalse(is_private(folder_torrent()))

    def test_ends(self) -> None:
        for data, end in ((b"i3e4:spam", 3), (b"4:spami3e", 6), (b"ld1:ai1eee4:", 10), (b"de", 2)):
            self.assertEqual(end_of(data), end)
        for wrong in (b"", b"l", b"e", b"d1:a", b"5:spam", b"l" * 5000):
            with self.subTest(wrong[:9]), self.assertRaises(ValueError):
                end_of(wrong)


class Assembled(unittest.TestCase):
    """What one peer sends."""

    info = bytes(range(256)) * 160  # two pieces of 16 KiB, and one of 8 KiB

    def test_messages(self) -> None:
        """The examples of BEP 9, behind the length, the kind and the receiver's number of BEP 10."""
        head = b"\0\0\0\x1b\x14\x03"
        self.assertEqual(metadata.spell(3, Word.REQUEST, 0), head + b"d8:msg_typei0e5:piecei0ee")
        self.assertEqual(metadata.spell(3, Word.REJECT, 0), head + b"d8:msg_typei2e5:piecei0ee")
        said = metadata.read(memoryview(b"d8:msg_typei1e5:piecei0e10:total_sizei34256eexxxxxxxx"))
        self.assertEqual((said.word, said.piece, said.data), (Word.DATA, 0, b"xxxxxxxx"))
        self.assertTrue(metadata.answer(3, self.info, 2).endswith(b"10:total_sizei40960ee" + self.info[32768:]))
        self.assertIn(b"8:msg_typei2e", metadata.answer(3, self.info, 3))

    def test_pieces(self) -> None:
        """Pieces may come in any order."""
        assembly = Assembly(hashlib.sha1(self.info).digest(), len(self.info))
        self.assertEqual(assembly.next(), [0, 1, 2])
        for piece in (2, 0, 1):
            self.assertFalse(assembly.is_full)
            assembly.take(metadata.Said(Word.DATA, piece, self.info[piece * 16384 : (piece + 1) * 16384]))
        self.assertEqual(assembly.whole(), self.info)

    def test_lies(self) -> None:
        """A piece that nobody asked for, or of another length, or a size of gigabytes, is a fault of that peer. So is another hash."""
        for size in (0, 1 << 23 | 1, 1 << 33):
            with self.assertRaises(WireFault):
                Assembly(bytes(20), size)
        for piece, length in ((3, 16384), (0, 16383), (2, 16384), (0, 0)):
            assembly = Assembly(bytes(20), len(self.info))
            assembly.next()
            with self.assertRaises(WireFault):
                assembly.take(metadata.Said(Word.DATA, piece, bytes(length)))
        assembly = Assembly(bytes(20), 5)
        assembly.next()
        assembly.take(metadata.Said(Word.DATA, 0, b"d1:ae"))
        with self.assertRaises(WrongInfo):
            assembly.whole()
        for wrong in (b"", b"le", b"d8:msg_typei1ee", b"d8:msg_typei1e5:piecei-1ee", b"d" * 2000):
            with self.assertRaises(WireFault):
                metadata.read(memoryview(wrong))

    def test_no_room(self) -> None:
        """A dictionary that has no room beside the others isn't begun, until there is some."""
        rooms = [False, True]
        asking = Asking(INFOHASH, b"-PP0000-abcdefghijkl", lambda size: rooms.pop(0), lambda peers: None)
        asking.receive(b"\x13BitTorrent protocol" + b"\0\0\0\0\0\x10\0\0" + INFOHASH + bytes(20))
        asking.unsent.clear()
        asking.receive(message(EXTENDED, data=b"\0d1:md11:ut_metadatai3ee13:metadata_sizei5ee"))
        self.assertEqual((asking.unsent, asking.size), (b"", 0))
        asking.begin()
        self.assertEqual((asking.unsent, asking.size), (metadata.spell(3, Word.REQUEST, 0), 5))


class Heard(unittest.TestCase):
    """What is kept of a peer's words, for who goes on with its connection."""

    def test_kept(self) -> None:
        """All but what is for the dictionary and other peers, with the message that isn't whole yet."""
        asking = Asking(INFOHASH, b"-PP0000-abcdefghijkl", lambda size: True, lambda peers: None)
        self.assertIsNone(asking.heard)
        first = b"\x13BitTorrent protocol" + b"\0\0\0\0\0\x10\0\4" + INFOHASH + bytes(20)
        hello = message(EXTENDED, data=b"\0d1:md11:ut_metadatai3ee13:metadata_sizei20000ee")
        shown, begun = message(BITFIELD, data=b"\xf0") + message(UNCHOKE), b"\0\0\0\5\4\0"
        asking.receive(first[:30])
        asking.receive(first[30:] + hello)
        asking.receive(message(EXTENDED, data=b"\2d8:msg_typei1e5:piecei0ee" + bytes(16384)) + shown + begun)
        self.assertIsNone(asking.heard)  # what we say isn't said yet
        asking.unsent.clear()
        self.assertEqual(asking.heard, first + hello + shown + begun)

    def test_interested(self) -> None:
        """Who shows something hears at once, and once, that we are interested: it may unchoke us before the dictionary is there."""
        for shown in (message(BITFIELD, data=b"\0\x10"), message(HAVE_ALL), message(HAVE, 7)):
            asking = Asking(INFOHASH, b"-PP0000-abcdefghijkl", lambda size: True, lambda peers: None)
            asking.receive(b"\x13BitTorrent protocol" + b"\0\0\0\0\0\x10\0\4" + INFOHASH + bytes(20) + message(BITFIELD, data=b"\0\0"))
            self.assertFalse(asking.is_interested)
            asking.unsent.clear()
            asking.receive(shown + message(HAVE, 8))
            self.assertEqual((asking.unsent, asking.is_interested), (message(INTERESTED), True))

    def test_bounded(self) -> None:
        asking = Asking(INFOHASH, b"-PP0000-abcdefghijkl", lambda size: True, lambda peers: None)
        asking.receive(b"\x13BitTorrent protocol" + b"\0\0\0\0\0\x10\0\0" + INFOHASH + bytes(20))
        asking.unsent.clear()
        for _ in range(100):
            asking.receive(message(BITFIELD, data=bytes(1 << 13)))
        self.assertIsNone(asking.heard)
        self.assertLess(len(asking._heard), 1 << 19)


class TakenOver(Speaking):
    """What a peer hears that was told too early that we are interested, or rightly."""

    had = 0

    def take_over(self, shown: bytes) -> bytes:
        """A peer that has told this is gone on with; what it is told."""
        ours, its = socket.socketpair()
        self.addCleanup(its.close)
        self.addCleanup(ours.close)
        swarm = self.download.parts.swarm
        infohash = self.download.parts.content.infohash
        heard = b"\x13BitTorrent protocol" + bytes(7) + b"\4" + infohash + b"-XX0000-abcdefghijkl" + shown
        swarm.take_over(ours, ("10.0.0.1", 1), heard, True)
        (peer,) = swarm.peers
        return bytes(peer.unsent)

    def test_not_twice(self) -> None:
        """It has something for us, and is asked for it with no other word."""
        said = self.take_over(message(HAVE_ALL) + message(UNCHOKE))
        self.assertNotIn(message(INTERESTED), said)
        self.assertNotIn(message(NOT_INTERESTED), said)
        self.assertIn(b"\0\0\0\x0d\6", said)

    def test_too_early(self) -> None:
        """It has nothing of what is wanted."""
        for piece in range(PIECES):
            self.download.parts.picker.set_level(piece, 0 if piece == 3 else 4)
        self.assertIn(message(NOT_INTERESTED), self.take_over(message(HAVE, 3)))


class Room(unittest.TestCase):
    """How much may come at a time."""

    def test_bounds(self) -> None:
        """Two that say 8 MiB leave no room for a third such one, but for one of 256 KiB, as it has up to 13,000 pieces."""
        seeker = Seeker(INFOHASH, b"-PP0000-abcdefghijkl")
        self.addCleanup(seeker.close)
        for number in range(2):
            asking = Asking(INFOHASH, seeker.peer_id, seeker._may_begin, lambda peers: None)
            asking.assembly = Assembly(INFOHASH, 1 << 23)
            connection = socket.socket()
            seeker._selector.register(connection, 1)
            seeker.links.add(Link(connection, ("10.0.0.1", 1 + number), asking, 0.0, 0.0))
        self.assertFalse(seeker._may_begin(1 << 23))
        self.assertTrue(seeker._may_begin(1 << 18))


class Loaded(unittest.TestCase):
    """What is imported while a link is followed."""

    def test_meanwhile(self) -> None:
        """A peer is connected before the imports are over. Where one of them can't be had, the link is followed no longer."""
        listener = socket.create_server(("127.0.0.1", 0))
        self.addCleanup(listener.close)
        listener.settimeout(60.0)

        def load() -> None:
            listener.accept()[0].close()
            raise ImportError("there is no library")

        options = Options(f"magnet:?xt=urn:btih:{HEX}", peers=[listener.getsockname()], asks_trackers=False)
        with self.assertRaisesRegex(ImportError, "there is no library"):
            obtain(options, Reach(options), lambda loop: contextlib.nullcontext(), lambda text: None, load)


class Given(Speaking):
    """What a peer gets of our info dictionary."""

    def test_given(self) -> None:
        info = info_of(single_torrent())
        peer = Peer(cast(Any, None), ("127.0.0.1", 1), True, Inbound(PIECES), self.session.now)
        peer.is_extended = True
        self.session.join(peer, 0)
        self.assertIn(b"13:metadata_sizei%de" % len(info), self.said(peer))
        self.assertEqual(self.hear(peer, message(EXTENDED, data=b"\x02d8:msg_typei0e5:piecei0ee")), b"")
        said = self.hear(peer, message(EXTENDED, data=b"\0d1:md11:ut_metadatai9eee") + message(EXTENDED, data=b"\x02d8:msg_typei0e5:piecei0ee"))
        self.assertEqual(said[4:6], b"\x14\x09")
        self.assertEqual(said[6 + end_of(said[6:]) :], info)
        self.assertIn(b"8:msg_typei2e", self.hear(peer, message(EXTENDED, data=b"\x02d8:msg_typei0e5:piecei7ee")))

    def test_endless(self) -> None:
        """Who asks again and again, and reads nothing, is rejected."""
        peer = self.peer(True)
        self.session.receive(peer, message(EXTENDED, data=b"\0d1:md11:ut_metadatai9eee"))
        for _ in range(5000):
            self.session.receive(peer, message(EXTENDED, data=b"\x02d8:msg_typei0e5:piecei0ee"))
        self.assertLess(len(peer.unsent), 1 << 19)


Reply = Callable[[int, bytes], list[bytes]]


class InfoPeer:
    """A peer that has an info dictionary, or says so, in its own code. `lies` changes what it says."""

    def __init__(self, torrent: bytes, lies: str = "") -> None:
        self.info = info_of(torrent)
        self.infohash, self.lies = hashlib.sha1(self.info).digest(), lies
        self.connections = 0
        self.listener = socket.create_server(("127.0.0.1", 0))
        self.address = f"127.0.0.1:{self.listener.getsockname()[1]}"
        threading.Thread(target=self._accept, daemon=True).start()

    def close(self) -> None:
        """No more connections."""
        with contextlib.suppress(OSError):
            self.listener.shutdown(socket.SHUT_RDWR)
        self.listener.close()

    def _accept(self) -> None:
        with contextlib.suppress(OSError):
            while True:
                connection, _ = self.listener.accept()
                self.connections += 1
                threading.Thread(target=self._run, args=[connection], daemon=True).start()

    def _run(self, connection: socket.socket) -> None:
        with connection, connection.makefile("rb") as stream, contextlib.suppress(OSError):
            stream.read(68)
            connection.sendall(b"\x13BitTorrent protocol" + b"\0\0\0\0\0\x10\0\0" + self.infohash + struct.pack(">20s", self.address.encode()))
            size = {"gigabytes": 1 << 33, "none": 0}.get(self.lies, len(self.info))
            told: dict[bytes, Value] = {b"m": {b"ut_metadata": 3}, b"metadata_size": size}
            say(connection, EXTENDED, b"\0" + (b"l" * 1000 if self.lies == "deep" else bencode(told)))
            say(connection, BITFIELD, flags_of(range(PIECES)))
            if self.lies == "nonsense":
                say(connection, HAVE, b"\xff" * 4)
            say(connection, UNCHOKE)
            self._answer_all(connection, stream)

    def _answer_all(self, connection: socket.socket, stream: io.BufferedReader) -> None:
        number = 0
        for kind, payload in messages(stream):
            if kind == REQUEST:
                piece, begin, length = struct.unpack(">III", payload)
                at = piece * PIECE + begin
                say(connection, BLOCK_MESSAGE, payload[:8] + CONTENT[at : at + length])
            elif kind == EXTENDED and payload[0] == 0:
                number = cast(Any, bdecode(payload[1:]))[b"m"][b"ut_metadata"]
            elif kind == EXTENDED and payload[0] == 3:
                self._give(connection, number, cast(Any, bdecode(payload[1:]))[b"piece"])

    def _give(self, connection: socket.socket, number: int, piece: int) -> None:
        data = self.info[piece * 16384 : (piece + 1) * 16384]
        if self.lies == "wrong":
            data = bytes(len(data))
        if self.lies == "rejects":
            say(connection, EXTENDED, bytes([number]) + bencode({b"msg_type": 2, b"piece": piece}))
            return
        if self.lies == "long":
            data += bytes(9)
        say(connection, EXTENDED, bytes([number]) + bencode({b"msg_type": 1, b"piece": piece, b"total_size": len(self.info)}) + data)


class Followed(Downloading):
    """The program with a magnet link in place of a file."""

    torrent = folder_torrent()

    def info_peer(self, lies: str = "") -> InfoPeer:
        """A peer that is closed at the end of the test."""
        peer = InfoPeer(self.torrent, lies)
        self.addCleanup(peer.close)
        return peer

    def follow(self, link: str, *words: str, status: int = 0) -> str:
        """Downloads by the link; what is said on the standard error."""
        self.torrent_path = cast(Any, f"magnet:?xt=urn:btih:{self.infohash.hex()}{link}")
        process = self.start("--give-up", "2" if status else "30", *words)
        _, errors = process.communicate(timeout=90)
        self.assertEqual(process.returncode, status, errors)
        return errors

    def assert_whole(self) -> None:
        """One of the files is right, and so are all pieces."""
        self.assertEqual((self.out / "d").read_bytes(), CONTENT[100 + PIECE + 5000 :][: 20 * PIECE])

    def test_by_peer(self) -> None:
        """A peer that the link names gives the dictionary, and by the same connection the content."""
        peer = self.info_peer()
        self.follow(f"&x.pe={peer.address}")
        self.assert_whole()
        self.assertEqual(peer.connections, 1)

    def test_resumed(self) -> None:
        """Where something is there, peers are to hear it in the first message, so there is a second connection."""
        peer = self.info_peer()
        self.follow(f"&x.pe={peer.address}", "--only", "5")
        self.assertEqual(peer.connections, 1)
        self.follow(f"&x.pe={peer.address}", "--only", "5,6")
        self.assertEqual(peer.connections, 3)
        self.assert_whole()

    def test_by_tracker(self) -> None:
        tracker = HttpTracker()
        self.addCleanup(tracker.close)
        host, port = self.info_peer().address.split(":")
        tracker.peers[self.infohash.decode("latin-1")] = {"somebody": (host, int(port))}
        self.follow(f"&tr={tracker.url}")
        self.assert_whole()

    def test_by_dht(self) -> None:
        """By the DHT alone, of which one node is told."""
        node = Node("127.0.0.1", 0, [])
        self.addCleanup(node.close)
        node.start()
        host, port = self.info_peer().address.split(":")
        node.talk.store.add(self.infohash, (host, int(port)), 1e12)
        self.follow("", "--dht", "--bind", "127.0.0.1", "--dht-node", f"127.0.0.1:{node.port}")
        self.assert_whole()

    def test_liars(self) -> None:
        """Peers that lie about the dictionary cost a try each, and an honest one gives it."""
        liars = [self.info_peer(lies) for lies in ("gigabytes", "none", "deep", "wrong", "rejects", "long")]
        honest = self.info_peer()
        self.follow("".join(f"&x.pe={peer.address}" for peer in (*liars, honest)))
        self.assert_whole()

    def test_nonsense(self) -> None:
        """What a peer has said before the dictionary was there is heard then, and where it is nonsense that peer is let go."""
        liar = self.info_peer("nonsense")
        errors = self.follow(f"&x.pe={liar.address}", "--give-up", "3", status=1)
        self.assertIn("1 peer: have: no such piece", errors)
        self.follow(f"&x.pe={liar.address}&x.pe={self.info_peer().address}")
        self.assert_whole()

    def test_nobody(self) -> None:
        """Where nobody gives it, the end says why."""
        liars = [self.info_peer(lies) for lies in ("gigabytes", "wrong")]
        errors = self.follow("".join(f"&x.pe={peer.address}" for peer in liars), status=1)
        self.assertIn("1 peer: the peer sent an info dictionary of another hash", errors)
        self.assertIn("1 peer: the peer's info dictionary has 8589934592 bytes", errors)
        self.assertIn("HOST:PORT", self.follow("", status=1))
        self.assertEqual(list(self.folder.iterdir()), [self.folder / "torrent"])


if __name__ == "__main__":
    unittest.main()
