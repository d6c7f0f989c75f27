"""Web servers: as seeds (BEP 19), and for the metainfo file. They tell the truth or lie."""

from __future__ import annotations

import time
import unittest
from typing import Any, cast

from bencode import Value, bdecode, bencode
from fetch import web
from fetch.layout import File, Layout
from fetch.metainfo import web_seeds_of
from fetch.ranges import RangeFault, Ranges, address_of

from .spoken import Speaking, message
from .support import CONTENT, FILES, HAVE_ALL, PIECE, UNCHOKE, Downloading, folder_torrent, single_torrent
from .test_files import parts
from .webservers import WebServer

LIES = ("no ranges", "shifted", "other length", "packed", "short", "loop")


def with_seeds(torrent: bytes, urls: list[str]) -> bytes:
    """The torrent with web seeds."""
    whole = cast(dict[bytes, Value], bdecode(torrent))
    whole[b"url-list"] = [url.encode() for url in urls]
    return bencode(whole)


def read(ranges: Ranges, *wanted: int) -> bytes:
    """These parts of the content, each as its begin and its length, and wanted at once."""
    for begin, length in zip(wanted[::2], wanted[1::2], strict=True):
        ranges.want(begin, length)
    data = b""
    while ranges.left:
        data += ranges.read()
    return data


class Addresses(unittest.TestCase):
    """Where files are, as BEP 19 has it."""

    def test_single(self) -> None:
        file = File(1, "a b", 0, 9)
        self.assertEqual(address_of("http://h/mirror/", b"a b", file, False), "http://h/mirror/a%20b")
        self.assertEqual(address_of("http://h/other%20name", b"a b", file, False), "http://h/other%20name")

    def test_folder(self) -> None:
        file = File(1, "sub/c#d", 0, 9)
        for url in ("http://h/m", "http://h/m/"):
            self.assertEqual(address_of(url, "ö".encode(), file, True), "http://h/m/%C3%B6/sub/c%23d")

    def test_listed(self) -> None:
        """One address, or a list; those of other kinds are passed over."""
        for listed, found in (
            (b"http://a/", ["http://a/"]), ([b"https://a/", b"ftp://b/", 3, b"https://a/"], ["https://a/"]), (b"", []), ({}, []),
            ([b"http://" + bytes(5000)], []),
        ):  # fmt: skip
            self.assertEqual(web_seeds_of(bencode({b"info": {}, b"url-list": cast(Value, listed)})), found)


class Parts(unittest.TestCase):
    """Ranges of one server."""

    def server(self, lies: str = "") -> WebServer:
        """A server that is closed at the end of the test."""
        server = WebServer({f"/folder/{path}": data for path, data in parts().items()}, lies)
        self.addCleanup(server.close)
        return server

    def ranges(self, url: str) -> Ranges:
        """Of the torrent of many files."""
        layout = Layout([(list(names), length) for names, length in FILES], PIECE, len(CONTENT))
        ranges = Ranges(url, b"folder", layout, True)
        self.addCleanup(ranges.close)
        return ranges

    def test_over_files(self) -> None:
        """A range over many files is a request for each of them that has bytes, by one connection."""
        server = self.server()
        self.assertEqual(read(self.ranges(server.url), 50, 2 * PIECE), CONTENT[50 : 50 + 2 * PIECE])
        self.assertEqual(
            server.requests,
            [
                ("/folder/a", "bytes=50-99"), ("/folder/sub/b", "bytes=0-65535"), ("/folder/sub/deep/c", "bytes=0-4999"),
                ("/folder/d", f"bytes=0-{2 * PIECE - 50 - PIECE - 5000 - 1}"),
            ],
        )  # fmt: skip

    def test_ahead(self) -> None:
        """What is wanted next is asked for while the part before it comes, and both come by one connection. Some servers end it over that."""
        for lies, connections in (("waiting", 1), ("hasty", 2)):
            server = self.server(lies)
            begin, length = 100 + PIECE + 5000, PIECE
            with self.subTest(lies):
                data = read(self.ranges(server.url), begin, length, begin + 2 * length, length, begin, 9)
                self.assertEqual(data, CONTENT[begin : begin + length] + CONTENT[begin + 2 * length :][:length] + CONTENT[begin : begin + 9])
                self.assertEqual(server.connections, connections)
                self.assertIs(server.was_ahead, True)

    def test_moved(self) -> None:
        """A server that leads elsewhere is followed, and not asked for the same file there again."""
        server = self.server()
        ranges = self.ranges(server.url + "moved/")
        for begin in (0, 20):
            self.assertEqual(read(ranges, begin, 20), CONTENT[begin : begin + 20])
        self.assertEqual([path for path, _ in server.requests], ["/moved/folder/a", "/folder/a", "/folder/a"])

    def test_lies(self) -> None:
        """Each lie is a fault with a sentence, and none is followed without end."""
        for lies in LIES:
            server = self.server(lies)
            with self.subTest(lies), self.assertRaisesRegex(RangeFault, "the web server"):
                read(self.ranges(server.url), 100 + PIECE + 5000 + 7, 3 * PIECE)
            self.assertLess(len(server.requests), 10)
        with self.assertRaisesRegex(RangeFault, "status 404"):
            read(self.ranges(self.server().url + "nowhere/"), 0, 10)

    def test_endless(self) -> None:
        """Of a body without end no more is read than was asked for."""
        data = read(self.ranges(self.server("endless").url), 0, 100)
        self.assertEqual(len(data), 100)

    def test_own_machine(self) -> None:
        """Nobody elsewhere leads us to this machine."""
        ranges = self.ranges("http://192.0.2.1/")
        with self.assertRaisesRegex(RangeFault, "this machine"):
            ranges._redirect(File(1, "a", 0, 100), "http://127.0.0.1:631/")


class Fetched(unittest.TestCase):
    """What is fetched whole."""

    def get(self, lies: str, path: str = "a") -> bytes:
        """By the address of a server that lies."""
        server = WebServer({"/a": b"content"}, lies)
        self.addCleanup(server.close)
        return web.get(server.url + path, 1 << 20, 10.0)

    def test_bounds(self) -> None:
        self.assertEqual(self.get("", "moved/a"), b"content")
        began = time.monotonic()
        for lies, path, why in (("endless", "a", "more than 1048576 bytes"), ("loop", "a", "status 302"), ("", "b", "status 404")):
            with self.subTest(lies), self.assertRaisesRegex(web.WebFault, why):
                self.get(lies, path)
        self.assertLess(time.monotonic() - began, 60.0)
        for url in ("file:///etc/hostname", "http://[", "http://127.0.0.1:9/"):
            with self.subTest(url), self.assertRaises(web.WebFault):
                web.get(url, 100, 5.0)


class Seeds(Downloading):
    """The program with web servers as seeds."""

    torrent = folder_torrent()

    def server(self, lies: str = "") -> WebServer:
        """A server of the files, and of the torrent beside them."""
        server = WebServer({f"/folder/{path}": data for path, data in parts().items()} | {"/t": self.torrent}, lies)
        self.addCleanup(server.close)
        return server

    def by(self, *servers: WebServer, status: int = 0) -> None:
        """Downloads from these servers and the seeders."""
        self.torrent_path.write_bytes(with_seeds(self.torrent, [server.url for server in servers]))
        self.figures = self.fetch(*self.seeders, words=("--give-up", "20") if not status else (), status=status)

    def setUp(self) -> None:
        super().setUp()
        self.seeders: list[Any] = []

    def assert_whole(self) -> None:
        """Each file is right."""
        self.assertEqual({path: (self.out / path).read_bytes() for path in parts()}, parts())

    def test_alone(self) -> None:
        """A server is the only seed. While nobody else is there its pieces come one behind the other, by few requests."""
        server = self.server()
        self.by(server)
        self.assert_whole()
        self.assertEqual(self.figures["twice"], "0")
        self.assertLess(len(server.requests), 30)

    def test_beside_peers(self) -> None:
        """A server and a peer, of which each has what the other one is asked for last."""
        self.seeders = [self.seeder(delay=0.01)]
        self.by(self.server())
        self.assert_whole()

    def test_liar_is_banned(self) -> None:
        """A server that sends wrong bytes is banned, and others bring them."""
        self.seeders = [self.seeder(delay=0.005)]
        liar = self.server("wrong")
        self.by(liar)
        self.assert_whole()
        self.assertEqual(self.figures["banned"], "1")

    def test_faults(self) -> None:
        """Servers that don't do what BEP 19 asks of them hold nothing up, and the end says why nothing came."""
        self.by(*(self.server(lies) for lies in ("loop", "short", "shifted")), status=1)
        self.assertIn("the web server", self.errors)
        self.by(*(self.server(lies) for lies in ("loop", "short", "shifted")), self.server())
        self.assert_whole()

    def test_torrent_by_web(self) -> None:
        """The address of a metainfo file in place of the file."""
        server, seeder = self.server(), self.seeder()
        self.torrent_path = cast(Any, f"{server.url}moved/t")
        self.fetch(seeder)
        self.assert_whole()
        self.torrent_path = cast(Any, f"{server.url}nothing")
        self.fetch(status=3)
        self.assertIn("status 404", self.errors)


class Alone(Speaking):
    """Whether a server works alone."""

    torrent = folder_torrent()
    had = 0

    def test_reader(self) -> None:
        """It gets pieces of its own, but not while somebody reads."""
        peer = self.peer(True)
        peer.is_web = True
        self.session.set_alone(peer, True)
        self.hear(peer, message(HAVE_ALL) + message(UNCHOKE))
        self.assertEqual({piece for piece, _ in peer.asked} & self.asked_of(2), set())
        self.session.set_reading(True)
        self.assertFalse(peer.is_alone)
        self.session.set_reading(False)
        self.assertTrue(peer.is_alone)

    def asked_of(self, port: int) -> set[int]:
        """The pieces that another peer is asked for."""
        other = self.peer(True, port)
        self.hear(other, message(HAVE_ALL) + message(UNCHOKE))
        return {piece for piece, _ in other.asked}


class Single(Downloading):
    """One file, whose server knows it by another name."""

    def test_other_name(self) -> None:
        server = WebServer({"/other": CONTENT})
        self.addCleanup(server.close)
        self.torrent_path.write_bytes(with_seeds(single_torrent(), [server.url + "other"]))
        self.fetch()
        self.assert_same()


if __name__ == "__main__":
    unittest.main()
