"""Everybody lies at once: trackers, a web server, a node of the DHT and peers. The content comes all the same, in little memory, and nothing
is written elsewhere."""

from __future__ import annotations

import contextlib
import socket
import subprocess
import sys
import threading
import time
import unittest
from pathlib import Path
from typing import cast

from bencode import Value, bdecode, bencode
from fetch import CLIENTS, tracker_http
from fetch.tracker import TrackerFault

from .support import CONTENT, Downloading, folder_torrent
from .test_exchange import Teller
from .test_files import parts
from .test_magnets import InfoPeer
from .test_trackers import request
from .webservers import WebServer

MOST_MEGABYTES = 60


class Trackers(unittest.TestCase):
    """Trackers by HTTP that don't end, lead in a circle, or cut their lists short."""

    def announce(self, lies: str, body: bytes = b"de") -> list[tuple[str, int]]:
        """What such a tracker tells."""
        server = WebServer({"/announce": body}, lies, with_query=False)
        self.addCleanup(server.close)
        return tracker_http.announce(server.url + "announce", request(), 5.0).peers

    def test_bounds(self) -> None:
        for lies, why in (("endless", "more than 1048576 bytes"), ("loop", "status 302")):
            with self.subTest(lies), self.assertRaisesRegex(TrackerFault, why):
                self.announce(lies)

    def test_cut_short(self) -> None:
        self.assertEqual(self.announce("", b"d8:intervali9e5:peers8:\x0a\0\0\x01\x1a\xe1\x0a\0e"), [("10.0.0.1", 6881)])
        with self.assertRaises(TrackerFault):
            self.announce("", b"d5:peers" + b"l" * 1000 + b"e" * 1001)


class LyingNode:
    """A node that answers each query with peers and nodes that aren't there, and with nonsense."""

    def __init__(self) -> None:
        self.socket = socket.socket(socket.AF_INET, socket.SOCK_DGRAM)
        self.socket.bind(("127.0.0.1", 0))
        self.address = f"127.0.0.1:{self.socket.getsockname()[1]}"
        threading.Thread(target=self._run, daemon=True).start()

    def _run(self) -> None:
        with contextlib.suppress(OSError):
            while True:
                packet, address = self.socket.recvfrom(4096)
                told = cast(dict[bytes, Value], bdecode(packet))
                near = b"".join(bytes(19) + bytes([number]) + b"\x7f\0\0\x01\0\x09" for number in range(100))
                values: list[Value] = [b"abc", 5, *(b"\x7f\0\0\x01" + bytes([1, number]) for number in range(200))]
                answer: dict[bytes, Value] = {b"id": b"n" * 20, b"nodes": near, b"values": values, b"token": bytes(500)}
                for data in (b"l" * 3000, bencode({b"t": told[b"t"], b"y": b"r", b"r": answer}), packet):
                    self.socket.sendto(data, address)


class AllAtOnce(Downloading):
    """One program among all of them, and one honest seeder."""

    torrent = folder_torrent()

    def test_all(self) -> None:
        servers = [WebServer({f"/folder/{path}": data for path, data in parts().items()}, lies) for lies in ("endless", "loop", "short", "wrong")]
        node, teller = LyingNode(), Teller(self.infohash, [("127.0.0.1", 1 + number) for number in range(60)])
        liars = [InfoPeer(self.torrent, lies) for lies in ("gigabytes", "wrong", "deep")]
        honest, seeder = InfoPeer(self.torrent), self.seeder(delay=0.005)
        for close in (*(server.close for server in servers), *(liar.close for liar in liars), honest.close, node.socket.close, teller.listener.close):
            self.addCleanup(close)
        addresses = [*(liar.address for liar in liars), teller.address, honest.address, seeder.address]
        link = f"magnet:?xt=urn:btih:{self.infohash.hex()}" + "".join(f"&ws={server.url}" for server in servers)
        link += f"&tr={servers[0].url}&tr={servers[1].url}"
        command = [sys.executable, "-B", str(Path(CLIENTS, "fetch.py")), "--quiet", "--give-up", "60", "--bind", "127.0.0.1"]
        command += ["--dht-node", node.address]
        process = subprocess.Popen([*command, link, str(self.out), *addresses], stdout=subprocess.DEVNULL, stderr=subprocess.PIPE, text=True)
        megabytes = 0.0
        while process.poll() is None:
            megabytes = max(megabytes, self.memory(process.pid))
            time.sleep(0.05)
        errors = process.communicate()[1]
        self.assertEqual(process.returncode, 0, errors)
        self.assertEqual({path: (self.out / path).read_bytes() for path in parts()}, parts())
        self.assertEqual(sorted(path.name for path in self.folder.iterdir()), ["out", "torrent"])
        self.assertLess(megabytes, MOST_MEGABYTES)

    @staticmethod
    def memory(process: int) -> float:
        """The most megabytes that the process had."""
        with contextlib.suppress(OSError):
            for line in Path(f"/proc/{process}/status").read_text(encoding="ascii").splitlines():
                if line.startswith("VmHWM"):
                    return int(line.split()[1]) / 1000
        return 0.0


class Elsewhere(Downloading):
    """An info dictionary from a peer that wants to write elsewhere."""

    torrent = folder_torrent([([b"..", b"evil"], len(CONTENT))])

    def test_refused(self) -> None:
        peer = InfoPeer(self.torrent)
        self.addCleanup(peer.close)
        self.torrent_path = cast(Path, f"magnet:?xt=urn:btih:{self.infohash.hex()}&dn=..%2Fevil&x.pe={peer.address}")
        self.fetch(words=("--give-up", "30"), status=3)
        self.assertIn("isn't safe", self.errors)
        self.assertEqual([path.name for path in self.folder.iterdir()], ["torrent"])


if __name__ == "__main__":
    unittest.main()
