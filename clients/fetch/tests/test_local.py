"""Peers of the local network (BEP 14), on the loopback interface alone."""

from __future__ import annotations

import contextlib
import threading
import unittest

from fetch.blame import Address
from fetch.local import Local, open_socket, read, spell

from .support import Downloading, folder_torrent

INFOHASH = bytes(range(20))
HEX = "000102030405060708090a0b0c0d0e0f10111213"
# As BEP 14 has it, with a line for each infohash.
PACKET = f"BT-SEARCH * HTTP/1.1\r\nHost: 239.192.152.143:6771\r\nPort: 6881\r\nInfohash: {HEX}\r\ncookie: name\r\n\r\n\r\n".encode()


def has_group() -> bool:
    """Whether the loopback interface takes packets to all."""
    with contextlib.suppress(OSError), open_socket("127.0.0.1") as ours:
        ours.sendto(b"nonsense", ("239.192.152.143", 6771))
        ours.settimeout(5.0)
        return ours.recvfrom(100)[0] == b"nonsense"
    return False


class Packets(unittest.TestCase):
    """What is said."""

    def test_spelled(self) -> None:
        self.assertEqual(spell(INFOHASH, 6881, "name"), PACKET)
        self.assertEqual(read(PACKET, "another"), ([INFOHASH], 6881))

    def test_passed_over(self) -> None:
        """Our own packets, and those that are nonsense in part or in all."""
        self.assertEqual(read(PACKET, "name"), ([], 0))
        for wrong in (
            b"", b"\xff" * 1400, PACKET.replace(b"BT-", b"M-"), PACKET.replace(b"6881", b"0"), PACKET.replace(b"6881", b"65536"),
            PACKET.replace(b"Port: 6881", b"Port: \xb2"), PACKET.replace(HEX.encode(), b"g" * 40)[:0], b"\r\n" * 700,
        ):  # fmt: skip
            self.assertEqual(read(wrong, "another")[1], 0, wrong[:50])
        self.assertEqual(read(PACKET.replace(HEX.encode(), b"g" * 40), "another"), ([], 6881))
        many = PACKET.replace(b"cookie", b"Infohash: %s\r\n" % HEX.encode() * 100 + b"cookie")
        self.assertLessEqual(len(read(many, "another")[0]), 20)


@unittest.skipUnless(has_group(), "the loopback interface takes no packets to all")
class OnLoopback(Downloading):
    """Two that hear each other."""

    torrent = folder_torrent()

    def test_heard(self) -> None:
        came = threading.Event()
        found: list[Address] = []

        def hear(peers: list[Address]) -> None:
            found.extend(peers)
            came.set()

        one, other = Local("127.0.0.1"), Local("127.0.0.1")
        for local in (one, other):
            self.addCleanup(local.close)
        one.add(INFOHASH, 0, hear)
        one.add(bytes(20), 0, hear)
        other.add(INFOHASH, 4444, lambda peers: None)
        self.assertTrue(came.wait(30))
        self.assertEqual(found, [("127.0.0.1", 4444)])

    def test_programs(self) -> None:
        """A program finds the one that has all, and neither a tracker nor the DHT is there."""
        self.fetch(self.seeder())
        out, self.listens = self.out, True
        words = ("--local", "--bind", "127.0.0.1", "--no-tracker")
        self.out = self.folder / "other"
        taker = self.start(*words, "--give-up", "50")
        self.addCleanup(taker.communicate)
        self.addCleanup(taker.kill)
        self.out = out
        giver = self.start(*words, "--seed-minutes", "5")
        self.addCleanup(giver.communicate)
        self.addCleanup(giver.kill)
        self.assertEqual(taker.wait(60), 0)
        self.assertEqual((self.folder / "other" / "d").read_bytes(), (out / "d").read_bytes())


if __name__ == "__main__":
    unittest.main()
