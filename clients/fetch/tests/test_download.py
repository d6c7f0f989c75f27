"""A download that another program runs: `from fetch import Download`."""

from __future__ import annotations

import tempfile
import threading
import time
import unittest
from pathlib import Path

import fetch
from fetch import Download, MetainfoFault, NotFound, State

from .support import CONTENT, FILES, PIECE, Manners, Seeder, folder_torrent, infohash_of, single_torrent
from .test_files import parts
from .test_magnets import InfoPeer

CHOICES = {"listens": False, "asks_trackers": False}


class Run(unittest.TestCase):
    """Downloads in this process."""

    def setUp(self) -> None:
        folder = tempfile.TemporaryDirectory()
        self.addCleanup(folder.cleanup)
        self.folder = Path(folder.name)

    def seeder(self, torrent: bytes, **manners: float) -> tuple[str, int]:
        """The address of a seeder that is closed at the end of the test."""
        seeder = Seeder(infohash_of(torrent), Manners(**manners))  # type: ignore[arg-type]  # each has its kind
        self.addCleanup(seeder.close)
        host, port = seeder.address.split(":")
        return host, int(port)

    def test_progress(self) -> None:
        """A State comes now and then and at the end, and then the file is there."""
        torrent = single_torrent()
        with Download(torrent, str(self.folder) + "/", peers=[self.seeder(torrent, delay=0.01)], **CHOICES) as download:
            self.assertEqual((download.files, download.path, download.is_complete), ([], "", False))
            states = list(download)
            self.assertTrue(download.is_complete)
            self.assertEqual(download.figures()["blocks"], 161)
        self.assertGreater(len(states), 2)
        self.assertEqual([state.done for state in states], sorted(state.done for state in states))
        last = states[-1]
        self.assertEqual((last.done, last.wanted, last.pieces_done, last.pieces), (len(CONTENT), len(CONTENT), 41, 41))
        self.assertEqual((self.folder / "content").read_bytes(), CONTENT)
        self.assertEqual(download.path, str(self.folder / "content"))

    def test_goes_on(self) -> None:
        """A download that was stopped by another thread goes on later, from a path, and files are chosen meanwhile."""
        torrent, path = folder_torrent(), self.folder / "torrent"
        path.write_bytes(torrent)
        address = self.seeder(torrent, delay=0.01)
        out = str(self.folder / "out")
        with Download(str(path), out, peers=[address], **CHOICES) as download:
            threading.Timer(0.5, download.stop).start()
            for _ in download:
                pass
            self.assertFalse(download.is_complete)
        with Download(str(path), out, peers=[address], **CHOICES) as download:
            for _ in download:
                for file in download.files:
                    download.choose(file.number, 4 if file.number == 5 else 0)
            self.assertTrue(download.is_complete)
            self.assertEqual([file.level for file in download.files], [0, 0, 0, 0, 4, 0])
            self.assertEqual((download.files[4].path, download.files[4].length, download.files[4].share), ("d", 20 * PIECE, 1.0))
            with self.assertRaises(ValueError):
                download.choose(7, 4)
        self.assertEqual((self.folder / "out" / "d").read_bytes(), parts()["d"])

    def test_magnet(self) -> None:
        """While a magnet link is followed the states say so."""
        torrent = folder_torrent()
        peer = InfoPeer(torrent)
        self.addCleanup(peer.close)
        link = f"magnet:?xt=urn:btih:{infohash_of(torrent).hex()}&x.pe={peer.address}"
        with Download(link, str(self.folder / "out"), **CHOICES) as download:
            states: list[State] = list(download)
        self.assertIn("looking for", states[0].note)
        self.assertEqual(len(download.files), len(FILES))
        self.assertTrue((self.folder / "out" / "sub" / "b").exists())

    def test_faults(self) -> None:
        """Each fault has a name, and leaves nothing behind."""
        began = time.monotonic()
        cases: list[tuple[str | bytes, type[Exception]]] = [
            (b"nonsense", MetainfoFault), (f"magnet:?xt=urn:btih:{40 * '0'}", NotFound), ("/nowhere", FileNotFoundError),
        ]  # fmt: skip
        for torrent, fault in cases:
            with self.subTest(torrent), Download(torrent, str(self.folder / "out"), **CHOICES) as download, self.assertRaises(fault):
                list(download)
        with self.assertRaises(TypeError):
            Download(b"", "", nonsense=True)
        with self.assertRaises(AttributeError):
            fetch.nonsense
        self.assertEqual(list(self.folder.iterdir()), [])
        self.assertLess(time.monotonic() - began, 30.0)


if __name__ == "__main__":
    unittest.main()
