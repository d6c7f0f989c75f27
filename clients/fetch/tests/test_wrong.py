"""What users get wrong: each has a sentence with what changes it, and a status, and nothing of it is written over."""

from __future__ import annotations

import os
import socket
import stat
import subprocess
import threading
import unittest

from .support import folder_torrent, infohash_of, single_torrent
from .test_contact import PROGRAM, Contact


class Torrent(Contact):
    """The first word is no torrent."""

    def refused(self, word: str, status: int, *told: str) -> None:
        """The word is refused with this status and these words."""
        with self.subTest(word):
            self.run_in(word, "out", status=status)
            for text in told:
                self.assertIn(text, self.errors)
            self.assertNotIn("Traceback", self.errors)

    def test_no_file(self) -> None:
        (self.folder / "a folder").mkdir()
        self.refused("a folder", 2, "a folder is a folder: TORRENT is a metainfo file")
        self.refused("missing", 2, "missing: No such file")
        self.refused("ftp://127.0.0.1/x", 2, "ftp://127.0.0.1/x: addresses of http and https can be read")
        for infohash in (infohash_of(self.torrent).hex(), "A" * 32):
            self.refused(infohash, 2, f"its link is magnet:?xt=urn:btih:{infohash}")

    def test_damaged(self) -> None:
        """The file's name stands in front, once, and beside other torrents too."""
        (self.folder / "cut").write_bytes(self.torrent[:200])
        (self.folder / "empty").touch()
        self.refused("cut", 3, "fetch.py: cut: this is no metainfo file (BEP 3), or a damaged one")
        self.refused("empty", 3, "fetch.py: empty: the file is empty")
        self.run_in("cut", f"{self.folder}/empty.torrent", "many", status=3)
        self.assertIn("fetch.py: cut: this is no", self.errors)
        self.assertEqual(self.errors.count("empty.torrent"), 1)

    def test_no_http(self) -> None:
        """A server of something else is no garbage on the screen."""
        with socket.create_server(("127.0.0.1", 0)) as listener:
            def speak() -> None:
                with listener.accept()[0] as connection:
                    connection.sendall(b"\x1b[2J\x13BitTorrent protocol\n")
                    connection.recv(1000)

            threading.Thread(target=speak, daemon=True).start()
            url = f"http://127.0.0.1:{listener.getsockname()[1]}/t"
            self.refused(url, 3, f"{url}: no HTTP is spoken there")

    def test_nothing_wanted(self) -> None:
        for words in (("--level", "1=0"), ("--only", "1", "--level", "1=0")):
            self.run_in(*words, "torrent", status=2)
            self.assertIn("no file is wanted: --only and --level choose some", self.errors)

    def test_bind(self) -> None:
        """An address that this machine hasn't is told at once, even where nobody listens. 192.0.2.0/24 is for documents (RFC 5737)."""
        self.run_in("--bind", "192.0.2.1", "torrent", status=2)
        self.assertIn("192.0.2.1 is no address of this machine: --bind chooses another one", self.errors)

    def test_unknown_peer(self) -> None:
        self.run_in("torrent", "nobody.invalid:6881", status=2)
        self.assertIn("the peer nobody.invalid:6881 can't be looked up", self.errors)


class Place(Contact):
    """OUT is no place for the content."""

    def test_no_file(self) -> None:
        """What is there and is no file isn't written over: a pipe, a link to nothing, and a device in the folder of devices."""
        os.mkfifo(self.folder / "pipe")
        (self.folder / "link").symlink_to("nothing")
        for out in ("pipe", "link", "/dev/null"):
            before = os.lstat(self.folder / out).st_mode
            self.run_in("torrent", out, self.seeder().address, status=4)
            self.assertIn(f"{out} is there and is no file: move it away, or name another OUT", self.errors)
            self.assertEqual(os.lstat(self.folder / out).st_mode, before)
        self.assertTrue(stat.S_ISCHR(os.stat("/dev/null").st_mode))

    def test_part(self) -> None:
        """The same holds for the name that a file has until it is whole."""
        os.mkfifo(self.folder / "out.part")
        self.run_in("torrent", "out", self.seeder().address, status=4)
        self.assertIn("out.part is there and is no file", self.errors)

    def test_folder_below(self) -> None:
        """A folder where a file of the torrent has to be is told before anything comes."""
        self.torrent_path.write_bytes(folder_torrent())
        seeder = self.seeder()
        (self.folder / "new" / "folder" / "d").mkdir(parents=True)
        self.run_in("torrent", "new", seeder.address, status=4)
        self.assertIn("new/folder/d is there and is no file", self.errors)
        self.assertEqual(seeder.connections, 0)

    @unittest.skipIf(os.getuid() == 0, "root may write anywhere")
    def test_read_only(self) -> None:
        (self.folder / "closed").mkdir(mode=0o555)
        self.run_in("torrent", "closed/out", self.seeder().address, status=4)
        self.assertIn("Permission denied. Name another OUT", self.errors)


class Same(Contact):
    """One torrent twice."""

    def test_twice(self) -> None:
        """Two torrents of one run at the same place: the one that comes second is refused by its name."""
        for name in ("a.torrent", "b.torrent"):
            (self.folder / name).write_bytes(single_torrent())
        words = [*PROGRAM, "--give-up", "3", "a.torrent", "b.torrent", "many"]
        process = subprocess.run(words, cwd=self.folder, capture_output=True, text=True, timeout=60)
        self.assertIn(process.returncode, (1, 4))  # of the first one that failed
        self.assertRegex(process.stderr, r"[ab]\.torrent: many/content is downloaded already, by this run or another one")


if __name__ == "__main__":
    unittest.main()
