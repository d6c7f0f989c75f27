"""The command line."""

from __future__ import annotations

import contextlib
import io
import os
import subprocess
import sys
import unittest
from pathlib import Path

from fetch import CLIENTS
from fetch.command_line import read

from .support import Downloading


class Read(unittest.TestCase):
    """What the words of the command line come to."""

    def test_usual(self) -> None:
        options = read(["a.torrent", "out", "host:1", "[::1]:2"])
        self.assertEqual((options.torrent, options.out, options.peers), ("a.torrent", "out", [("host", 1), ("::1", 2)]))
        self.assertTrue(options.listens and options.asks_trackers)

    def test_chosen(self) -> None:
        options = read("--only 1,3-5 --level 2=7 --level 3=0 --port 0 --seed 1.5 --up 20 a.torrent out".split())
        self.assertEqual((options.only, options.levels, options.port), ({1, 3, 4, 5}, {2: 7, 3: 0}, 0))
        self.assertEqual((options.seed_ratio, options.up_limit), (1.5, 20))

    def test_refused(self) -> None:
        for words, told in (
            ("", "TORRENT is missing"),
            ("a.torrent out 1.2.3.4", "1.2.3.4 has no port"), ("a.torrent one two", "OUT is 'one' already"),
            ("a.torrent 1.2.3.4:99999", "no address"), ("--port 65536 a.torrent out", "65535"),
            ("--level 1=8 a.torrent out", "no level"), ("--level 1 a.torrent out", "2=7 gives file 2"),
            ("--only 3-1 a.torrent out", "names no files"),
            ("--only 1-99999999999 a.torrent out", "names no files"), ("--peers 0 a.torrent out", "1 to 500"), ("--up -1 a.torrent out", "--up"),
            ("--seed nan a.torrent out", "no number"), ("--seed x a.torrent out", "no number"),
            ("--bind here a.torrent out", "no address in numbers"),
            ("--nonsense a.torrent out", "--nonsense"),
        ):  # fmt: skip
            errors = io.StringIO()
            with self.subTest(words), contextlib.redirect_stderr(errors), self.assertRaises(SystemExit) as ended:
                read(words.split())
            self.assertEqual(ended.exception.code, 2)
            self.assertIn(told, errors.getvalue())


class Statuses(Downloading):
    """The program's statuses, and its sentence for each."""

    def test_no_torrent(self) -> None:
        for data, told in ((b"", "the file is empty"), (b"le", "not dictionary"), (b"de", "missing key"), (b"d4:infodee", "missing key")):
            self.torrent_path.write_bytes(data)
            with self.subTest(data):
                self.fetch(status=3)
                self.assertIn(told, self.errors)
        self.torrent_path.unlink()
        self.fetch(status=2)
        self.assertIn("No such file", self.errors)

    def test_no_folder(self) -> None:
        self.out = self.out / "below"
        (self.folder / "out").write_bytes(b"a file in the way")
        self.fetch(status=4)
        self.assertIn("/out: a file is there, where a folder has to be", self.errors)

    def test_full_output(self) -> None:
        """Python's own status, where what was printed can't be written."""
        command = [sys.executable, "-B", str(Path(CLIENTS, "fetch.py")), "--list", str(self.torrent_path)]
        buffered = {name: value for name, value in os.environ.items() if name != "PYTHONUNBUFFERED"}
        with open("/dev/full", "wb") as full:
            ended = subprocess.run(command, stdout=full, stderr=subprocess.PIPE, text=True, check=False, env=buffered)
        self.assertEqual(ended.returncode, 120)
        self.assertIn("No space left", ended.stderr)

    def test_port_in_use(self) -> None:
        seeder = self.seeder()
        self.listens = True
        self.fetch(words=("--bind", "127.0.0.1", "--port", seeder.address.rpartition(":")[2]), status=2)
        self.assertIn("in use", self.errors)


if __name__ == "__main__":
    unittest.main()
