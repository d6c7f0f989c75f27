"""The first minute with the program: where the content goes, who else writes there, and what is said at the end."""

from __future__ import annotations

import contextlib
import io
import os
import socket
import subprocess
import sys
import time
import unittest
from collections.abc import Iterator
from pathlib import Path
from unittest.mock import patch

from fetch import CLIENTS
from fetch.ending import Ending, told
from fetch.options import Options
from fetch.reach import Reach
from fetch.running import fetch
from fetch.signals import Loop
from fetch.source import Source
from fetch.ticks import ticks

from .support import CONTENT, Downloading, folder_torrent
from .test_files import parts

PROGRAM = [sys.executable, "-B", "-W", "error", str(Path(CLIENTS, "fetch.py")), "--no-listen", "--no-tracker", "--no-dht"]


class Contact(Downloading):
    """The program, with its words as a user types them, in the folder of the test."""

    def run_in(self, *words: str, status: int = 0, **environment: str) -> str:
        """What it prints, where its status is this one."""
        command = [*PROGRAM, "--give-up", "1.5" if status else "20", *words]
        process = subprocess.run(command, cwd=self.folder, env=os.environ | environment, capture_output=True, text=True, timeout=60)
        self.errors = process.stderr
        self.assertEqual(process.returncode, status, process.stderr)
        return process.stdout


class Single(Contact):
    """A torrent of one file, whose name is `content`."""

    def test_no_out(self) -> None:
        printed = self.run_in("torrent", self.seeder().address)
        self.assertEqual((self.folder / "content").read_bytes(), CONTENT)
        self.assertEqual(len(printed.splitlines()), 1)
        self.assertRegex(printed, r"^content: 2\.6 MB in 0:\d\d \(.*/s from 1 peer\)$")

    def test_in_folder(self) -> None:
        """A folder takes the torrent's name inside, be there a slash or not."""
        seeder = self.seeder()
        for number, words in enumerate((["there"], ["there/"], ["--out", "there"])):
            there = self.folder / "there"
            there.mkdir(exist_ok=True)
            self.run_in("torrent", *words, seeder.address)
            self.assertEqual((there / "content").read_bytes(), CONTENT, number)
            (there / "content").unlink()

    def test_without_library(self) -> None:
        """Help and the list need no library, and a download without it is a sentence."""
        nowhere = str(self.folder / "no.so")
        self.assertIn("--give-up", self.run_in("--help", PIECEPICK_LIBRARY=nowhere))
        self.assertEqual(self.run_in("--list", "torrent", PIECEPICK_LIBRARY=nowhere).split(), ["1", str(len(CONTENT)), "content"])
        self.run_in("torrent", status=2, PIECEPICK_LIBRARY=nowhere)
        self.assertIn("clients/build.sh", self.errors)
        self.assertNotIn("Traceback", self.errors)

    def test_second_run(self) -> None:
        """A second run at the same OUT is refused, and the first one goes on. What a killed run leaves is no hindrance."""
        first = self.start("--give-up", "30", seeders=(self.seeder(delay=0.1),))
        deadline = time.monotonic() + 30
        while not Path(f"{self.out}.part").exists() and time.monotonic() < deadline:
            time.sleep(0.02)
        self.run_in("torrent", "out", status=4)
        self.assertIn("downloaded already, by this run or another one", self.errors)
        self.assertIsNone(first.poll())
        first.kill()
        first.communicate()
        self.fetch(self.seeder())
        self.assert_same()

    def test_picture_nowhere(self) -> None:
        """A picture that couldn't be written is said before anything is downloaded."""
        self.run_in("--picture", "missing/picture.svg", "torrent", self.seeder().address, status=2)
        self.assertIn("missing/picture.svg: No such file", self.errors)
        self.assertFalse((self.folder / "content.part").exists())

    def test_why_not(self) -> None:
        """Why no peer brought anything is said at the end, and at once with --verbose."""
        other, nobody = self.seeder(), socket.create_server(("127.0.0.1", 0))
        other.infohash = bytes(20)
        closed = f"127.0.0.1:{nobody.getsockname()[1]}"
        nobody.close()
        self.run_in("--quiet", "torrent", other.address, closed, status=1)
        for told_so in ("1 peer: the peer has another torrent", "1 peer: Connection refused", "the same command goes on"):
            self.assertIn(told_so, self.errors)
        self.run_in("--verbose", "torrent", closed, status=1)
        self.assertIn(f"{closed}: Connection refused", self.errors)
        self.run_in("torrent", status=1)
        self.assertIn("HOST:PORT behind OUT names one", self.errors)
        command = [word for word in PROGRAM if word != "--no-tracker"]  # the torrent's tracker isn't there
        process = subprocess.run([*command, "--give-up", "2", "torrent"], cwd=self.folder, capture_output=True, text=True, timeout=60)
        self.assertIn("no peer was found. http://127.0.0.1:9/announce: the tracker doesn't answer", process.stderr)

    def test_options_named(self) -> None:
        """What an option changes is said with its name."""
        with socket.create_server(("127.0.0.1", 0)) as taken:
            port = str(taken.getsockname()[1])
            for words, text in (
                (("--serve", port), "--serve chooses another"), (("--bind", "192.0.2.1"), "--bind chooses another"),
                (("--bind", "127.0.0.1", "--port", port), f"port {port} is in use: --port chooses another"),
            ):  # fmt: skip
                command = [word for word in PROGRAM if word != "--no-listen"]
                process = subprocess.run([*command, *words, "torrent"], cwd=self.folder, capture_output=True, text=True, timeout=60)
                self.assertEqual(process.returncode, 2, process.stderr)
                self.assertIn(text, process.stderr)
        self.assertEqual([path.name for path in self.folder.iterdir() if path.suffix == ".lock"], [])


class Early(Contact):
    """An interrupt while it is checked what is there."""

    def test_told(self) -> None:
        @contextlib.contextmanager
        def interrupt(loop: Loop) -> Iterator[None]:
            loop.is_stopping = True
            yield

        self.out.write_bytes(CONTENT)
        options, errors = Options(str(self.torrent_path), str(self.out), listens=False, asks_trackers=False, quiet=True), io.StringIO()
        with patch("fetch.running.ends_in_order", interrupt), contextlib.redirect_stderr(errors):
            self.assertFalse(fetch(Source(self.torrent), options, Reach(options)))
        self.assertIn("interrupted while it checked what is there; the same command goes on", errors.getvalue())
        self.assertEqual(self.out.read_bytes(), CONTENT)


class Folder(Contact):
    """A torrent of many files, whose name is `folder`."""

    torrent = folder_torrent()

    def test_same_command(self) -> None:
        """The folder of the torrent that an earlier run made is taken again, and any other one has the torrent's folder inside."""
        seeder = self.seeder()
        self.run_in("torrent", "new", seeder.address)
        self.assertEqual((self.folder / "new" / "d").read_bytes(), parts()["d"])
        self.assertIn("were there", self.run_in("torrent", "new"))
        (self.folder / "other").mkdir()
        (self.folder / "other" / "d").write_bytes(b"another file of this name")
        self.run_in("torrent", "other", seeder.address)
        self.assertEqual((self.folder / "other" / "folder" / "d").read_bytes(), parts()["d"])
        self.assertEqual((self.folder / "other" / "d").read_bytes(), b"another file of this name")

    def test_parts_told(self) -> None:
        """Files that share a piece with a wanted one have a part beside them, which is said."""
        printed = self.run_in("--only", "4", "torrent", "new", self.seeder().address)
        self.assertIn("share a piece with a wanted one", printed)
        self.assertIn("new/d.part", printed)


class Told(unittest.TestCase):
    """Lines and marks."""

    def test_nothing_known(self) -> None:
        ending = Ending("a\x1b[2J", False, 1, 4, 1, 0, 0, 9.0, 0, knows_nobody=True)
        self.assertEqual(told(ending)[0], "a?[2J: 25.0% of 4 B are there; the same command goes on with it")
        self.assertIn("HOST:PORT", told(ending)[1])

    def test_unwanted(self) -> None:
        """All files may be left out while it runs."""
        self.assertEqual(told(Ending("a", True, 0, 0, 0, 5, 0, 9.0, 1)), ["a: no file is wanted any more"])

    def test_round(self) -> None:
        """Each step is 1, 2 or 5 times a power of ten, and there are few of them."""
        self.assertEqual(ticks(23.7), [0, 5, 10, 15, 20])
        self.assertEqual(ticks(0.06), [0, 0.01, 0.02, 0.03, 0.04, 0.05, 0.06])
        self.assertEqual(ticks(152.0, is_whole=True), [0, 50, 100, 150])
        self.assertEqual(ticks(2, is_whole=True), [0, 1, 2])


if __name__ == "__main__":
    unittest.main()
