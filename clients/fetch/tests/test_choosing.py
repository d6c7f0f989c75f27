"""What comes first, how fast it comes, several torrents in one run, and files that are chosen while it runs."""

from __future__ import annotations

import contextlib
import io
import os
import pty
import signal
import subprocess
import sys
import time
import unittest

from fetch.choosing import Chooser
from fetch.command_line import read
from fetch.layout import File, Layout, levels_of

from .spoken import Speaking, message
from .support import CONTENT, FILES, HAVE_ALL, PIECE, UNCHOKE, Downloading, folder_torrent, single_torrent
from .test_contact import PROGRAM, Contact
from .test_files import parts
from .test_web import with_seeds
from .webservers import WebServer


class Levels(unittest.TestCase):
    """The level of each piece."""

    def test_ends(self) -> None:
        """The ends of a wanted file are one level higher than its middle, up to 7; a file that isn't wanted has none."""
        layout = Layout([([b"a"], 4 * PIECE), ([b"b"], 3 * PIECE), ([b"c"], 2 * PIECE), ([b"d"], PIECE)], PIECE, 10 * PIECE)
        levels = levels_of(layout, {1: 4, 2: 7, 3: 0, 4: 2}, ends_first=True)
        self.assertEqual(list(levels), [5, 4, 4, 5, 7, 7, 7, 0, 0, 3])


class Ends(Speaking):
    """What is asked for first."""

    torrent = folder_torrent()
    had = 0
    choices = {"ends_first": True}

    def test_first(self) -> None:
        """Of the two long files, which have the pieces 1 to 21 and 21 to 40, the first and the last piece come first."""
        peer = self.peer(True)
        self.hear(peer, message(HAVE_ALL) + message(UNCHOKE))
        first = list(dict.fromkeys(piece for piece, _ in peer.asked))
        self.assertEqual(set(first[:4]), {0, 1, 21, 40})


class Words(unittest.TestCase):
    """Several torrents on the command line."""

    def test_sorted(self) -> None:
        options = read("a.torrent out b.torrent magnet:?xt=urn:btih:x http://h/c --at-once 2".split())
        self.assertEqual((options.torrent, options.out, options.at_once), ("a.torrent", "out", 2))
        self.assertEqual(options.more, ("b.torrent", "magnet:?xt=urn:btih:x", "http://h/c"))

    def test_refused(self) -> None:
        for words in ("--only 1 a.torrent b.torrent", "a.torrent out b.torrent 10.0.0.1:1", "--down 15 a.torrent", "--watch a.torrent b.torrent"):
            errors = io.StringIO()
            with self.subTest(words), contextlib.redirect_stderr(errors), self.assertRaises(SystemExit):
                read(words.split())
            self.assertRegex(errors.getvalue(), "is for one torrent, and there are 2|15 isn't 16")


class Limited(Downloading):
    """A limit for what comes."""

    def test_limit(self) -> None:
        """A second's worth comes at once, and then so much each second; 2.6 MB at 1 MB a second take at least 1.6 seconds."""
        figures = self.fetch(self.seeder(), self.seeder(), words=("--down", "1000", "--give-up", "20"))
        self.assert_same()
        self.assertGreater(float(figures["seconds"]), 1.5)
        self.assertEqual((figures["timeouts"], figures["lost"]), ("0", "0"))

    def test_slow(self) -> None:
        """Of six peers each brings a block in two seconds, which is no fault of theirs: for 18 seconds none is late, and the rate is kept."""
        process = self.start("--down", "50", "--give-up", "60", seeders=tuple(self.seeder() for _ in range(6)))
        with contextlib.suppress(subprocess.TimeoutExpired):
            process.communicate(timeout=18)
        process.send_signal(signal.SIGINT)
        figures = dict(line.split() for line in process.communicate(timeout=30)[0].splitlines())
        self.assertEqual((figures["timeouts"], figures["lost"]), ("0", "0"))
        self.assertLess(int(figures["downloaded"]), (float(figures["seconds"]) + 2) * 50000 + 6 * 16384)


class Several(Contact):
    """More than one torrent in one run."""

    def test_several(self) -> None:
        """Each comes below the folder, by a web server that all have. One that can't be used ends neither the others nor is it hidden."""
        files = {f"/folder/{path}": data for path, data in parts().items()} | {"/content": CONTENT}
        server = WebServer(files)
        self.addCleanup(server.close)
        for name, torrent in (("one.torrent", folder_torrent()), ("two.torrent", single_torrent())):
            (self.folder / name).write_bytes(with_seeds(torrent, [server.url]))
        (self.folder / "wrong.torrent").write_bytes(b"nonsense")
        printed = self.run_in("one.torrent", "wrong.torrent", "two.torrent", "all", "--at-once", "2", status=3)
        self.assertEqual({path: (self.folder / "all" / "folder" / path).read_bytes() for path in parts()}, parts())
        self.assertEqual((self.folder / "all" / "content").read_bytes(), CONTENT)
        self.assertEqual(len(printed.splitlines()), 2)
        self.assertIn("wrong.torrent: ", self.errors)
        self.assertEqual(self.run_in("--list", "one.torrent", "two.torrent").splitlines()[0], "one.torrent")

    def test_interrupted(self) -> None:
        """One interrupt ends all of them in order, and each says what is there."""
        server = WebServer({f"/folder/{path}": data for path, data in parts().items()} | {"/content": CONTENT}, rate=100000.0)
        self.addCleanup(server.close)
        for name, torrent in (("one.torrent", folder_torrent()), ("two.torrent", single_torrent())):
            (self.folder / name).write_bytes(with_seeds(torrent, [server.url]))
        process = subprocess.Popen([*PROGRAM, "one.torrent", "two.torrent"], cwd=self.folder, stderr=subprocess.PIPE, text=True)
        deadline = time.monotonic() + 60
        while not {"folder", "content.part"} <= {path.name for path in self.folder.iterdir()} and time.monotonic() < deadline:
            time.sleep(0.02)
        process.send_signal(signal.SIGINT)
        errors = process.communicate(timeout=60)[1]
        self.assertEqual(process.returncode, 1, errors)
        self.assertEqual(errors.count("the same command goes on with it"), 2, errors)
        self.assertNotIn("Traceback", errors)


class Keys(unittest.TestCase):
    """The list of files, by keys."""

    def setUp(self) -> None:
        self.chosen: list[tuple[int, int]] = []
        self.levels = {1: 4, 2: 4, 3: 0}
        files = [File(number, f"file {number}", 0, 9) for number in self.levels]
        self.chooser = Chooser(files, self.choose)

    def choose(self, number: int, level: int) -> str:
        """Keeps what was chosen."""
        self.chosen.append((number, level))
        return ""

    def test_keys(self) -> None:
        """Nothing is chosen before the list is shown; then the place moves, but not beyond the ends."""
        self.chooser.hit("j 7", self.levels)
        self.assertEqual(self.chosen, [])
        self.chooser.hit("f j 7jjjj kkkkk0", self.levels)
        self.assertEqual(self.chosen, [(1, 0), (2, 0), (2, 7), (3, 4), (1, 0)])
        self.chooser.hit("fq", self.levels)
        self.assertTrue(self.chooser.is_over)
        self.assertFalse(self.chooser.is_open)


class Chosen(Speaking):
    """Files that are chosen while it runs."""

    torrent = folder_torrent()
    had = 0

    def test_left_and_taken(self) -> None:
        """A file that is left isn't asked for, and one that is taken again is."""
        download = self.download
        for file in download.parts.layout.files:
            download.levels.choose(file.number, 0)
        self.assertTrue(download.parts.picker.has_wanted)
        peer = self.peer(True)
        self.assertNotIn(message(6, 21), self.hear(peer, message(HAVE_ALL) + message(UNCHOKE)))
        self.assertEqual(len(peer.asked), 0)
        self.assertIn("level 7", download.levels.choose(4, 7))
        self.session.ask_idle()
        # The fourth file has 5,000 bytes in the second piece alone.
        self.assertEqual({piece for piece, _ in peer.asked}, {1})
        self.assertEqual(download.levels.wanted, [1])
        self.assertEqual([row.level for row in download.levels.rows()], [0, 0, 0, 7, 0, 0])


class OnTerminal(Downloading):
    """The program in a terminal."""

    torrent = folder_torrent()

    def test_chosen(self) -> None:
        """The list is opened, all files but the fourth are left, and the list is closed: then the download is over."""
        ours, theirs = pty.openpty()
        seeder = self.seeder(delay=0.5)
        command = [*PROGRAM, "--watch", str(self.torrent_path), str(self.out), seeder.address]
        with subprocess.Popen(command, stdin=theirs, stdout=subprocess.DEVNULL, stderr=theirs) as process:
            os.close(theirs)
            written = b""
            steps = [(b"peer ", b"f"), (b"space takes it", b" j j \x1b[Bj j f")]
            deadline = time.monotonic() + 60
            while time.monotonic() < deadline:
                try:
                    written += os.read(ours, 1 << 16)
                except OSError:
                    break
                if steps and steps[0][0] in written:
                    os.write(ours, steps.pop(0)[1])
                    seeder.manners.delay = 0.5 if steps else 0.0
            process.wait(60)
        os.close(ours)
        self.assertEqual(process.returncode, 0)
        self.assertEqual((self.out / "sub" / "deep" / "c").read_bytes(), parts()["sub/deep/c"])
        self.assertLess(seeder.blocks, 161)


assert sys.platform == "linux" and FILES
if __name__ == "__main__":
    unittest.main()
