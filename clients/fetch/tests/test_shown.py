"""What a person sees: the progress line, the picture, the drawing in the terminal, and what a player reads."""

from __future__ import annotations

import contextlib
import http.client
import os
import pty
import re
import signal
import subprocess
import sys
import termios
import unittest
from pathlib import Path
from typing import Any
from xml.etree import ElementTree

from fetch import CLIENTS
from fetch.choosing import HELP, filled
from fetch.picture import draw
from fetch.progress import State, duration, line, size
from fetch.serving import WrongRange, range_of
from fetch.trace import Trace
from fetch.watch import LEGEND, Cell, clip, glyph, numbers

from .support import CONTENT, PIECE, Downloading, folder_torrent
from .test_files import parts

SVG = "{http://www.w3.org/2000/svg}"
# Two workers: 0 shows pieces 0 and 1, 1 shows piece 0. Written by hand, as the program prints a journal.
JOURNAL = """\
0 join = joined
0 bits c0 = noted yes
1 join = joined
1 bits 80 = noted yes
0 unchoke = quiet
1 unchoke = quiet
0 next = request 1 0 16384
1 next = request 0 0 16384
0 block 1 0 16384 = completed
0 settle 1 = had
0 next = request 0 0 16384
1 block 0 0 16384 = completed
0 next = cancel 0 0 16384
0 block 0 0 16384 = dropped
stream 0 end
"""


class Lines(unittest.TestCase):
    """The progress line."""

    def test_units(self) -> None:
        self.assertEqual([size(0), size(999), size(1000), size(4294967296), size(3e12)], ["0 B", "999 B", "1.0 kB", "4.3 GB", "3.00 TB"])
        self.assertEqual([duration(5), duration(65), duration(3661)], ["0:05", "1:05", "1:01:01"])

    def test_line(self) -> None:
        told = line(State(done=250000, wanted=1000000, down=50000.0, up=0.0, peers=1, pieces_done=3, pieces=16))
        self.assertEqual(told, " 25.0% of 1.0 MB, 3 of 16 pieces, 50.0 kB/s down, 1 peer, 0:15 left")
        self.assertIn("100.0%", line(State(done=0, wanted=0, down=0.0, up=2.0, peers=2)))


class Pictures(unittest.TestCase):
    """Drawings of downloads."""

    def trace(self) -> Trace:
        """Four pieces of two blocks: two peers, and one block that was asked for twice."""
        trace = Trace(pieces=4, blocks_each=2, blocks=8)
        for number in range(8):
            trace.requested(number // 2, 1 + number // 4)
            trace.came(float(number), number // 2, number % 2, "a<b" if number < 5 else "c")
        trace.requested_again(6.5, 3, 1)
        return trace

    def test_marks(self) -> None:
        root = ElementTree.fromstring(draw(self.trace(), "A & B"))
        paths = [path for path in root.iter(f"{SVG}path") if path.get("opacity") == "1.0"]
        marks = {path.get("stroke"): re.findall(r"M([\d.]+) ([\d.]+)h", path.get("d", "")) for path in paths}
        self.assertEqual([len(found) for found in marks.values()], [5, 3])
        (first, second) = marks.values()
        # Time goes to the right, and pieces go up.
        self.assertEqual([float(x) for x, _ in first], sorted(float(x) for x, _ in first))
        self.assertGreater(min(float(y) for _, y in first), max(float(y) for _, y in second))

    def test_words(self) -> None:
        root = ElementTree.fromstring(draw(self.trace(), "A & B"))
        texts = [text.text for text in root.iter(f"{SVG}text")]
        for told in ("A & B", "a<b: 5 blocks", "c: 3 blocks", "endgame", "shown by 1 (dark) to 2", "seconds", "piece"):
            self.assertIn(told, texts)
        self.assertEqual(len(list(root.iter(f"{SVG}circle"))), 1)

    def test_nothing(self) -> None:
        ElementTree.fromstring(draw(Trace(pieces=1, blocks_each=1, blocks=1), "nothing"))

    def test_many(self) -> None:
        """A large download makes no larger a file than its grid."""
        trace = Trace(pieces=20000, blocks_each=16, blocks=320000)
        for number in range(320000):
            trace.came(number / 1000, number // 16, number % 16, f"peer {number % 5}")
        self.assertLess(len(draw(trace, "many")), 1 << 20)

    def test_journal(self) -> None:
        """tools/picture.py draws what a journal says."""
        tool = Path(CLIENTS).parent / "tools" / "picture.py"
        process = subprocess.run([sys.executable, "-B", str(tool), "-"], input=JOURNAL, capture_output=True, text=True, timeout=30)
        self.assertEqual(process.returncode, 0, process.stderr)
        texts = [text.text for text in ElementTree.fromstring(process.stdout).iter(f"{SVG}text")]
        self.assertIn("2 pieces, 2 of 2 blocks, 1 requests in endgame, 1 blocks came twice", texts)
        self.assertIn("worker 0: 1 blocks", texts)
        self.assertIn("worker 1: 1 blocks", texts)
        self.assertIn("shown by 1 (dark) to 2", texts)
        process = subprocess.run([sys.executable, "-B", str(tool), "-"], input="no journal", capture_output=True, text=True, timeout=30)
        self.assertEqual(process.returncode, 1)


class Drawn(unittest.TestCase):
    """The drawing in the terminal."""

    def test_cells(self) -> None:
        self.assertEqual(glyph(Cell(1.0, None, 0)), "█")
        self.assertIn("3", glyph(Cell(0.0, None, 3)))
        self.assertIn("!", glyph(Cell(0.0, None, 0)))
        self.assertIn("▒", glyph(Cell(0.0, 1, 3)))

    def test_runs(self) -> None:
        self.assertEqual(numbers({1, 2, 3, 7, 9, 10}), "1-3 7 9-10")

    def test_width(self) -> None:
        self.assertEqual(clip("abc\x1b[31mdef\x1b[0m", 4), "abc\x1b[31md\x1b[0m")
        self.assertEqual(clip("abc", 10), "abc")
        self.assertEqual(filled(["ab", "cd", "efg"], 6), ["ab  cd", "efg"])
        for width in (80, 100, 200):
            self.assertLessEqual(max(map(len, [*filled(LEGEND, width), *filled(HELP, width)])), width)
        self.assertEqual(len(filled(LEGEND, 120)), 2)


class Whole(Downloading):
    """The program with a picture, and with players."""

    torrent = folder_torrent()

    def test_picture(self) -> None:
        path = self.folder / "picture.svg"
        self.fetch(self.seeder(), words=("--picture", str(path)))
        texts = [text.text or "" for text in ElementTree.parse(path).iter(f"{SVG}text")]
        self.assertTrue(any("41 pieces, 161 of 161 blocks" in text for text in texts), texts)

    def on_terminal(self, *words: str, columns: int = 200) -> str:
        """What a download writes to a terminal."""
        ours, theirs = pty.openpty()
        termios.tcsetwinsize(theirs, (24, columns))
        command = [sys.executable, "-B", str(Path(CLIENTS, "fetch.py")), "--no-dht", "--no-listen", *words]
        command += [str(self.torrent_path), str(self.out), self.seeder(delay=0.01).address]
        written = b""
        with subprocess.Popen(command, stdout=subprocess.DEVNULL, stderr=theirs) as process:
            os.close(theirs)
            with contextlib.suppress(OSError):  # the end of a terminal
                while data := os.read(ours, 1 << 16):
                    written += data
        os.close(ours)
        self.assertEqual(process.returncode, 0)
        return written.decode()

    def test_progress(self) -> None:
        written = self.on_terminal()
        self.assertRegex(written, r"\r *[1-9]\d?\.\d% of 2\.6 MB, .*/s down, 1 peer, 0:0\d left")
        self.assertEqual(self.on_terminal("--quiet"), "")

    def test_narrow(self) -> None:
        """The line keeps to one row, since none that goes on in the next row can be written over."""
        lines = re.findall(r"\r([^\r\x1b]*)", self.on_terminal(columns=30))
        self.assertEqual(max(len(line.rstrip("\n")) for line in lines), 29)

    def test_watch(self) -> None:
        """The drawing is on a screen of its own, which is given back."""
        written = self.on_terminal("--watch")
        self.assertTrue(written.startswith("\x1b[?1049h"))
        self.assertTrue(written.endswith("\x1b[?1049l"))
        self.assertIn("▒", written)
        self.assertIn("100%", written)

    def serving(self, **manners: Any) -> http.client.HTTPConnection:
        """A download that serves, and a player's connection to it."""
        self.process = self.start("--serve", "0", seeders=(self.seeder(**manners),))
        self.addCleanup(self.process.communicate)
        self.addCleanup(self.process.kill)
        assert self.process.stderr
        found = re.search(r":(\d+)/", self.process.stderr.readline())
        assert found
        connection = http.client.HTTPConnection("127.0.0.1", int(found[1]), timeout=20)
        self.addCleanup(connection.close)
        return connection

    def get(self, connection: http.client.HTTPConnection, path: str, **headers: str) -> tuple[int, bytes, http.client.HTTPMessage]:
        """An answer."""
        connection.request("GET", path, headers=headers)
        answer = connection.getresponse()
        return answer.status, answer.read(), answer.headers

    def test_player(self) -> None:
        connection = self.serving(delay=0.003)
        files = parts()
        # The end of the last file comes at once, though everything before it is missing.
        status, body, headers = self.get(connection, "/6/e", Range="bytes=-1000")
        self.assertEqual((status, body), (206, files["e"][-1000:]))
        length = len(files["e"])
        self.assertEqual(headers["Content-Range"], f"bytes {length - 1000}-{length - 1}/{length}")
        for number, whole in enumerate(files.values(), 1):
            self.assertEqual(self.get(connection, f"/{number}")[:2], (200, whole))
        self.assertEqual(self.get(connection, "/3/b", Range="bytes=10-19")[:2], (206, files["sub/b"][10:20]))
        self.assertIn(b"sub/deep/c", self.get(connection, "/")[1])
        self.process.send_signal(signal.SIGINT)
        self.assertEqual(self.process.wait(20), 0)

    def test_refused(self) -> None:
        connection = self.serving()
        for path in ("/9", "/0", "/x", "/../etc/passwd", "/99999999999999"):
            self.assertEqual(self.get(connection, path)[0], 404)
        self.assertEqual(self.get(connection, "/1", Range="bytes=5000-")[0], 416)
        self.assertEqual(self.get(connection, "/1", Host="evil.example")[0], 403)

    def test_jump(self) -> None:
        """A reader in the middle gets its pieces before those in front of it."""
        connection = self.serving(delay=0.04)
        begin = 15 * PIECE
        status, body, _ = self.get(connection, "/5/d", Range=f"bytes={begin}-{begin + PIECE - 1}")
        self.assertEqual((status, body), (206, parts()["d"][begin : begin + PIECE]))
        self.assertLess(int(self._had()), len(CONTENT) // 2)

    def _had(self) -> str:
        """How many bytes are had when the program is interrupted."""
        self.process.send_signal(signal.SIGINT)
        printed, _ = self.process.communicate(timeout=20)
        return dict(line.split() for line in printed.splitlines())["had"]


class Ranges(unittest.TestCase):
    """Ranges of RFC 9110."""

    def test_valid(self) -> None:
        for header, found in (
            (None, None), ("", None), ("bytes=0-0", (0, 1)), ("bytes=2-", (2, 10)), ("bytes=-3", (7, 10)), ("bytes=-30", (0, 10)),
            ("bytes=4-99", (4, 10)), ("bytes=-", None), ("bytes=5-4", None), ("bytes=0-1,3-4", None), ("lines=1-2", None),
        ):  # fmt: skip
            self.assertEqual(range_of(header, 10), found, header)

    def test_invalid(self) -> None:
        for header in ("bytes=10-", "bytes=10-12", "bytes=-0"):
            with self.subTest(header), self.assertRaises(WrongRange):
                range_of(header, 10)


if __name__ == "__main__":
    unittest.main()
