"""The whole program against seeders of one file that behave well or badly."""

from __future__ import annotations

import resource
import signal
import subprocess
import sys
import time
import unittest
from pathlib import Path

from fetch import CLIENTS

from .support import BLOCK, CONTENT, PIECE, PIECES, Downloading, Seeder

BLOCKS = 161  # 40 pieces of four blocks, and one of one


class Single(Downloading):
    """A torrent of one file."""

    def test_one(self) -> None:
        seeder = self.seeder()
        figures = self.fetch(seeder)
        self.assert_same()
        self.assertEqual((figures["blocks"], figures["failed"], figures["lost"]), (str(BLOCKS), "0", "0"))
        self.assertGreater(seeder.haves, 0)

    def test_late_bitfield(self) -> None:
        self.fetch(self.seeder(shows="late"))
        self.assert_same()

    def test_haves(self) -> None:
        self.fetch(self.seeder(shows="haves"))
        self.assert_same()

    def test_have_all(self) -> None:
        self.fetch(self.seeder(shows="all"))
        self.assert_same()

    def test_parts(self) -> None:
        self.fetch(self.seeder(pieces=range(20)), self.seeder(pieces=range(15, PIECES)))
        self.assert_same()

    def test_six(self) -> None:
        """A peer with an address of IPv6, where this machine has them."""
        try:
            seeder = Seeder(self.infohash, host="::1")
        except OSError:
            self.skipTest("the loopback interface has no IPv6")
        self.addCleanup(seeder.close)
        self.fetch(seeder)
        self.assert_same()

    def test_rejects(self) -> None:
        figures = self.fetch(self.seeder(rejects=10))
        self.assert_same()
        self.assertEqual(figures["rejects"], "10")

    def test_chokes(self) -> None:
        self.fetch(self.seeder(chokes_each=20))
        self.assert_same()

    def test_lost_peer(self) -> None:
        figures = self.fetch(self.seeder(delay=0.002), self.seeder(ends_after=20))
        self.assert_same()
        self.assertGreaterEqual(int(figures["lost"]), 1)

    def test_mute_peers(self) -> None:
        """Two peers take requests and answer none. What they were asked is asked of the third after 15 seconds."""
        mute = [self.seeder(mute=True) for _ in range(2)]
        figures = self.fetch(*mute, self.seeder(delay=0.002), words=("--give-up", "30"))
        self.assert_same()
        self.assertGreater(int(figures["timeouts"]), 0)
        self.assertEqual((figures["failed"], figures["lost"]), ("0", "0"))

    def test_connects_again(self) -> None:
        seeder = self.seeder(chokes_each=0)
        seeder.manners.ends_after = 30
        process = self.start("--give-up", "10", seeders=(seeder,))
        deadline = time.monotonic() + 60  # on a busy machine the start alone may take ten seconds
        while seeder.blocks < 30 and time.monotonic() < deadline:
            time.sleep(0.05)
        seeder.manners.ends_after = 1 << 30
        _, errors = process.communicate(timeout=60)
        self.assertEqual(process.returncode, 0, errors)
        self.assertGreaterEqual(seeder.connections, 2)
        self.assert_same()

    def test_incomplete(self) -> None:
        figures = self.fetch(self.seeder(pieces=range(30)), status=1)
        self.assertEqual((figures["complete"], figures["had"]), ("no", str(30 * PIECE)))
        self.assertTrue(Path(f"{self.out}.part").exists())
        self.assertFalse(self.out.exists())

    def test_another_torrent(self) -> None:
        seeder = self.seeder()
        seeder.infohash = bytes(20)
        figures = self.fetch(seeder, status=1)
        self.assertEqual((figures["complete"], figures["blocks"]), ("no", "0"))


class Liars(Downloading):
    """Peers that send what is wrong."""

    def test_alone(self) -> None:
        """A peer that brought a wrong piece alone is let go, and another one brings the piece."""
        liar = self.seeder(spoils=1 << 30)
        honest = self.seeder(delay=0.003)
        figures = self.fetch(liar, honest)
        self.assert_same()
        self.assertEqual(figures["banned"], "1")
        self.assertEqual(liar.connections, 1)

    def test_among_others(self) -> None:
        """Of several peers that brought a piece the liar is known once it is right, and the honest one stays."""
        liar = self.seeder(spoils=3, delay=0.01)
        honest = self.seeder(delay=0.01)
        figures = self.fetch(liar, honest)
        self.assert_same()
        self.assertGreater(int(figures["failed"]), 0)
        self.assertEqual(honest.connections, 1)

    def test_among_five(self) -> None:
        """Of five seeders the one that lies is banned, and nobody else is let go."""
        liar = self.seeder(spoils=1 << 30)
        honest = [self.seeder(delay=0.02) for _ in range(4)]
        figures = self.fetch(liar, *honest)
        self.assert_same()
        self.assertEqual(figures["banned"], "1")
        self.assertEqual([seeder.connections for seeder in (liar, *honest)], 5 * [1])


class Resumed(Downloading):
    """Downloads that were ended in between."""

    def half(self, *words: str) -> subprocess.Popen[str]:
        """A download that has come to about the middle."""
        self.slow = self.seeder(delay=0.02)
        process = self.start(*words, seeders=(self.slow,))
        deadline = time.monotonic() + 20
        while self.slow.blocks < 130 and time.monotonic() < deadline:
            time.sleep(0.02)
        return process

    def test_killed(self) -> None:
        process = self.half()
        process.kill()
        process.communicate()
        self.assertTrue(Path(f"{self.out}.part").exists())
        seeder = self.seeder()
        figures = self.fetch(seeder)
        self.assert_same()
        # 130 blocks had come: most are in whole pieces, and those before the last two seconds are in the state file.
        self.assertGreater(int(figures["restored"]), 20 * PIECE)
        self.assertLess(seeder.blocks, 100)

    def test_interrupted(self) -> None:
        process = self.half()
        process.send_signal(signal.SIGINT)
        printed, errors = process.communicate(timeout=20)
        self.assertEqual(process.returncode, 1, errors)
        came = dict(line.split() for line in printed.splitlines())
        seeder = self.seeder()
        self.fetch(seeder)
        self.assert_same()
        # No block that had come is fetched twice.
        self.assertEqual(seeder.blocks + int(came["blocks"]), BLOCKS)

    def test_damaged(self) -> None:
        """What was changed on the disk meanwhile is fetched again."""
        self.fetch(self.seeder(pieces=range(30)), status=1)
        path = Path(f"{self.out}.part")
        content = bytearray(path.read_bytes())
        content[5 * PIECE] ^= 1
        path.write_bytes(content)
        seeder = self.seeder()
        figures = self.fetch(seeder)
        self.assert_same()
        self.assertEqual(int(figures["restored"]), 29 * PIECE)
        self.assertEqual(seeder.blocks, BLOCKS - 29 * PIECE // BLOCK)

    def test_wrong_state(self) -> None:
        """A state file of nonsense is no more than a hint."""
        self.fetch(self.seeder(pieces=range(30)), status=1)
        Path(f"{self.out}.piecepick").write_bytes(b"d6:blocksl")
        figures = self.fetch(self.seeder())
        self.assert_same()
        self.assertEqual(int(figures["restored"]), 30 * PIECE)

    def test_lying_state(self) -> None:
        """A state file that names blocks that aren't there costs a failed check, and no more."""
        self.fetch(self.seeder(pieces=range(30)), status=1)
        state = b"d6:blocksl" + b"li35e4:\x01\x01\x01\x00e" + b"e8:infohash20:" + self.infohash + b"7:versioni1ee"
        Path(f"{self.out}.piecepick").write_bytes(state)
        figures = self.fetch(self.seeder())
        self.assert_same()
        self.assertEqual(int(figures["failed"]), 1)

    def test_whole(self) -> None:
        """What is there already needs no peer."""
        self.out.write_bytes(CONTENT)
        figures = self.fetch()
        self.assertEqual((figures["restored"], figures["blocks"]), (str(len(CONTENT)), "0"))
        self.assert_same()

    def test_foreign_file(self) -> None:
        """A file of another content isn't overwritten, unless that is wanted."""
        self.out.write_bytes(b"a letter")
        self.fetch(self.seeder(), status=4)
        self.assertIn("--replace", self.errors)
        self.assertEqual(self.out.read_bytes(), b"a letter")
        self.fetch(self.seeder(), words=("--replace",))
        self.assert_same()


class FullDisk(Downloading):
    """A disk that has no room."""

    def test_limit(self) -> None:
        """The system refuses more than a part of the file; afterwards the download goes on."""
        limit = "import os, resource, sys; resource.setrlimit(resource.RLIMIT_FSIZE, (1 << 20, 1 << 20)); os.execv(sys.executable, sys.argv[1:])"
        seeder = self.seeder()
        program = [sys.executable, str(Path(CLIENTS, "fetch.py")), "--quiet", "--no-dht", "--no-listen"]
        program += [str(self.torrent_path), str(self.out), seeder.address]
        process = subprocess.run([sys.executable, "-c", limit, *program], capture_output=True, text=True, timeout=30)
        self.assertEqual(process.returncode, 4, process.stderr)
        self.assertIn("larger than the system allows", process.stderr)
        self.fetch(seeder)
        self.assert_same()

    def test_in_between(self) -> None:
        """Writing fails in the middle: what came before stays, and is not fetched again."""
        seeder = self.seeder(delay=0.01)
        process = self.start(seeders=(seeder,))
        end = time.monotonic() + 20
        while self.written() < 55 and time.monotonic() < end:
            time.sleep(0.02)
        # From now on nothing is written behind the first tenth of the file.
        resource.prlimit(process.pid, resource.RLIMIT_FSIZE, (1 << 18, 1 << 18))
        printed, errors = process.communicate(timeout=20)
        self.assertEqual(process.returncode, 4, errors)
        self.assertIn("larger than the system allows", errors)
        self.assertTrue(Path(f"{self.out}.part").exists())
        again = self.seeder()
        self.fetch(again)
        self.assert_same()
        # Those that were under way when it failed are fetched twice.
        self.assertLessEqual(again.blocks, BLOCKS - 55)

    def written(self) -> int:
        """The blocks that are on the disk."""
        path = Path(f"{self.out}.part")
        data = path.read_bytes() if path.exists() else b""
        return sum(data[at : at + BLOCK] == CONTENT[at : at + BLOCK] for at in range(0, len(CONTENT), BLOCK))


if __name__ == "__main__":
    unittest.main()
