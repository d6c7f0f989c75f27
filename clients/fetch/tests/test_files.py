"""Torrents of many files: names, places, and what lies on the disk."""

from __future__ import annotations

import hashlib
import os
import unittest

from bencode import BencodeFault, Value, bdecode, bencode
from fetch.layout import Layout, levels_of, printable, safe_path
from fetch.metainfo import MetainfoFault, files_of, is_folder, trackers_of
from fetch.options import Options
from fetch.parts import open_picker
from fetch.storage import Storage
from piecepick import Picker

from .support import CONTENT, FILES, PIECE, PIECES, Downloading, folder_torrent, single_torrent


def parts() -> dict[str, bytes]:
    """The bytes of each file, cut from the content one behind the other."""
    found, at = {}, 0
    for names, length in FILES:
        found["/".join(name.decode() for name in names)] = CONTENT[at : at + length]
        at += length
    return found


class Bencoded(unittest.TestCase):
    """The examples of BEP 3, and what it forbids."""

    def test_values(self) -> None:
        cases: list[tuple[bytes, Value]] = [
            (b"4:spam", b"spam"), (b"i3e", 3), (b"i-3e", -3), (b"i0e", 0), (b"l4:spam4:eggse", [b"spam", b"eggs"]),
            (b"d3:cow3:moo4:spam4:eggse", {b"cow": b"moo", b"spam": b"eggs"}), (b"d4:spaml1:a1:bee", {b"spam": [b"a", b"b"]}),
            (b"0:", b""), (b"le", []), (b"de", {}),
        ]  # fmt: skip
        for data, value in cases:
            self.assertEqual(bdecode(data), value)
            self.assertEqual(bencode(value), data)

    def test_nonsense(self) -> None:
        for data in (
            b"", b"i-0e", b"i03e", b"ie", b"i3", b"i 3e", b"i+3e", b"4:spa", b"04:spam", b"-1:", b"l", b"d3:cowe", b"d", b"di1ei2ee", b"e",
            b"4:spamx", b"d1:ai1e1:ai2ee", b"l" * 1000 + b"e" * 1000, b"99999999999:", b"i" + b"9" * 5000 + b"e",
        ):  # fmt: skip
            with self.subTest(data[:20]), self.assertRaises(BencodeFault):
                bdecode(data)


class Metainfo(unittest.TestCase):
    """What is read of a metainfo file."""

    def test_files(self) -> None:
        with Picker(folder_torrent()) as picker:
            self.assertEqual(files_of(picker), [(list(names), length) for names, length in FILES])
            self.assertTrue(is_folder(picker))
        with Picker(single_torrent()) as picker:
            self.assertEqual(files_of(picker), [([b"content"], len(CONTENT))])
            self.assertFalse(is_folder(picker))

    def test_trackers(self) -> None:
        tiers: list[Value] = [[b"http://b/", b"udp://c:1/"], [], [b"http://d/"], 3, [4]]
        listed: dict[bytes, Value] = {b"announce": b"http://a/", b"announce-list": tiers, b"info": {}}
        self.assertEqual(trackers_of(bencode(listed)), [["http://b/", "udp://c:1/"], ["http://d/"]])
        self.assertEqual(trackers_of(bencode({b"announce": b"http://a/", b"info": {}})), [["http://a/"]])
        self.assertEqual(trackers_of(bencode({b"info": {}})), [])

    def test_nonsense(self) -> None:
        options = Options(torrent="", out="")
        cases: list[dict[bytes, Value]] = [
            {}, {b"length": -3}, {b"files": []}, {b"files": [3]}, {b"files": [{b"length": 3}]}, {b"files": [{b"length": -1, b"path": [b"a"]}]},
            {b"files": [{b"length": 3, b"path": []}]}, {b"files": [{b"length": 3, b"path": [3]}]}, {b"files": [{b"path": [b"a"]}]},
        ]  # fmt: skip
        for info in cases:
            whole: dict[bytes, Value] = {b"name": b"a", b"piece length": 3, b"pieces": bytes(20), **info}
            with self.subTest(info), self.assertRaises(MetainfoFault):
                open_picker(bencode({b"info": whole}), options)
        for data in (b"", b"le", b"de", b"d4:infolee"):
            with self.subTest(data), self.assertRaises(MetainfoFault):
                open_picker(data, options)


class Names(unittest.TestCase):
    """No name leads out of the folder."""

    def test_safe(self) -> None:
        self.assertEqual(safe_path([b"a", b"b c", "ö…".encode()]), "a/b c/ö…")
        self.assertEqual(os.fsencode(safe_path([b"\xff\xfe"])), b"\xff\xfe")

    def test_refused(self) -> None:
        for name in (b"", b".", b"..", b"/", b"/etc/passwd", b"a/b", b"..\\a", b"a\0b", b"../a"):
            for names in ([name], [b"a", name], [name, b"a"]):
                with self.subTest(names), self.assertRaises(MetainfoFault):
                    safe_path(names)

    def test_clashes(self) -> None:
        for names in ([[b"a"], [b"a"]], [[b"a"], [b"a", b"b"]], [[b"a", b"b", b"c"], [b"a", b"b"]]):
            with self.subTest(names), self.assertRaises(MetainfoFault):
                Layout([(path, 1) for path in names], 1, len(names))

    def test_wrong_total(self) -> None:
        with self.assertRaises(MetainfoFault):
            Layout([([b"a"], 5)], 4, 6)

    def test_terminal(self) -> None:
        self.assertEqual(printable("a\x1b[2Jb\n\r\x9bc"), "a?[2Jb???c")


class Places(unittest.TestCase):
    """Where pieces lie in files, compared with the content cut by hand."""

    def setUp(self) -> None:
        self.layout = Layout([(list(names), length) for names, length in FILES], PIECE, len(CONTENT))

    def test_spans(self) -> None:
        files = parts()
        for begin in (0, 1, 99, 100, PIECE - 1, PIECE, 3 * PIECE + 17, len(CONTENT) - 5):
            for length in (1, 5, PIECE, 3 * PIECE):
                length = min(length, len(CONTENT) - begin)
                spans = list(self.layout.spans(begin, length))
                joined = b"".join(files[file.path][inside : inside + count] for file, inside, count in spans)
                self.assertEqual(joined, CONTENT[begin : begin + length])

    def test_pieces(self) -> None:
        at = 0
        for file in self.layout.files:
            touched = sorted({byte // PIECE for byte in range(at, at + file.length)})
            self.assertEqual(list(self.layout.pieces_of(file)), touched)
            at += file.length

    def test_levels(self) -> None:
        levels = levels_of(self.layout, {1: 0, 2: 7, 3: 5, 4: 0, 5: 1, 6: 0})
        # File 3 lies in pieces 0 and 1, file 5 in pieces 1 to 21; the empty file 2 lies in none.
        self.assertEqual(levels, bytes([5, 5] + [1] * 20 + [0] * (PIECES - 22)))


class Stored(Downloading):
    """Files on the disk."""

    def storage(self) -> Storage:
        """A storage of the torrent's files."""
        layout = Layout([(list(names), length) for names, length in FILES], PIECE, len(CONTENT))
        storage = Storage(str(self.out), layout, is_folder=True)
        self.addCleanup(storage.close)
        return storage

    def test_round(self) -> None:
        storage = self.storage()
        storage.prepare(storage.layout.files)
        self.assertTrue((self.out / "empty").exists())
        self.assertEqual((self.out / "d.part").stat().st_size, 20 * PIECE)
        for at in range(0, len(CONTENT), 10007):
            storage.write(at, memoryview(CONTENT)[at : at + 10007])
        self.assertEqual(storage.read(50, 3 * PIECE), CONTENT[50 : 50 + 3 * PIECE])
        for piece in (0, 1, 7, PIECES - 1):
            part = CONTENT[piece * PIECE : (piece + 1) * PIECE]
            self.assertEqual(storage.digest(piece), hashlib.sha1(part).digest())
            blocks = [hashlib.sha1(part[at : at + 16384]).digest() for at in range(0, len(part), 16384)]
            self.assertEqual(storage.block_digests(piece), blocks)
        storage.finish(storage.layout.files[4])
        self.assertEqual((self.out / "d").read_bytes(), parts()["d"])

    def test_many_open(self) -> None:
        """More files than are held open."""
        files = [([b"%d" % number], 7) for number in range(200)]
        layout = Layout(files, 100, 1400)
        storage = Storage(str(self.out), layout, is_folder=True)
        self.addCleanup(storage.close)
        for turn in range(2):
            for number in range(200):
                storage.write(7 * number, memoryview(b"%3d.%3d" % (number, turn)))
        self.assertEqual(storage.read(0, 1400), b"".join(b"%3d.%3d" % (number, 1) for number in range(200)))

    def test_part_names(self) -> None:
        """A file whose own name ends with `.part` doesn't clash with the beginning of another one."""
        layout = Layout([([b"a"], 5), ([b"a.part"], 5)], 10, 10)
        storage = Storage(str(self.out), layout, is_folder=True)
        self.addCleanup(storage.close)
        storage.prepare(layout.files)
        storage.write(0, memoryview(b"firstother"))
        for file in layout.files:
            storage.finish(file)
        self.assertEqual(((self.out / "a").read_bytes(), (self.out / "a.part").read_bytes()), (b"first", b"other"))


class Folders(Downloading):
    """Downloads of many files."""

    torrent = folder_torrent()

    def found(self) -> dict[str, bytes]:
        """The files that are there, and their bytes."""
        return {str(path.relative_to(self.out)): path.read_bytes() for path in self.out.rglob("*") if path.is_file()}

    def test_all(self) -> None:
        self.fetch(self.seeder())
        self.assertEqual(self.found(), parts())

    def test_resumed(self) -> None:
        self.fetch(self.seeder(pieces=range(10, PIECES)), status=1)
        found = self.found()
        # Only the last file has none of the first ten pieces; the empty one is whole at once.
        self.assertEqual(found["e"], parts()["e"])
        self.assertEqual({"a.part", "sub/b.part", "sub/deep/c.part", "d.part", "e", "empty"}, set(found))
        seeder = self.seeder()
        self.fetch(seeder)
        self.assertEqual(self.found(), parts())
        self.assertEqual(seeder.blocks, 40)

    def test_only(self) -> None:
        """Files 3 and 4 alone: pieces 0 and 1, and nothing is written of a file that has no byte in these."""
        seeder = self.seeder()
        figures = self.fetch(seeder, words=("--only", "3-4"))
        self.assertEqual(seeder.blocks, 8)
        self.assertEqual(figures["complete"], "yes")
        found = self.found()
        self.assertEqual((found["sub/b"], found["sub/deep/c"], found["a"]), (parts()["sub/b"], parts()["sub/deep/c"], parts()["a"]))
        self.assertNotIn("e", found)
        self.assertNotIn("e.part", found)

    def test_levels(self) -> None:
        """The last file comes first by its level, and file 5 not at all."""
        seeder = self.seeder(delay=0.002)
        self.fetch(seeder, words=("--level", "6=7", "--level", "5=0"))
        found = self.found()
        self.assertEqual(found["e"], parts()["e"])
        self.assertNotIn("d", found)

    def test_list(self) -> None:
        process = self.start("--list")
        printed, _ = process.communicate(timeout=20)
        told = [line.split()[1:] for line in printed.splitlines()]
        self.assertEqual(told, [[str(len(data)), path] for path, data in parts().items()])

    def test_unknown_file(self) -> None:
        self.fetch(words=("--only", "9"), status=2)
        self.assertIn("no file 9", self.errors)

    def test_name_behind_slash(self) -> None:
        """A slash behind the folder puts the torrent's own name there."""
        self.out = f"{self.out}/"  # type: ignore[assignment]  # a path keeps no slash
        self.fetch(self.seeder())
        self.out = self.folder / "out" / "folder"
        self.assertEqual(self.found(), parts())


class Hostile(Downloading):
    """A torrent that wants to write elsewhere."""

    torrent = folder_torrent([([b"..", b"evil"], len(CONTENT))])

    def test_refused(self) -> None:
        self.fetch(self.seeder(), status=3)
        self.assertIn("isn't safe", self.errors)
        self.assertFalse((self.folder / "evil").exists())
        self.assertFalse((self.folder.parent / "evil").exists())


if __name__ == "__main__":
    unittest.main()
