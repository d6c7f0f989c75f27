"""The digests of what is on the disk, four pieces at a time and one by one."""

from __future__ import annotations

import hashlib
import os
from unittest import mock

from fetch import checking
from fetch.checking import Checker
from fetch.hashing import is_four_faster, one_by_one, side_by_side
from fetch.layout import Layout
from fetch.storage import Storage

from .support import CONTENT, FILES, PIECE, PIECES, Downloading

DIGESTS = [hashlib.sha1(CONTENT[at : at + PIECE]).digest() for at in range(0, len(CONTENT), PIECE)]


class Checks(Downloading):
    """The content on the disk, in many files, and the threads that hash it."""

    def checker(self) -> Checker:
        """Threads that hash the whole content."""
        layout = Layout([(list(names), length) for names, length in FILES], PIECE, len(CONTENT))
        storage = Storage(str(self.out), layout, is_folder=True)
        self.addCleanup(storage.close)
        storage.prepare(layout.files)
        storage.write(0, memoryview(CONTENT))
        checker = Checker(storage, lambda: None)
        self.addCleanup(checker.close)
        return checker

    def digests(self, checker: Checker, is_faster: bool) -> list[tuple[int, bytes]]:
        """Those of all pieces, where four at once are faster or not."""
        with mock.patch.object(checking, "is_four_faster", lambda: is_faster):
            return list(checker.all_of(list(range(PIECES))))

    def test_both_ways(self) -> None:
        checker = self.checker()
        with mock.patch.object(checking, "side_by_side", wraps=side_by_side) as four:
            self.assertEqual(self.digests(checker, False), list(enumerate(DIGESTS)))
            self.assertEqual(four.call_count, 0)
            self.assertEqual(self.digests(checker, True), list(enumerate(DIGESTS)))
            self.assertEqual(four.call_count, PIECES // 4)

    def test_a_file_that_ends_early(self) -> None:
        """A piece that can't be read has no digest. The others of its four have theirs."""
        checker = self.checker()
        os.truncate(self.out / "d.part", 10 * PIECE)
        found = self.digests(checker, True)
        self.assertEqual(found, self.digests(checker, False))
        lost = [piece for piece, digest in found if digest != DIGESTS[piece]]
        begin = sum(length for _, length in FILES[:4]) + 10 * PIECE
        end = sum(length for _, length in FILES[:5])
        self.assertEqual(lost, list(range(begin // PIECE, (end - 1) // PIECE + 1)))
        self.assertTrue(all(found[piece][1] == b"" for piece in lost))

    def test_fault(self) -> None:
        """What goes wrong in a thread is raised where the digests are awaited, and nobody waits for ever."""
        checker = self.checker()
        with mock.patch.object(checking, "side_by_side", side_effect=MemoryError), self.assertRaises(MemoryError):
            self.digests(checker, True)
        self.assertEqual(self.digests(checker, False), list(enumerate(DIGESTS)))

    def test_one_result(self) -> None:
        messages = [CONTENT[at : at + 1000] for at in range(4)]
        self.assertEqual(side_by_side(messages), one_by_one(messages))
        self.assertIn(is_four_faster(), (True, False))
