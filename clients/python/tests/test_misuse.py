"""What a caller may do wrong, and memory and threads."""

from __future__ import annotations

import copy
import gc
import mmap
import pickle
import tempfile
import threading
import unittest
from collections.abc import Callable
from pathlib import Path

from support import BLOCK, DIGESTS, METAINFO, PARTS, PIECE, PIECES, bring, picker, with_peer

from piecepick import Keeps, Kind, Picker, PiecepickError, Status


def resident() -> int:
    """The bytes of this process that are in memory."""
    return int(Path("/proc/self/statm").read_text().split()[1]) * mmap.PAGESIZE


class Closed(unittest.TestCase):
    """No call reaches the library after close."""

    def test_picker(self) -> None:
        made = with_peer()
        made.close()
        made.close()
        calls: list[Callable[..., object]] = [made.join, made.next, made.outstanding, made.level, made.piece_hash, made.audit]
        for call, arguments in zip(calls, [(0,), (0,), (0,), (0,), (0,), ()]):
            with self.assertRaises(PiecepickError) as caught:
                call(*arguments)
            self.assertIs(caught.exception.status, Status.CLOSED)
        self.assertRaises(PiecepickError, lambda: made.epoch)
        self.assertRaises(PiecepickError, lambda: made.name)

    def test_job(self) -> None:
        with with_peer(Keeps.BEGUN) as made:
            bring(made, 0, PARTS[0])
            job = made.job_take(0)
            job.close()
            job.close()
            for call in (job.hash, job.settle, job.read):
                with self.assertRaises(PiecepickError) as caught:
                    call()
                self.assertIs(caught.exception.status, Status.NO_JOB)

    def test_copies(self) -> None:
        with with_peer(Keeps.BEGUN) as made:
            bring(made, 0, PARTS[0])
            for thing in (made, made.job_take(0)):
                self.assertRaises(TypeError, copy.copy, thing)
                self.assertRaises(TypeError, pickle.dumps, thing)


class Numbers(unittest.TestCase):
    """No number is taken modulo anything."""

    def test_range(self) -> None:
        with with_peer() as made:
            calls: list[tuple[Callable[..., object], int]] = [
                (made.join, 1), (made.next, 1), (made.have, 2), (made.depth, 2), (made.level, 1), (made.release, 3), (made.late, 3),
                (made.reach, 2), (made.alone, 1), (made.set_in_order_from, 1), (made.lack, 2), (made.rule, 2),
                (made.lose, 1), (made.discard, 2), (made.requested, 3),
            ]  # fmt: skip
            for number in (-1, 2**32, 2**64, -(2**32)):
                for call, count in calls:
                    for place in range(count):
                        arguments = [0] * count
                        arguments[place] = number
                        self.assertRaises(ValueError, call, *arguments)
                self.assertRaises(ValueError, made.arrived, 0, 0, number, b"")
                self.assertRaises(ValueError, lambda choice: Picker(METAINFO, workers=choice), number)
            for word in (-1, 2**64):
                self.assertRaises(ValueError, made.next, 0, word)
                self.assertRaises(ValueError, Picker.open_parts, PIECE, word, DIGESTS[0])
            self.assertEqual(made.next(0, 2**64 - 1).kind, Kind.REQUEST)

    def test_no_numbers(self) -> None:
        with with_peer() as made:
            for wrong in (1.0, "1", None):
                self.assertRaises(TypeError, made.join, wrong)
                self.assertRaises(TypeError, made.next, wrong)
            self.assertRaises(TypeError, made.next, 0, 1.0)


class Buffers(unittest.TestCase):
    """Whatever gives its bytes in one run is taken."""

    def test_kinds(self) -> None:
        block = PARTS[0][:BLOCK]
        with tempfile.TemporaryFile() as file:
            file.write(block)
            file.flush()
            with mmap.mmap(file.fileno(), 0, access=mmap.ACCESS_READ) as mapping:
                kinds: list[bytes | bytearray | memoryview | mmap.mmap] = [block, bytearray(block), memoryview(PARTS[0])[:BLOCK], mapping]
                for data in kinds:
                    with with_peer(Keeps.BEGUN) as made:
                        self.assertEqual(made.arrived(0, 0, 0, data).kind, Kind.STORED)
                        bring(made, 1, PARTS[1])
                        made.arrived(0, 0, BLOCK, PARTS[0][BLOCK:])
                        self.assertEqual(made.job_take(0).read(), PARTS[0])

    def test_none_is_kept(self) -> None:
        block = bytearray(PARTS[0][:BLOCK])
        with with_peer(Keeps.BEGUN) as made:
            made.arrived(0, 0, 0, block)
            block.clear()
            made.arrived(0, 0, BLOCK, PARTS[0][BLOCK:])
            self.assertEqual(made.job_take(0).read(), PARTS[0])

    def test_no_bytes(self) -> None:
        with with_peer() as made:
            self.assertRaises(TypeError, made.arrived, 0, 0, 0, "text")
            self.assertRaises(TypeError, made.arrived, 0, 0, 0, 5)
            self.assertRaises(TypeError, made.arrived, 0, 0, 0, None)
            self.assertRaises(BufferError, made.arrived, 0, 0, 0, memoryview(PARTS[0])[::2])

    def test_rooms(self) -> None:
        with with_peer(Keeps.JOURNAL) as made:
            bring(made, 0, PARTS[0])
            made.settle_now(0)
            room = bytearray(PIECE + 2)
            with memoryview(room) as view:
                made.read_into(0, view[1:-1])
            self.assertEqual(room, b"\0" + PARTS[0] + b"\0")
            self.assertRaises(BufferError, made.read_into, 0, bytes(PIECE))


class Forgotten(unittest.TestCase):
    """What is forgotten is freed."""

    def make(self) -> None:
        """A picker and a job that hold some 100 KB."""
        made = with_peer(Keeps.BEGUN)
        for piece in range(3):
            bring(made, piece, PARTS[piece])
        made.job_take(0).hash()

    def test_memory(self) -> None:
        for _ in range(100):
            self.make()
        gc.collect()
        before = resident()
        for _ in range(1000):
            self.make()
        gc.collect()
        self.assertLess(resident() - before, 4 << 20)

    def test_job_behind_its_picker(self) -> None:
        made = with_peer(Keeps.BEGUN)
        bring(made, 0, PARTS[0])
        job = made.job_take(0)
        made.close()
        del made
        job.hash()
        self.assertEqual(job.read(), PARTS[0])

    def test_failed_open(self) -> None:
        self.assertRaises(ValueError, Picker, b"")
        gc.collect()


class Threads(unittest.TestCase):
    """A picker may be shared."""

    def test_all(self) -> None:
        with with_peer(Keeps.BEGUN) as made:
            wrong: list[object] = []

            def work(piece: int) -> None:
                try:
                    bring(made, piece, PARTS[piece])
                    with made.job_take(piece) as job:
                        job.hash()
                        self.assertIs(job.settle().kind, Kind.COMPLETE)
                except Exception as error:
                    wrong.append(error)

            threads = [threading.Thread(target=work, args=(piece,)) for piece in range(PIECES)]
            for thread in threads:
                thread.start()
            for thread in threads:
                thread.join()
            self.assertEqual(wrong, [])
            self.assertTrue(made.is_complete)

    def test_close_meanwhile(self) -> None:
        for _ in range(20):
            made = picker()
            made.join(0)
            statuses: list[Status] = []

            def work() -> None:
                try:
                    while True:
                        made.next(0)
                except PiecepickError as error:
                    statuses.append(error.status)

            threads = [threading.Thread(target=work) for _ in range(3)]
            for thread in threads:
                thread.start()
            made.close()
            for thread in threads:
                thread.join()
            self.assertEqual(statuses, [Status.CLOSED] * 3)


if __name__ == "__main__":
    unittest.main()
