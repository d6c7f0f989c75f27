"""Digests of pieces, made by threads from what is on the disk."""

from __future__ import annotations

import queue
import threading
from collections import deque
from collections.abc import Callable, Iterator
from contextlib import suppress
from dataclasses import dataclass, field

from .hashing import LONGEST, is_four_faster, side_by_side
from .storage import Storage

THREADS = 2
AHEAD = 8  # fours of pieces that are handed out when the whole content is checked, before the first of them is awaited


@dataclass(frozen=True)
class Check:
    """What a thread found: the digest of a piece, and those of its blocks where they were asked for or the digest is a wrong one."""

    piece: int
    digest: bytes
    blocks: list[bytes] = field(default_factory=list)
    error: OSError | None = None


Place = queue.SimpleQueue[list[bytes] | Exception]


class Checker:
    """Threads that hash pieces. What they found is fetched by `done`, and `wake` is called in their threads before."""

    def __init__(self, storage: Storage, wake: Callable[[], None]) -> None:
        self.storage, self.wake = storage, wake
        self.found: queue.SimpleQueue[Check] = queue.SimpleQueue()
        self.under_way = 0
        self._tasks: queue.SimpleQueue[Callable[[], None] | None] = queue.SimpleQueue()  # None ends a thread
        self._threads: list[threading.Thread] = []

    def _submit(self, task: Callable[[], None]) -> None:
        """Has a thread do this. A thread begins with each of the first tasks."""
        if len(self._threads) < THREADS:
            self._threads.append(threading.Thread(target=self._work, name="check", daemon=True))
            self._threads[-1].start()
        self._tasks.put(task)

    def _work(self) -> None:
        while task := self._tasks.get():
            task()

    def start(self, piece: int, expected: bytes, with_blocks: bool = False) -> None:
        """Has a full piece hashed."""
        self.under_way += 1
        self._submit(lambda: self._run(piece, expected, with_blocks))

    def _check(self, piece: int, expected: bytes, with_blocks: bool) -> Check:
        try:
            digest = self.storage.digest(piece)
            needed = with_blocks or digest != expected
            return Check(piece, digest, self.storage.block_digests(piece) if needed else [])
        except OSError as error:
            return Check(piece, bytes(20), error=error)

    def _run(self, piece: int, expected: bytes, with_blocks: bool) -> None:
        self.found.put(self._check(piece, expected, with_blocks))
        self.wake()

    def done(self) -> Iterator[Check]:
        """What was found since the last call."""
        while self.under_way:
            try:
                check = self.found.get_nowait()
            except queue.Empty:
                return
            self.under_way -= 1
            yield check

    def all_of(self, pieces: list[int]) -> Iterator[tuple[int, bytes]]:
        """The digest of each of these pieces, in their order; empty where a file can't be read."""
        fours = [pieces[at : at + 4] for at in range(0, len(pieces), 4)]
        under_way: deque[tuple[list[int], Place]] = deque()
        for four in fours:
            under_way.append((four, self._begin(four)))
            if len(under_way) == AHEAD:
                yield from _first_of(under_way)
        while under_way:
            yield from _first_of(under_way)

    def _begin(self, pieces: list[int]) -> Place:
        """Has pieces hashed; where their digests come, or what went wrong."""
        place: Place = queue.SimpleQueue()

        def hash_them() -> None:
            try:
                place.put(self._digests(pieces))
            except Exception as error:  # nobody may wait for ever
                place.put(error)

        self._submit(hash_them)
        return place

    def _digests(self, pieces: list[int]) -> list[bytes]:
        """The digests of up to four pieces. Four of one length are hashed side by side, where that is faster and all can be read."""
        lengths = {self.storage.layout.length_of(piece) for piece in pieces}
        if len(pieces) == 4 and len(lengths) == 1 and max(lengths) <= LONGEST and is_four_faster():
            try:
                return side_by_side([self.storage.content_of(piece) for piece in pieces])
            except OSError:
                pass
        return [self._digest(piece) for piece in pieces]

    def _digest(self, piece: int) -> bytes:
        try:
            return self.storage.digest(piece)
        except OSError:
            return b""

    def close(self) -> None:
        """Ends the threads; what is under way is finished first, and nothing else."""
        with suppress(queue.Empty):
            while True:
                self._tasks.get_nowait()
        for _ in self._threads:
            self._tasks.put(None)
        for thread in self._threads:
            thread.join()
        self._threads.clear()


def _first_of(under_way: deque[tuple[list[int], Place]]) -> Iterator[tuple[int, bytes]]:
    """The pieces that were handed out first, each with its digest."""
    pieces, place = under_way.popleft()
    digests = place.get()
    if isinstance(digests, Exception):
        raise digests
    return zip(pieces, digests, strict=True)
