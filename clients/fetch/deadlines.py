"""Which peers are too slow for what a reader waits for."""

from __future__ import annotations

import math
from collections.abc import Hashable, Iterable
from dataclasses import dataclass

from .rate import Rate

MEASURED = 3.0  # seconds with a full line, before which nothing is told of a peer's rate
LATE = 4.0  # seconds; a line of the usual depth, what comes in a second and 4 blocks, takes longer below 27 KB a second
TIMES = 2.0  # a line that takes up to so many times the quickest one's isn't too long, since it may be that all peers are slow
BACK = 0.75  # a slow peer is quick again when its line takes no more than this share of what is too long


class Pace:
    """The rate of a peer while its line is full. Else the rate tells how little is asked of it, and not how fast it is."""

    def __init__(self) -> None:
        self.rate: float | None = None  # bytes a second, as they were measured last
        self._came: Rate | None = None  # since the line is full
        self._began = 0.0

    def fill(self, is_full: bool, now: float) -> None:
        """The line is as full as it may be from now on, or it isn't."""
        if not is_full:
            self._came = None
        elif self._came is None:
            self._came, self._began = Rate(now), now

    def came(self, count: int, now: float) -> None:
        """So many bytes came."""
        if self._came:
            self._came.add(count, now)

    def follow(self, now: float) -> None:
        """Measures the rate anew. Due once a second."""
        if self._came and now - self._began >= MEASURED:
            self.rate = self._came.per_second(now)

    def seconds(self, count: int) -> float | None:
        """How long so many bytes take; None where no rate was measured yet."""
        if self.rate is None:
            return None
        return count / self.rate if self.rate > 0 else math.inf


@dataclass(frozen=True)
class Line:
    """What is asked of one peer: how long a block takes behind it, or None where that isn't known yet.

    `shows` has a bit for each piece that may be asked of the peer now, so it is 0 where the peer chokes us or rests.
    """

    key: Hashable
    seconds: float | None
    shows: int


class Deadlines:
    """Judges who is too slow, look by look."""

    def __init__(self) -> None:
        self.late: set[Hashable] = set()
        self.spared: set[Hashable] = set()

    def judge(self, lines: Iterable[Line], urgent: int) -> set[Hashable]:
        """Who gets nothing urgent until the next look. `urgent` has a bit for each such piece that isn't had.

        A line is too long above LATE, and above TIMES the quickest one's. Who is slow stays so until its line is clearly shorter.
        """
        known = [(line, line.seconds) for line in lines if line.seconds is not None]
        quickest = min((seconds for line, seconds in known if line.shows), default=0.0)
        bound = max(LATE, TIMES * quickest)
        self.late = {line.key for line, seconds in known if seconds > bound * (BACK if line.key in self.late else 1.0)}
        self._spare(known, urgent)
        return self.late - self.spared

    def _spare(self, known: list[tuple[Line, float]], urgent: int) -> None:
        """Of slow peers the quickest one that shows a piece gets it all the same, where nobody quick does. Who was such a one stays so."""
        for line, _ in known:
            if line.key not in self.late:
                urgent &= ~line.shows
        late = [line for line, _ in sorted(known, key=lambda pair: pair[1]) if line.key in self.late]
        self.spared = {line.key for line in late if line.key in self.spared and line.shows & urgent}
        for line in late:
            if line.shows & urgent:
                self.spared.add(line.key)
                urgent &= ~line.shows
