"""How many bytes a second came or went, over the last seconds."""

from __future__ import annotations

SECONDS = 8


class Rate:
    """A sum for each of the last seconds. Times are those of one clock, in seconds."""

    def __init__(self, now: float) -> None:
        self.total = 0
        self._begin = now
        self._second = int(now)
        self._sums = [0] * SECONDS

    def _turn(self, now: float) -> None:
        """Empties the sums of seconds that are over."""
        second = int(now)
        for step in range(min(second - self._second, SECONDS)):
            self._sums[(second - step) % SECONDS] = 0
        self._second = max(self._second, second)

    def add(self, count: int, now: float) -> None:
        """So many came now."""
        self._turn(now)
        self._sums[self._second % SECONDS] += count
        self.total += count

    def per_second(self, now: float) -> float:
        """The mean of the last seconds, of which this one isn't over; or of those since the beginning."""
        self._turn(now)
        passed = min(SECONDS - 1 + now % 1, now - self._begin)
        return sum(self._sums) / max(passed, 1.0)
