"""How much is asked and answered in a second."""

from __future__ import annotations

from collections import Counter

MOST_HOSTS = 2000  # that are counted in one second


class Pace:
    """So many in a second on the mean, and up to twice as many at once."""

    def __init__(self, per_second: float) -> None:
        self.per_second = per_second
        self._left = 2 * per_second
        self._filled: float | None = None

    def is_open(self, now: float) -> bool:
        """Whether one more is in the bounds."""
        if self._filled is not None:
            self._left = min(self._left + self.per_second * max(0.0, now - self._filled), 2 * self.per_second)
        self._filled = now
        return self._left >= 1

    def allows(self, now: float) -> bool:
        """The same; if so it counts."""
        if not self.is_open(now):
            return False
        self._left -= 1
        return True


class PaceByHost:
    """So many of one host in a second, and so many of all."""

    def __init__(self, of_host: int, of_all: float) -> None:
        self.of_host, self.all = of_host, Pace(of_all)
        self._second = -1
        self._counts: Counter[str] = Counter()

    def allows(self, host: str, now: float) -> bool:
        """Whether one more of this host is in the bounds; if so it counts."""
        if int(now) != self._second:
            self._second = int(now)
            self._counts.clear()
        if self._counts[host] >= self.of_host or len(self._counts) > MOST_HOSTS or not self.all.allows(now):
            return False
        self._counts[host] += 1
        return True
