"""How much may come and go in a second. Several downloads of one program share the same limits."""

from __future__ import annotations

import threading
from dataclasses import dataclass, field


class Limit:
    """So many bytes a second at most; None is no limit. What isn't used within a second is lost."""

    def __init__(self, rate: int | None) -> None:
        self.rate = rate
        self._left = 0.0
        self._filled = 0.0
        self._lock = threading.Lock()

    def allows(self, now: float) -> bool:
        """Whether something may be sent now."""
        if self.rate is None:
            return True
        with self._lock:
            self._left = min(self._left + self.rate * max(0.0, now - self._filled), float(self.rate))
            self._filled = max(now, self._filled)
            return self._left > 0

    def room(self, most: int) -> int:
        """The bytes that are left, of so many at most."""
        return most if self.rate is None else max(1, min(most, int(self._left)))

    def take(self, count: int) -> None:
        """So many bytes are sent, though it may be more than are left: then it takes longer until the next ones."""
        if self.rate is not None:
            with self._lock:
                self._left -= count


@dataclass
class Bounds:
    """The limits of both directions."""

    up: Limit = field(default_factory=lambda: Limit(None))
    down: Limit = field(default_factory=lambda: Limit(None))


def bounds_of(up: int | None, down: int | None) -> Bounds:
    """The limits of so many kilobytes a second."""
    return Bounds(Limit(None if up is None else 1000 * up), Limit(None if down is None else 1000 * down))
