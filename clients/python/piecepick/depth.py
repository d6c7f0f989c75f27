"""How many blocks should be in flight at a peer, by what came of it. It needs no library."""

from __future__ import annotations

_BLOCK = 16384
_SECONDS = 8  # in which is counted
_LAST_SECONDS = 2
_LEAST_DEPTH = 4
_ENDGAME_DEPTH = 6
_GREATEST_DEPTH = 4096
_MOST_COUNT = 2**32 - 1


def _fits(number: int, bits: int) -> int:
    """The number, which has to be one of so many bits, as in C. A float is none."""
    if number >> bits:
        raise ValueError(f"{number} isn't 0 to 2^{bits} - 1")
    return number


class DepthByRate:
    """The depth of one peer: pass to `Picker.depth` what `follow` answers.

    The depth is as many blocks of 16 KiB as come in a second, and 4 more. The rate is that of the last two seconds, or of the last eight if that is
    greater. The depth is at most `deepest`, and in endgame at most 6. It rises at once. It falls by a quarter at most, and once a second. After
    a time-out it is 4, until a block comes. Before the first block or time-out it is that of the options.

    Times are milliseconds of one clock that doesn't go back, such as `time.monotonic_ns() // 10**6`. A time that is earlier than the newest one
    counts as that. A second begins where its time is a multiple of 1,000, and counts at most 2^32 - 1 bytes. Times and bytes that don't fit 64
    bits are a ValueError, and floats a TypeError. The headers of C and the Rust crate have the same rule, with the same depths.
    """

    __slots__ = ("_begin", "_counts", "_deepest", "_depth", "_is_begun", "_is_in_endgame", "_is_late", "_may_fall", "_now")

    def __init__(self, now: int, *, depth: int = 16, deepest: int = 500) -> None:
        """A peer comes, of a picker with these options. `deepest` counts as 1 to 4,096, and `depth` as 1 to that."""
        self._begin = self._now = _fits(now, 64)
        self._deepest = max(1, min(_fits(deepest, 32), _GREATEST_DEPTH))
        self._depth = max(1, min(_fits(depth, 32), self._deepest))
        self._counts = [0] * _SECONDS  # bytes of the last seconds, each at its number modulo 8
        self._is_begun = False  # a block or a time-out came: the depth follows
        self._is_late = False  # a time-out came, and no block since
        self._is_in_endgame = False
        self._may_fall = True  # the depth hasn't fallen in this second

    @property
    def depth(self) -> int:
        """The depth after the last call."""
        return self._depth

    def came(self, count: int, now: int) -> None:
        """So many bytes of blocks came. That none came changes nothing."""
        if _fits(count, 64) == 0:
            return
        self._turn(now)
        place = self._now // 1000 % _SECONDS
        self._counts[place] = min(self._counts[place] + count, _MOST_COUNT)
        self._is_begun, self._is_late = True, False

    def timed_out(self) -> None:
        """A request took too long, and was reported as late."""
        self._is_begun = self._is_late = True

    def set_in_endgame(self, is_in_endgame: bool) -> None:
        """Report at each request whether its block is requested from another peer too, which isn't late. The depth is at most 6 at once then."""
        self._is_in_endgame = is_in_endgame
        if is_in_endgame:
            self._depth = min(self._depth, _ENDGAME_DEPTH)

    def follow(self, now: int) -> int:
        """The depth now. Ask for it once a second, or at each block."""
        self._turn(now)
        if not self._is_begun:
            return self._depth
        # The last two seconds show a rate that rises, and all of them one that comes in bursts.
        rate = 0 if self._is_late else max(self._blocks(_LAST_SECONDS), self._blocks(_SECONDS))
        most = min(_ENDGAME_DEPTH, self._deepest) if self._is_in_endgame else self._deepest
        wanted = min(_LEAST_DEPTH + rate, most)
        if wanted >= self._depth or self._is_late:
            self._depth = wanted
        elif self._may_fall:
            self._depth = max(wanted, self._depth * 3 // 4)
            self._may_fall = False
        return self._depth

    def _turn(self, now: int) -> None:
        """The newest time is `now`, and the seconds that begin by it are empty."""
        if _fits(now, 64) <= self._now:
            return
        second, newest = self._now // 1000, now // 1000
        self._now = now
        for empty in range(max(second, newest - _SECONDS) + 1, newest + 1):
            self._counts[empty % _SECONDS] = 0
            self._may_fall = True

    def _blocks(self, seconds: int) -> int:
        """Blocks a second in so many last seconds, of which the newest isn't over, or in those since the peer came."""
        passed = min(1000 * (seconds - 1) + self._now % 1000, self._now - self._begin)
        second = self._now // 1000
        count = sum(self._counts[(second - back) % _SECONDS] for back in range(seconds))
        # Less than a second says nothing.
        return count * 1000 // (max(passed, 1000) * _BLOCK)
