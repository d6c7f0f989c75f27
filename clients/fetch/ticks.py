"""Round numbers on an axis."""

from __future__ import annotations

import math

MOST = 6  # steps of an axis
ROUND = (1, 2, 5, 10)


def step_of(end: float, most: int = MOST, is_whole: bool = False) -> float:
    """The least of 1, 2 and 5 times a power of ten that has the end in so many steps."""
    least = max(end, 1e-9) / most
    power = 10.0 ** math.floor(math.log10(least))
    step = next(factor * power for factor in ROUND if factor * power >= least * (1 - 1e-9))
    return max(step, 1.0) if is_whole else step


def ticks(end: float, is_whole: bool = False) -> list[float]:
    """The marks from 0 up to the end, each a multiple of one round step."""
    step = step_of(end, is_whole=is_whole)
    return [number * step for number in range(int(end / step * (1 + 1e-9)) + 1)]
