"""SHA-1 of four pieces: side by side by the library, or one after the other by hashlib, whatever is faster on this processor."""

from __future__ import annotations

import hashlib
import time
from collections.abc import Callable, Sequence
from functools import cache

from piecepick import hash_four

LONGEST = 1 << 22  # bytes of a piece: a thread that hashes four at once holds all four of them
TRIAL = 1 << 18  # bytes of a message in the trial
TRIES = 4

Messages = Sequence[bytes | bytearray]


def side_by_side(messages: Messages) -> list[bytes]:
    """The digests of four messages, hashed at once."""
    first, second, third, fourth = messages
    return hash_four(first, second, third, fourth)


def one_by_one(messages: Messages) -> list[bytes]:
    """The digests of the messages."""
    return [hashlib.sha1(message, usedforsecurity=False).digest() for message in messages]


def _seconds(hashes: Callable[[Messages], list[bytes]], messages: Messages) -> float:
    """The least time of a few tries, so that other work on the machine counts little."""
    least = float("inf")
    for _ in range(TRIES):
        begin = time.perf_counter()
        hashes(messages)
        least = min(least, time.perf_counter() - begin)
    return least


@cache
def is_four_faster() -> bool:
    """Whether four messages are hashed faster side by side. It is tried once in some ten milliseconds: hashlib may use a processor's own SHA-1."""
    messages = [bytes(TRIAL)] * 4
    return _seconds(side_by_side, messages) < _seconds(one_by_one, messages)
