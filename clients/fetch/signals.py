"""Interrupts: the first one ends a loop in order, the second one ends the program."""

from __future__ import annotations

import signal
from collections.abc import Iterator
from contextlib import contextmanager
from types import FrameType
from typing import Protocol


class Loop(Protocol):
    """What can be ended. Its handle is written to, so that a wait ends."""

    is_stopping: bool

    @property
    def wake_handle(self) -> int:
        """The handle; -1 where no wait is long."""


@contextmanager
def ends_in_order(loop: Loop) -> Iterator[None]:
    """Interrupts end this loop, until the block is left."""

    def handle(number: int, frame: FrameType | None) -> None:
        signal.signal(number, signal.SIG_DFL)
        loop.is_stopping = True

    for number in (signal.SIGINT, signal.SIGTERM):
        signal.signal(number, handle)
    if loop.wake_handle >= 0:
        signal.set_wakeup_fd(loop.wake_handle, warn_on_full_buffer=False)
    try:
        yield
    finally:
        signal.set_wakeup_fd(-1)
