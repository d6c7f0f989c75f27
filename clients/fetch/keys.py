"""Keys that the user hits while the drawing is shown."""

from __future__ import annotations

import contextlib
import os
import select
import sys
import termios
import tty
from enum import Enum
from typing import Any

LONGEST = 64  # bytes that are read at a time


class Key(Enum):
    """What a key is for."""

    FILES = "f"
    UP = "k"
    DOWN = "j"
    TOGGLE = " "
    QUIT = "q"


ARROWS = {"\x1b[A": Key.UP.value, "\x1b[B": Key.DOWN.value, "\x1bOA": Key.UP.value, "\x1bOB": Key.DOWN.value}


class Keyboard:
    """The terminal of the program, if it has one. Keys come at once and aren't shown, until it is closed."""

    def __init__(self, handle: int | None = None) -> None:
        self._handle = sys.stdin.fileno() if handle is None and sys.stdin else handle
        self._before: list[Any] | None = None
        with contextlib.suppress(termios.error, OSError, TypeError):
            self._before = termios.tcgetattr(self._handle or 0)
            tty.setcbreak(self._handle or 0)

    def hit(self) -> str:
        """The keys since the last call, with the arrows as letters."""
        if self._before is None or self._handle is None or not select.select([self._handle], [], [], 0)[0]:
            return ""
        with contextlib.suppress(OSError):
            text = os.read(self._handle, LONGEST).decode("ascii", "ignore")
            for arrow, letter in ARROWS.items():
                text = text.replace(arrow, letter)
            return text
        return ""

    def close(self) -> None:
        """The terminal is as it was."""
        if self._before is not None:
            with contextlib.suppress(termios.error):
                termios.tcsetattr(self._handle or 0, termios.TCSADRAIN, self._before)
            self._before = None
