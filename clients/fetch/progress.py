"""How far the download is, in a line."""

from __future__ import annotations

import os
import sys
import time
from dataclasses import dataclass
from typing import TextIO

from .layout import printable

EACH = 0.5  # seconds


@dataclass(frozen=True)
class State:
    """What there is to tell."""

    done: int
    wanted: int
    down: float
    up: float
    peers: int
    pieces_done: int = 0
    pieces: int = 0
    note: str = ""


def size(count: float) -> str:
    """Bytes, as people read them."""
    for unit in ("B", "kB", "MB", "GB"):
        if count < 1000:
            return f"{count:.0f} {unit}" if unit == "B" else f"{count:.1f} {unit}"
        count /= 1000
    return f"{count:.2f} TB"


def duration(seconds: float) -> str:
    """Seconds, as people read them."""
    minutes, rest = divmod(int(seconds), 60)
    hours, minutes = divmod(minutes, 60)
    return f"{hours}:{minutes:02}:{rest:02}" if hours else f"{minutes}:{rest:02}"


def line(state: State) -> str:
    """The progress line."""
    share = 100.0 * state.done / state.wanted if state.wanted else 100.0
    pieces = f"{state.pieces_done} of {state.pieces} piece{'' if state.pieces == 1 else 's'}"
    parts = [f"{share:5.1f}% of {size(state.wanted)}", pieces, f"{size(state.down)}/s down"]
    if state.up:
        parts.append(f"{size(state.up)}/s up")
    parts.append(f"{state.peers} peer{'' if state.peers == 1 else 's'}")
    if 0 < state.done < state.wanted and state.down > 0:
        parts.append(f"{duration((state.wanted - state.done) / state.down)} left")
    if state.note:
        parts.append(printable(state.note))
    return ", ".join(parts)


def width_of(stream: TextIO) -> int:
    """The columns of a terminal; 0 where nobody knows."""
    try:
        return os.get_terminal_size(stream.fileno()).columns
    except OSError:
        return 0


class Progress:
    """Writes the line again and again, where it goes to a terminal."""

    def __init__(self, quiet: bool, stream: TextIO = sys.stderr) -> None:
        self.stream = stream
        self.shows = not quiet and stream.isatty()
        self._shown = 0.0
        self._is_open = False

    def is_due(self, now: float) -> bool:
        """Whether it is time to write the line again."""
        return self.shows and now - self._shown >= EACH

    def show(self, state: State, now: float) -> None:
        """Writes the line."""
        self._write(line(state), now)

    def _write(self, text: str, now: float) -> None:
        self._shown = now
        self._is_open = True
        # One that went on in the next row couldn't be written over. The last column is the cursor's.
        text = text[: width - 1] if (width := width_of(self.stream)) else text
        print(f"\r{text}\x1b[K", end="", file=self.stream, flush=True)

    def tell(self, text: str, is_last: bool = False) -> None:
        """Writes another line in its place, where it is time for it or nothing else follows."""
        now = time.monotonic()
        if self.shows and (now - self._shown >= EACH or is_last):
            self._write(text, now)

    def check(self, done: int, pieces: int) -> None:
        """How many pieces were checked at the start."""
        self.tell(f"checking what is there: {done} of {pieces} pieces", is_last=done == pieces)

    def say(self, text: str) -> None:
        """Writes a line of its own."""
        self.end()
        print(text, file=self.stream, flush=True)

    def end(self) -> None:
        """The line stays as it is."""
        if self._is_open:
            self._is_open = False
            print(file=self.stream, flush=True)

    def close(self) -> None:
        """The same."""
        self.end()
