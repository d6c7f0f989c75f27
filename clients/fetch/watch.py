"""Draws a download in the terminal: the pieces, and which peer is asked for what."""

from __future__ import annotations

import shutil
import sys
from collections.abc import Callable, Sequence
from dataclasses import dataclass
from typing import TextIO

from .choosing import Chooser, Row, filled
from .peer import Peer
from .progress import size
from .session import Session

EACH = 0.25  # seconds
COLOURS = (39, 208, 40, 141, 137, 211, 51, 185, 245, 63, 106, 136)  # of the 256 of terminals
SHADES = " ░▒▓█"
GREY = 240
MOST_SHOWN = 12  # pieces that are named beside a peer


@dataclass(frozen=True)
class Cell:
    """Some pieces that are drawn as one: the share that is had, the peer that is asked for one, and by how many peers they are shown."""

    had: float
    asked: int | None
    shown_by: int


def paint(text: str, colour: int | None) -> str:
    """The text in a colour of the terminal."""
    return text if colour is None else f"\x1b[38;5;{colour}m{text}\x1b[0m"


def glyph(cell: Cell) -> str:
    """A cell: full where it is had; where it is asked for in the peer's colour; else how many peers show it."""
    if cell.asked is not None:
        return paint("▒" if cell.had < 0.5 else "▓", COLOURS[cell.asked % len(COLOURS)])
    if cell.had > 0:
        return SHADES[max(1, int(cell.had * (len(SHADES) - 1)))]
    if cell.shown_by == 0:
        return paint("!", 196)
    return paint(str(cell.shown_by) if cell.shown_by < 10 else "+", GREY)


def cells_of(session: Session, peers: Sequence[Peer], count: int) -> list[Cell]:
    """The pieces in so many cells, or one for each where there are fewer."""
    pieces, content = session.layout.pieces, session.content
    asked = {piece: number for number, peer in enumerate(peers) for piece, _ in peer.asked}
    count = min(count, pieces)
    cells = []
    for cell in range(count):
        inside = range(cell * pieces // count, (cell + 1) * pieces // count)
        had = sum(content.has(piece) for piece in inside) / len(inside)
        who = next((asked[piece] for piece in inside if piece in asked), None)
        cells.append(Cell(had, who, min(session.picker.availability(piece) for piece in inside) if had < 1 else 0))
    return cells


def numbers(pieces: set[int]) -> str:
    """Pieces, with runs as 3-5."""
    runs: list[list[int]] = []
    for piece in sorted(pieces):
        if runs and runs[-1][1] == piece - 1:
            runs[-1][1] = piece
        else:
            runs.append([piece, piece])
    told = [str(first) if first == last else f"{first}-{last}" for first, last in runs[:MOST_SHOWN]]
    return " ".join(told) + (" .." if len(runs) > MOST_SHOWN else "")


def line_of(peer: Peer, number: int, pieces: int, now: float) -> str:
    """A peer: address, program, its share of the pieces, rates, requests of its depth, who chokes whom, and the pieces that it is asked for."""
    name = f"{peer.address[0]}:{peer.address[1]}"
    states = (("c", peer.chokes_us), ("i", peer.is_interested), ("C", peer.we_choke), ("I", peer.interests_us))
    signs = "".join(sign if holds else "-" for sign, holds in states)
    rates = f"{size(peer.down.per_second(now)):>9}/s {size(peer.up.per_second(now)):>9}/s"
    text = f"{name:<21.21} {peer.program:<6.6} {100 * peer.piece_count // pieces:3}% {rates} {len(peer.asked):3}/{peer.depth:<3} {signs}  "
    return paint("■ ", COLOURS[number % len(COLOURS)]) + text + numbers({piece for piece, _ in peer.asked})


# Two lines, or three on a narrow terminal.
LEGEND = (
    "keys: f lists the files, q ends", "█ complete", "▒ asked of the peer with that colour", "3 so many peers show it", "! nobody has it",
    "state: c chokes us", "i we are interested", "C we choke it", "I it is interested",
)  # fmt: skip
HEAD = "  peer                  prog  has        down          up   asked  state pieces that are asked for"


def screen(session: Session, head: str, width: int, height: int) -> list[str]:
    """The lines of the whole drawing, no longer than the terminal is wide."""
    peers = sorted(session.peers.values(), key=lambda peer: peer.began)
    rows = max(1, min(height // 2, -(-session.layout.pieces // width)))
    cells = [glyph(cell) for cell in cells_of(session, peers, rows * width)]
    lines = [head[:width], ""]
    lines += ["".join(cells[at : at + width]) for at in range(0, len(cells), width)]
    lines += ["", HEAD[:width]]
    lines += [clip(line_of(peer, number, session.layout.pieces, session.now), width) for number, peer in enumerate(peers)]
    legend = [paint(line[:width], GREY) for line in filled(LEGEND, width)]
    return [*lines[: max(0, height - 2 - len(legend))], "", *legend][: height - 1]


def clip(line: str, width: int) -> str:
    """The line with no more than so many letters, where colours take no room."""
    seen, at = 0, 0
    while at < len(line) and seen < width:
        if line[at] == "\x1b":
            at = line.index("m", at) + 1
        else:
            at, seen = at + 1, seen + 1
    return line[:at] + ("\x1b[0m" if at < len(line) else "")


class Watch:
    """The drawing, again and again on a screen of its own."""

    def __init__(self, stream: TextIO = sys.stderr) -> None:
        self.stream = stream
        self.shows = stream.isatty()
        self._drawn = 0.0
        self._is_open = False

    def is_due(self, now: float) -> bool:
        """Whether it is time to draw again."""
        return self.shows and now - self._drawn >= EACH

    def draw_soon(self) -> None:
        """Something is to be seen at once."""
        self._drawn = 0.0

    def draw(self, session: Session, head: str, chooser: Chooser, rows: Callable[[], list[Row]]) -> None:
        """Draws the whole screen: the pieces and the peers, or the files."""
        self._drawn = session.now
        if not self._is_open:
            self._is_open = True
            self.stream.write("\x1b[?1049h\x1b[?25l\x1b[2J")
        width, height = shutil.get_terminal_size()
        lines = [head[:width], *chooser.lines(rows(), width, height - 1)] if chooser.is_open else screen(session, head, width, height)
        self.stream.write("\x1b[H" + "".join(line + "\x1b[K\r\n" for line in lines) + "\x1b[J")
        self.stream.flush()

    def close(self) -> None:
        """Gives the old screen back."""
        if self._is_open:
            self._is_open = False
            self.stream.write("\x1b[?25h\x1b[?1049l")
            self.stream.flush()
