"""The files of a torrent as a list on the screen, in which the user chooses what comes."""

from __future__ import annotations

from collections.abc import Callable, Sequence
from dataclasses import dataclass

from .keys import Key
from .layout import File, printable
from .progress import size

USUAL, NONE = "4", "0"
HELP = ("up and down choose a file", "space takes it or leaves it", "0 to 7 is its level (7 comes first)", "f ends the list", "q the program")


@dataclass(frozen=True)
class Row:
    """A file, its level, and the share of it that is there."""

    file: File
    level: int
    share: float


def filled(parts: Sequence[str], width: int) -> list[str]:
    """The parts in as few lines as there is room for; none is cut in two."""
    lines = [parts[0]]
    for part in parts[1:]:
        if len(lines[-1]) + 2 + len(part) <= width:
            lines[-1] += "  " + part
        else:
            lines.append(part)
    return lines


class Chooser:
    """The list, which is shown or not. `choose` is called with a file's number and its new level; what it says is shown."""

    def __init__(self, files: Sequence[File], choose: Callable[[int, int], str]) -> None:
        self.files, self.choose = files, choose
        self.is_open = self.is_over = False
        self.place = 0
        self.said = ""

    def hit(self, keys: str, levels: dict[int, int]) -> bool:
        """The user has hit these keys; whether there were some."""
        for key in keys:
            if key == Key.QUIT.value:
                self.is_over = True
            elif key == Key.FILES.value:
                self.is_open = not self.is_open
            elif self.is_open:
                self._hit_in_list(key, levels)
        return bool(keys)

    def _hit_in_list(self, key: str, levels: dict[int, int]) -> None:
        number = self.files[self.place].number
        if key in (Key.UP.value, Key.DOWN.value):
            step = 1 if key == Key.DOWN.value else -1
            self.place = min(max(self.place + step, 0), len(self.files) - 1)
        elif key == Key.TOGGLE.value:
            self._set(number, int(NONE if levels[number] else USUAL))
        elif key in "01234567":
            self._set(number, int(key))

    def _set(self, number: int, level: int) -> None:
        self.said = self.choose(number, level)

    def lines(self, rows: Sequence[Row], width: int, height: int) -> list[str]:
        """The part of the list around the chosen file, no larger than the terminal."""
        lines = [*(line[:width] for line in filled(HELP, width)), ""]
        room = max(1, height - len(lines) - 2)
        first = min(max(0, self.place - room // 2), max(0, len(rows) - room))
        for place, row in enumerate(rows[first : first + room], first):
            sign = ">" if place == self.place else " "
            text = f"{sign} {row.file.number:4} level {row.level} {100 * row.share:5.1f}% {size(row.file.length):>9}  {printable(row.file.path)}"
            lines.append(text[:width])
        return [*lines, "", printable(self.said)[:width]][: height - 1]
