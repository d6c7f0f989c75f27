"""Which files come, and how urgently: by the command line at first, and by the user's keys later."""

from __future__ import annotations

from typing import TYPE_CHECKING

from .choosing import Row
from .layout import levels_of
from .parts import Parts
from .storage import StorageFault

if TYPE_CHECKING:
    from .serving import Urgent


class Levels:
    """The levels of a download's files. `wanted` are the pieces that are downloaded."""

    def __init__(self, parts: Parts) -> None:
        self.parts = parts
        self.wanted: list[int] = []
        self.pieces = b""
        self.urgent: Urgent | None = None

    def set(self) -> None:
        """Takes the room for the wanted files, and tells the picker. Raises StorageFault where there is no room."""
        parts = self.parts
        parts.storage.prepare(parts.wanted_files)
        self.pieces = levels_of(parts.layout, parts.levels, parts.options.ends_first)
        self.wanted = [piece for piece, level in enumerate(self.pieces) if level > 0]
        parts.picker.set_levels(self.pieces)
        if self.urgent:
            self.urgent.set_own_levels(self.pieces)

    def choose(self, number: int, level: int) -> str:
        """A file gets another level; what the user is told. It stays as it was where the disk has no room."""
        parts, before = self.parts, self.parts.levels[number]
        parts.levels[number] = level
        try:
            self.set()
        except StorageFault as fault:
            parts.levels[number] = before
            self.set()
            return str(fault)
        parts.session.reconsider()
        return f"file {number} is {'left' if level == 0 else f'taken at level {level}'}"

    def rows(self) -> list[Row]:
        """Each file, as it is now."""
        content, layout = self.parts.content, self.parts.layout
        shares = {file.number: 1 - content.missing[file.number] / max(1, len(layout.pieces_of(file))) for file in layout.files}
        return [Row(file, self.parts.levels[file.number], shares[file.number]) for file in layout.files]
