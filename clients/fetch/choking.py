"""Whom to upload to: the quickest peers that are interested, and one by chance (BEP 3; Cohen 2003)."""

from __future__ import annotations

import random
from collections.abc import Hashable
from dataclasses import dataclass

ROUND = 10.0  # seconds between two choices
OPTIMISTIC_ROUNDS = 3  # of them until another peer has the slot by chance
NEW_SECONDS = 60.0  # a connection that is younger is drawn three times as likely
NEW_TICKETS = 3


@dataclass(frozen=True)
class Candidate:
    """An interested peer: its rate towards us, or from us where we only seed, in bytes a second."""

    key: Hashable
    rate: float
    age: float


class Choker:
    """Chooses who is unchoked, round by round."""

    def __init__(self, slots: int, chance: random.Random | None = None) -> None:
        self.slots = slots
        self.chance = chance or random.Random()
        self.optimistic: Hashable = None
        self._rounds_left = 0

    def choose(self, candidates: list[Candidate]) -> set[Hashable]:
        """Who is unchoked until the next round."""
        if self.slots == 0:
            return set()
        ranked = sorted(candidates, key=lambda candidate: -candidate.rate)
        chosen = {candidate.key for candidate in ranked[: self.slots - 1]}
        others = [candidate for candidate in ranked if candidate.key not in chosen]
        self._rounds_left -= 1
        if self._rounds_left <= 0 or all(candidate.key != self.optimistic for candidate in others):
            self.optimistic = self._draw(others)
            self._rounds_left = OPTIMISTIC_ROUNDS
        return chosen if self.optimistic is None else chosen | {self.optimistic}

    def _draw(self, candidates: list[Candidate]) -> Hashable:
        """One of them by chance."""
        if not candidates:
            return None
        tickets = [NEW_TICKETS if candidate.age < NEW_SECONDS else 1 for candidate in candidates]
        return self.chance.choices(candidates, tickets)[0].key
