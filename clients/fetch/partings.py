"""Why connections to peers came to nothing, or ended."""

from __future__ import annotations

from collections import Counter
from collections.abc import Callable

from .blame import Address
from .layout import printable

MOST = 2000  # addresses that are remembered
MOST_REASONS = 4  # that are told in a line


class Partings:
    """The last reason of each address, and who brought something."""

    def __init__(self) -> None:
        self.reasons: dict[Address, str] = {}
        self.givers: set[Address] = set()
        self._awaited: dict[Address, str] = {}
        self.tell: Callable[[str], None] = lambda line: None  # where each one is told at once

    def say_later(self, address: Address, reason: str) -> None:
        """The true reason of a connection that will end; any thread may say it."""
        self._awaited[address] = reason

    def note(self, address: Address, reason: str, has_given: bool = False) -> None:
        """A connection ended, or none came about. Without a reason it was we who ended."""
        reason = self._awaited.pop(address, reason)
        if has_given and len(self.givers) < MOST:
            self.givers.add(address)
        if not reason:
            return
        self.tell(f"{name_of(address)}: {printable(reason)}")
        if address in self.reasons or len(self.reasons) < MOST:
            self.reasons[address] = reason

    def counted(self) -> dict[str, int]:
        """How many addresses ended with each reason, the most frequent ones first."""
        return dict(Counter(self.reasons.values()).most_common(MOST_REASONS))

    def line(self) -> str:
        """The reasons for a person; empty where no peer was tried."""
        return "; ".join(f"{count} {'peer' if count == 1 else 'peers'}: {printable(reason)}" for reason, count in self.counted().items())


def name_of(address: Address) -> str:
    """An address as users write it. That of a web server is its whole name, with no port."""
    host, port = address
    if port == 0:
        return printable(host)
    return f"[{host}]:{port}" if ":" in host else f"{host}:{port}"
