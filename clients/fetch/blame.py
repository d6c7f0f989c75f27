"""Who sent what was wrong, where a piece has another hash.

One peer that brought the whole piece is known at once. Of several, the blocks are remembered by their digests. When the piece is right at
last, each peer that had sent another block for it is known too.
"""

from __future__ import annotations

Address = tuple[str, int]
Sender = Address | None  # None is the disk, from an earlier run

MOST_TRIES = 16  # of one piece that are remembered


class Blame:
    """The pieces that failed, each with the sender and the digest of each of its blocks, once for each time that it failed."""

    def __init__(self) -> None:
        self.suspects: dict[int, list[list[tuple[Sender, bytes]]]] = {}

    def failed(self, piece: int, senders: list[Sender], digests: list[bytes]) -> set[Address]:
        """A piece failed its check: the peer that sent all of it, or nobody yet."""
        if len(set(senders)) == 1 and senders[0] is not None:
            return {senders[0]}
        tries = self.suspects.setdefault(piece, [])
        tries.append(list(zip(senders, digests, strict=True)))
        del tries[:-MOST_TRIES]
        return set()

    def cleared(self, piece: int, digests: list[bytes]) -> set[Address]:
        """The piece is right now, with blocks of these digests: the peers that had sent others for it."""
        liars: set[Address] = set()
        for blocks in self.suspects.pop(piece, []):
            for (sender, was), right in zip(blocks, digests, strict=True):
                if sender is not None and was != right:
                    liars.add(sender)
        return liars
