"""The info dictionary from peers and for them (BEP 9): its messages as bytes, and what is put together of them."""

from __future__ import annotations

import hashlib
from dataclasses import dataclass
from enum import IntEnum

from bencode import BencodeFault, bdecode, bencode

from .spans import end_of
from .wire import WireFault, spell_extended

PIECE = 1 << 14  # bytes of each piece but the last one
AT_ONCE = 6  # pieces that are asked of one peer
LARGEST = 1 << 23  # bytes of an info dictionary: 400,000 pieces


class WrongInfo(WireFault):
    """The peer lied."""


class Word(IntEnum):
    """What a message says (`msg_type`)."""

    REQUEST = 0
    DATA = 1
    REJECT = 2


@dataclass(frozen=True)
class Said:
    """One message: of which piece, and its bytes where it has some."""

    word: int
    piece: int
    data: bytes = b""


def spell(number: int, word: Word, piece: int, size: int = 0, data: bytes = b"") -> bytes:
    """A message, by the receiver's number. With data it says the size of the whole."""
    told = {b"msg_type": int(word), b"piece": piece} | ({b"total_size": size} if word is Word.DATA else {})
    return spell_extended(number, bencode({**told}) + data)


def read(payload: memoryview) -> Said:
    """The message that these bytes are: a dictionary, and behind it the piece. Raises WireFault."""
    whole = bytes(payload)
    try:
        end = end_of(whole)
        told = bdecode(whole[:end])
    except BencodeFault as fault:
        raise WireFault(f"a message on metadata is no bencoded value: {fault}") from fault
    word, piece = (told.get(b"msg_type"), told.get(b"piece")) if isinstance(told, dict) else (None, None)
    if not isinstance(word, int) or not isinstance(piece, int) or piece < 0:
        raise WireFault("a message on metadata has no type or no piece")
    return Said(word, piece, whole[end:])


def pieces_of(size: int) -> int:
    """The pieces of an info dictionary of so many bytes."""
    return -(-size // PIECE)


def answer(number: int, info: bytes, piece: int) -> bytes:
    """The data of a piece, or a reject where there is no such piece."""
    if piece >= pieces_of(len(info)):
        return spell(number, Word.REJECT, piece)
    return spell(number, Word.DATA, piece, len(info), info[piece * PIECE : (piece + 1) * PIECE])


class Assembly:
    """An info dictionary that one peer sends, so that a wrong one is that peer's fault. Room is taken as pieces come, and not as they are told."""

    def __init__(self, infohash: bytes, size: int) -> None:
        if not 0 < size <= LARGEST:
            raise WireFault(f"the peer's info dictionary has {size} bytes")
        self.infohash, self.size = infohash, size
        self.came: dict[int, bytes] = {}
        self.asked: set[int] = set()

    def next(self) -> list[int]:
        """The pieces that are to be asked for now; they count as asked."""
        missing = [piece for piece in range(pieces_of(self.size)) if piece not in self.came and piece not in self.asked]
        new = missing[: max(0, AT_ONCE - len(self.asked))]
        self.asked.update(new)
        return new

    @property
    def is_full(self) -> bool:
        """Whether all pieces are there."""
        return len(self.came) == pieces_of(self.size)

    def take(self, said: Said) -> None:
        """A message of the peer. Raises WireFault where it sends what isn't asked, or rejects."""
        if said.word == Word.REJECT:
            raise WireFault("the peer doesn't give its info dictionary")
        if said.word != Word.DATA:
            return
        if said.piece not in self.asked or len(said.data) != min(PIECE, self.size - said.piece * PIECE):
            raise WireFault("a piece of the info dictionary isn't the one that was asked for")
        self.asked.discard(said.piece)
        self.came[said.piece] = said.data

    def whole(self) -> bytes:
        """The info dictionary. Raises WrongInfo where it has another hash."""
        info = b"".join(data for _, data in sorted(self.came.items()))
        if hashlib.sha1(info, usedforsecurity=False).digest() != self.infohash:
            raise WrongInfo("the peer sent an info dictionary of another hash")
        return info
