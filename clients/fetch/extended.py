"""Messages of the extension protocol (BEP 10) as bytes: the handshake, and that the sender has a piece no more (`lt_donthave`, BEP 54)."""

from __future__ import annotations

from collections.abc import Collection
from dataclasses import dataclass, field
from enum import IntEnum

from bencode import BencodeFault, Value, bdecode, bencode

from .wire import Message, WireFault, spell_extended

HELLO = 0  # the number of the message that says which others its sender takes, and under which numbers
PROGRAM = b"piecepick"
LONGEST_NAME = 40  # letters of a program's name


class Extension(IntEnum):
    """Our numbers for the messages; each side has its own."""

    EXCHANGE = 1
    METADATA = 2
    DONT_HAVE = 7


NAMES = {Extension.EXCHANGE: b"ut_pex", Extension.METADATA: b"ut_metadata", Extension.DONT_HAVE: b"lt_donthave"}


@dataclass(frozen=True)
class Hello:
    """The handshake of the extension protocol. `numbers` are the sender's, of the messages that it takes and we know."""

    numbers: dict[Extension, int] = field(default_factory=dict)
    port: int = 0  # where the sender listens; 0 where it doesn't say
    metadata_size: int = 0  # bytes of the info dictionary; 0 where the sender doesn't have it
    program: str = ""

    def number(self, extension: Extension) -> int:
        """The sender's number for a message; 0 where it doesn't take it."""
        return self.numbers.get(extension, 0)


def spell_hello(extensions: Collection[Extension], port: int = 0, metadata_size: int = 0) -> bytes:
    """Which messages we take, where we listen, and how long our info dictionary is."""
    told: dict[bytes, Value] = {b"m": {NAMES[extension]: int(extension) for extension in extensions}, b"v": PROGRAM}
    if port:
        told[b"p"] = port
    if metadata_size:
        told[b"metadata_size"] = metadata_size
    return spell_extended(HELLO, bencode(told))


def read_hello(payload: memoryview) -> Hello:
    """What the peer says. Values of another kind count as unsaid. Raises WireFault where these bytes are no such message."""
    try:
        told = bdecode(bytes(payload))
    except BencodeFault as fault:
        raise WireFault(f"an extended handshake is no bencoded value: {fault}") from fault
    messages = told.get(b"m", {}) if isinstance(told, dict) else None
    if not isinstance(told, dict) or not isinstance(messages, dict):
        raise WireFault("an extended handshake is no dictionary of messages")
    numbers = {extension: _number(messages.get(name), 255) for extension, name in NAMES.items()}
    program = told.get(b"v")
    return Hello(
        numbers={extension: number for extension, number in numbers.items() if number},
        port=_number(told.get(b"p"), 65535),
        metadata_size=_number(told.get(b"metadata_size"), 1 << 40),
        program=program[:LONGEST_NAME].decode("utf-8", "replace") if isinstance(program, bytes) else "",
    )


def _number(told: Value | None, most: int) -> int:
    """A number from 1 to the most, or 0."""
    return told if isinstance(told, int) and 0 < told <= most else 0


def spell_dont_have(number: int, piece: int) -> bytes:
    """We have the piece no more. The number is the receiver's."""
    return spell_extended(number, piece.to_bytes(4, "big"))


def read_dont_have(payload: memoryview) -> int:
    """The piece that the peer has no more. Raises WireFault."""
    if len(payload) != 4:
        raise WireFault(f"a message {Message.EXTENDED.name} on a piece has {len(payload)} bytes")
    return int.from_bytes(payload, "big")
