"""Messages between peers, as bytes (BEP 3, BEP 6, BEP 10). Nothing here knows of sockets or of the picker."""

from __future__ import annotations

import struct
from collections.abc import Iterator
from dataclasses import dataclass
from enum import IntEnum

PROTOCOL = b"\x13BitTorrent protocol"
HANDSHAKE_LENGTH = 68
FAST_BYTE, FAST_BIT = 7, 0x04  # of the reserved bytes (BEP 6)
EXTENDED_BYTE, EXTENDED_BIT = 5, 0x10  # the same (BEP 10)
DHT_BYTE, DHT_BIT = 7, 0x01  # the same (BEP 5)
KEEPALIVE = bytes(4)
SHORTEST_LIMIT = 1 << 15  # bytes; a block message has 16 KiB and 9
_HEAD = struct.Struct(">IB")
_NUMBERS = {count: struct.Struct(f">{count}I") for count in range(4)}


class Message(IntEnum):
    """The first byte of a message."""

    CHOKE = 0
    UNCHOKE = 1
    INTERESTED = 2
    NOT_INTERESTED = 3
    HAVE = 4
    BITFIELD = 5
    REQUEST = 6
    PIECE = 7
    CANCEL = 8
    PORT = 9
    SUGGEST = 13
    HAVE_ALL = 14
    HAVE_NONE = 15
    REJECT = 16
    ALLOWED_FAST = 17
    EXTENDED = 20


# The numbers of 32 bits in each message that has nothing else.
NUMBERS = {
    Message.CHOKE: 0, Message.UNCHOKE: 0, Message.INTERESTED: 0, Message.NOT_INTERESTED: 0, Message.HAVE: 1, Message.REQUEST: 3,
    Message.CANCEL: 3, Message.SUGGEST: 1, Message.HAVE_ALL: 0, Message.HAVE_NONE: 0, Message.REJECT: 3, Message.ALLOWED_FAST: 1,
}  # fmt: skip


class WireFault(ValueError):
    """The peer doesn't keep to the protocol."""


def spell(message: Message, *numbers: int) -> bytes:
    """A message that has nothing but numbers."""
    return _HEAD.pack(1 + 4 * len(numbers), message) + _NUMBERS[len(numbers)].pack(*numbers)


def spell_bitfield(flags: bytes) -> bytes:
    """A `bitfield` message."""
    return _HEAD.pack(1 + len(flags), Message.BITFIELD) + flags


def spell_head(piece: int, begin: int, length: int) -> bytes:
    """What stands in front of a block of so many bytes in a `piece` message."""
    return _HEAD.pack(9 + length, Message.PIECE) + _NUMBERS[2].pack(piece, begin)


def spell_block(piece: int, begin: int, block: bytes) -> bytes:
    """A `piece` message."""
    return spell_head(piece, begin, len(block)) + block


def spell_extended(number: int, payload: bytes) -> bytes:
    """A message of the extension protocol, by its receiver's number for it."""
    return _HEAD.pack(2 + len(payload), Message.EXTENDED) + bytes([number]) + payload


def spell_port(port: int) -> bytes:
    """A `port` message: where our node of the DHT is."""
    return _HEAD.pack(3, Message.PORT) + port.to_bytes(2, "big")


def port_of(payload: memoryview) -> int:
    """The port of a `port` message."""
    if len(payload) != 2:
        raise WireFault(f"a message {Message.PORT.name} has {len(payload)} bytes")
    return int.from_bytes(payload, "big")


def extended_of(payload: memoryview) -> tuple[int, memoryview]:
    """Our number for a message of the extension protocol, and what it has."""
    if not payload:
        raise WireFault("an extended message has no number")
    return payload[0], payload[1:]


def numbers_of(message: Message, payload: memoryview) -> tuple[int, ...]:
    """The numbers of a message that has nothing else."""
    count = NUMBERS[message]
    if len(payload) != 4 * count:
        raise WireFault(f"a message {message.name} has {len(payload)} bytes")
    return _NUMBERS[count].unpack(payload)


def block_of(payload: memoryview) -> tuple[int, int, memoryview]:
    """The piece, the begin and the bytes of a `piece` message."""
    if len(payload) < 8:
        raise WireFault("a piece message is too short")
    piece, begin = _NUMBERS[2].unpack(payload[:8])
    return piece, begin, payload[8:]


@dataclass(frozen=True)
class Handshake:
    """The first 68 bytes of a connection."""

    infohash: bytes
    peer_id: bytes
    is_fast: bool = True
    is_extended: bool = True
    has_dht: bool = False

    def spell(self) -> bytes:
        """Its bytes."""
        reserved = bytearray(8)
        if self.is_fast:
            reserved[FAST_BYTE] |= FAST_BIT
        if self.is_extended:
            reserved[EXTENDED_BYTE] |= EXTENDED_BIT
        if self.has_dht:
            reserved[DHT_BYTE] |= DHT_BIT
        return PROTOCOL + bytes(reserved) + self.infohash + self.peer_id


def read_handshake(data: bytes) -> Handshake:
    """The handshake that these 68 bytes are."""
    if data[: len(PROTOCOL)] != PROTOCOL:
        raise WireFault("no handshake of this protocol")
    reserved = data[20:28]
    return Handshake(
        data[28:48], data[48:68], bool(reserved[FAST_BYTE] & FAST_BIT), bool(reserved[EXTENDED_BYTE] & EXTENDED_BIT),
        bool(reserved[DHT_BYTE] & DHT_BIT),
    )  # fmt: skip


class Inbound:
    """The bytes that come from a peer, cut into a handshake and messages."""

    def __init__(self, pieces: int) -> None:
        self.limit = max(SHORTEST_LIMIT, 1 + (pieces + 7) // 8)
        self.rest = b""

    def handshake(self, data: bytes) -> Handshake | None:
        """Takes what came; the handshake once it is whole. Raises WireFault as soon as it can't become one."""
        self.rest += data
        if not PROTOCOL.startswith(self.rest[: len(PROTOCOL)]):
            raise WireFault("no handshake of this protocol")
        if len(self.rest) < HANDSHAKE_LENGTH:
            return None
        head, self.rest = self.rest[:HANDSHAKE_LENGTH], self.rest[HANDSHAKE_LENGTH:]
        return read_handshake(head)

    def messages(self, data: bytes) -> Iterator[tuple[int, memoryview]]:
        """Takes what came, and gives the messages that are whole, without keepalives. Raises WireFault at one that is too long."""
        if self.rest:
            data = self.rest + data
            self.rest = b""
        view, at, end = memoryview(data), 0, len(data)
        while end - at >= 4:
            length = int.from_bytes(view[at : at + 4], "big")
            if length > self.limit:
                raise WireFault(f"a message has {length} bytes")
            if end - at - 4 < length:
                break
            at += 4 + length
            if length:
                yield data[at - length], view[at - length + 1 : at]
        self.rest = data[at:]
