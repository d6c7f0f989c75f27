"""Bencoded values (BEP 3): writes and reads them, and writes metainfo files."""

from __future__ import annotations

import hashlib
import re

Value = int | bytes | list["Value"] | dict[bytes, "Value"]

DEEPEST = 32  # lists and dictionaries inside each other
INTEGER = re.compile(rb"i(0|-?[1-9][0-9]{0,18})e")
LENGTH = re.compile(rb"(0|[1-9][0-9]{0,9}):")


class BencodeFault(ValueError):
    """The bytes spell no value."""


def bencode(value: Value) -> bytes:
    """The one spelling of a value."""
    if isinstance(value, int):
        return b"i%de" % value
    if isinstance(value, bytes):
        return b"%d:%s" % (len(value), value)
    if isinstance(value, list):
        return b"l" + b"".join(map(bencode, value)) + b"e"
    return b"d" + b"".join(bencode(key) + bencode(value[key]) for key in sorted(value)) + b"e"


def bdecode(data: bytes) -> Value:
    """The value that the bytes spell. Keys may come in any order, since trackers and other programs are careless there."""
    value, end = _value(data, 0, DEEPEST)
    if end != len(data):
        raise BencodeFault("there are bytes behind the value")
    return value


def _value(data: bytes, at: int, depth: int) -> tuple[Value, int]:
    """The value that begins there, and where it ends."""
    if depth == 0:
        raise BencodeFault("lists and dictionaries lie too deep in each other")
    first = data[at : at + 1]
    if first == b"i":
        if not (found := INTEGER.match(data, at)):
            raise BencodeFault("an integer is misspelled")
        return int(found[1]), found.end()
    if first == b"l":
        return _list(data, at + 1, depth)
    if first == b"d":
        return _dictionary(data, at + 1, depth)
    return _string(data, at)


def _string(data: bytes, at: int) -> tuple[bytes, int]:
    if not (found := LENGTH.match(data, at)):
        raise BencodeFault("no value begins here")
    end = found.end() + int(found[1])
    if end > len(data):
        raise BencodeFault("a string is cut short")
    return data[found.end() : end], end


def _list(data: bytes, at: int, depth: int) -> tuple[Value, int]:
    values: list[Value] = []
    while data[at : at + 1] != b"e":
        value, at = _value(data, at, depth - 1)
        values.append(value)
    return values, at + 1


def _dictionary(data: bytes, at: int, depth: int) -> tuple[Value, int]:
    values: dict[bytes, Value] = {}
    while data[at : at + 1] != b"e":
        key, at = _string(data, at)
        if key in values:
            raise BencodeFault("a key comes twice")
        values[key], at = _value(data, at, depth - 1)
    return values, at + 1


def metainfo(name: bytes, content: bytes, piece_length: int) -> bytes:
    """The metainfo file of one file, with pieces of so many bytes, and a tracker that isn't there."""
    digests = b"".join(hashlib.sha1(content[at : at + piece_length]).digest() for at in range(0, len(content), piece_length))
    info: dict[bytes, Value] = {b"name": name, b"length": len(content), b"piece length": piece_length, b"pieces": digests, b"private": 1}
    return bencode({b"announce": b"http://127.0.0.1:9/announce", b"info": info})
