"""Where a bencoded value ends (BEP 3), so that its bytes can be taken as they are."""

from __future__ import annotations

from bencode import DEEPEST, INTEGER, LENGTH, BencodeFault


def end_of(data: bytes, at: int = 0) -> int:
    """The place behind the value that begins there. Raises BencodeFault where no whole value does. Keys aren't looked at."""
    depth = 0
    while True:
        first = data[at : at + 1]
        if first in (b"l", b"d"):
            depth, at = depth + 1, at + 1
        elif first == b"e" and depth:
            depth, at = depth - 1, at + 1
        else:
            at = _scalar_end(data, at)
        if depth == 0:
            return at
        if depth > DEEPEST:
            raise BencodeFault("lists and dictionaries lie too deep in each other")


def _scalar_end(data: bytes, at: int) -> int:
    """The same of an integer or a string."""
    if found := INTEGER.match(data, at):
        return found.end()
    if not (found := LENGTH.match(data, at)):
        raise BencodeFault("no value begins here")
    end = found.end() + int(found[1])
    if end > len(data):
        raise BencodeFault("a string is cut short")
    return end


def span_of(data: bytes, key: bytes) -> bytes:
    """The bytes of the value that a dictionary has for a key. Raises BencodeFault where it has none."""
    at, spelled = 1, b"%d:%s" % (len(key), key)
    if data[:1] != b"d":
        raise BencodeFault("no dictionary begins here")
    while data[at : at + 1] != b"e":
        begin = _scalar_end(data, at)
        end = end_of(data, begin)
        if data[at:begin] == spelled:
            return data[begin:end]
        at = end
    raise BencodeFault("the key is missing")
