"""What a metainfo file says beside the pieces: its files, its trackers and its web servers (BEP 3, BEP 12, BEP 19, BEP 27)."""

from __future__ import annotations

import hashlib
from typing import TYPE_CHECKING

from bencode import BencodeFault, Value, bdecode, bencode

from .spans import span_of

if TYPE_CHECKING:
    from piecepick import Picker

MOST_TRACKERS = 50
MOST_WEB_SEEDS = 20
LONGEST_ADDRESS = 4096  # bytes of the address of a tracker or a web server


class MetainfoFault(ValueError):
    """The metainfo file can't be used."""


def read(metainfo: bytes) -> dict[bytes, Value]:
    """The whole dictionary. Raises MetainfoFault."""
    try:
        value = bdecode(metainfo)
    except BencodeFault as fault:
        raise MetainfoFault(f"this is no metainfo file (BEP 3), or a damaged one: {fault}") from fault
    if not isinstance(value, dict):
        raise MetainfoFault("this is no metainfo file (BEP 3): it is no dictionary")
    return value


def info_of(metainfo: bytes) -> bytes:
    """The bytes of the info dictionary, of which the infohash is made; empty where there is none."""
    try:
        return span_of(metainfo, b"info")
    except BencodeFault:
        return b""


def infohash_of(info: bytes) -> bytes:
    """The SHA-1 of the bytes of an info dictionary."""
    return hashlib.sha1(info, usedforsecurity=False).digest()


def metainfo_of(info: bytes, trackers: list[list[str]], web_seeds: list[str]) -> bytes:
    """A metainfo file for an info dictionary, which stays byte for byte as it is."""
    rest: dict[bytes, Value] = {b"announce-list": [[url.encode() for url in tier] for tier in trackers]} if trackers else {}
    late: dict[bytes, Value] = {b"url-list": [url.encode() for url in web_seeds]} if web_seeds else {}
    return bencode(rest)[:-1] + b"4:info" + info + bencode(late)[1:]


def is_private(metainfo: bytes) -> bool:
    """Whether peers may come from the torrent's trackers alone (BEP 27)."""
    info = read(metainfo).get(b"info")
    return isinstance(info, dict) and info.get(b"private") == 1


def named_files(metainfo: bytes) -> list[tuple[list[bytes], int]]:
    """The path and the length of each file, without the torrent's folder, read without the library. Raises MetainfoFault."""
    info = read(metainfo).get(b"info")
    if not isinstance(info, dict):
        raise MetainfoFault("the metainfo file has a missing key: info")
    files, name, length = info.get(b"files"), info.get(b"name"), info.get(b"length")
    if files is None and isinstance(name, bytes) and isinstance(length, int):
        return [([name], length)]
    if not isinstance(files, list) or not files:
        raise MetainfoFault("the metainfo file has a missing key: it names no files")
    return [_named(file) for file in files]


def _named(file: Value) -> tuple[list[bytes], int]:
    path, length = (file.get(b"path"), file.get(b"length")) if isinstance(file, dict) else (None, None)
    names = [name for name in path if isinstance(name, bytes)] if isinstance(path, list) else []
    if not isinstance(path, list) or len(names) != len(path) or not names or not isinstance(length, int) or length < 0:
        raise MetainfoFault("a file of the metainfo file has no path or no length")
    return names, length


def files_of(picker: Picker) -> list[tuple[list[bytes], int]]:
    """The path and the length of each file. The path begins behind the torrent's folder, and that of a single file is its name alone."""
    return [(list(file.path[1:] or file.path), file.length) for file in picker.files]


def is_folder(picker: Picker) -> bool:
    """Whether the files lie in a folder of the torrent's name, be it one or many."""
    return any(len(file.path) > 1 for file in picker.files)


def trackers_of(metainfo: bytes) -> list[list[str]]:
    """The trackers in tiers (BEP 12); the one of BEP 3 is a tier of its own where there is no list."""
    whole = read(metainfo)
    tiers: list[list[str]] = []
    listed = whole.get(b"announce-list")
    if isinstance(listed, list):
        for tier in listed:
            names = [_text(name) for name in tier if isinstance(name, bytes)] if isinstance(tier, list) else []
            tiers.append([name for name in names if name])
    tiers = [tier[:MOST_TRACKERS] for tier in tiers if tier]
    announce = whole.get(b"announce")
    if not tiers and isinstance(announce, bytes) and announce:
        tiers = [[_text(announce)]]
    return tiers[:MOST_TRACKERS]


def web_seeds_of(metainfo: bytes) -> list[str]:
    """The addresses of web servers that have the content (BEP 19): one, or a list of them."""
    listed = read(metainfo).get(b"url-list")
    names = listed if isinstance(listed, list) else [listed or b""]
    found = [_text(name) for name in names if isinstance(name, bytes) and len(name) <= LONGEST_ADDRESS]
    return list(dict.fromkeys(name for name in found if name.lower().startswith(("http://", "https://"))))[:MOST_WEB_SEEDS]


def _text(name: bytes) -> str:
    """An address, which is ASCII; other bytes make it one that nobody answers."""
    return name.decode("ascii", "replace").strip()
