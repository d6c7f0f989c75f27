"""A torrent, and seeders of it that behave well or badly. They speak the protocol by their own code, not by the downloader's."""

from __future__ import annotations

import contextlib
import hashlib
import io
import random
import socket
import struct
import subprocess
import sys
import tempfile
import threading
import unittest
from collections.abc import Iterator
from dataclasses import dataclass, field
from pathlib import Path
from typing import Any

from bencode import Value, bencode, metainfo
from fetch import CLIENTS

PIECE = 1 << 16
BLOCK = 1 << 14
CONTENT = random.Random(2).randbytes(40 * PIECE + 12345)
PIECES = 41
CHOKE, UNCHOKE, INTERESTED, NOT_INTERESTED, HAVE, BITFIELD, REQUEST, BLOCK_MESSAGE, CANCEL = range(9)
HAVE_ALL, HAVE_NONE, REJECT, ALLOWED_FAST = 14, 15, 16, 17
EXTENDED = 20
# The files of a torrent of many: an empty one, some inside one piece, and some over many.
FILES: list[tuple[list[bytes], int]] = [
    ([b"a"], 100), ([b"empty"], 0), ([b"sub", b"b"], PIECE), ([b"sub", b"deep", b"c"], 5000), ([b"d"], 20 * PIECE),
    ([b"e"], len(CONTENT) - 21 * PIECE - 5100),
]  # fmt: skip


def single_torrent() -> bytes:
    """The content as one file."""
    return metainfo(b"content", CONTENT, PIECE)


def folder_torrent(files: list[tuple[list[bytes], int]] = FILES) -> bytes:
    """The content as many files."""
    digests = b"".join(hashlib.sha1(CONTENT[at : at + PIECE]).digest() for at in range(0, len(CONTENT), PIECE))
    listed: list[Value] = [{b"length": length, b"path": list(names)} for names, length in files]
    return bencode({b"info": {b"files": listed, b"name": b"folder", b"piece length": PIECE, b"pieces": digests}})


def infohash_of(torrent: bytes) -> bytes:
    """The SHA-1 of the info dictionary, which stands last in these torrents."""
    return hashlib.sha1(torrent[torrent.index(b"4:info") + 6 : -1]).digest()


def flags_of(pieces: range | list[int]) -> bytes:
    """The pieces as a bitfield."""
    flags = bytearray((PIECES + 7) // 8)
    for piece in pieces:
        flags[piece // 8] |= 0x80 >> piece % 8
    return bytes(flags)


@dataclass
class Manners:
    """How a seeder behaves. Numbers of blocks that aren't limited are large."""

    pieces: range = range(PIECES)
    shows: str = "bitfield"  # or haves, late, all
    spoils: int = 0  # blocks that are wrong, from the first on
    ends_after: int = 1 << 30  # blocks, then the connection ends
    mute: bool = False  # answers no request
    rejects: int = 0  # requests, from the first on
    chokes_each: int = 0  # blocks, then it chokes and unchokes again
    delay: float = 0.0  # seconds for each block


@dataclass
class Seeder:
    """A peer on the loopback interface, each connection with a thread of its own."""

    infohash: bytes
    manners: Manners = field(default_factory=Manners)
    content: bytes = CONTENT
    host: str = "127.0.0.1"

    def __post_init__(self) -> None:
        is_six = ":" in self.host
        self.listener = socket.create_server((self.host, 0), family=socket.AF_INET6 if is_six else socket.AF_INET)
        self.address = (f"[{self.host}]" if is_six else self.host) + f":{self.listener.getsockname()[1]}"
        self.haves = self.blocks = self.connections = 0
        self.heard: list[int] = []  # the kinds of messages that came
        threading.Thread(target=self._accept, daemon=True).start()

    def close(self) -> None:
        """No more connections."""
        with contextlib.suppress(OSError):
            self.listener.shutdown(socket.SHUT_RDWR)
        self.listener.close()

    def _accept(self) -> None:
        with contextlib.suppress(OSError):
            while True:
                connection, _ = self.listener.accept()
                self.connections += 1
                threading.Thread(target=self._run, args=[connection], daemon=True).start()

    def _run(self, connection: socket.socket) -> None:
        with connection, connection.makefile("rb") as stream, contextlib.suppress(OSError):
            connection.setsockopt(socket.IPPROTO_TCP, socket.TCP_NODELAY, 1)
            stream.read(68)
            is_fast = self.manners.shows == "all" or self.manners.rejects > 0
            reserved = bytes(7) + (b"\x04" if is_fast else b"\x00")
            connection.sendall(b"\x13BitTorrent protocol" + reserved + self.infohash + random.randbytes(20))
            self._show(connection)
            say(connection, UNCHOKE)
            self._answer_all(connection, stream)

    def _show(self, connection: socket.socket) -> None:
        """Tells the pieces in one of the ways that peers have."""
        pieces = self.manners.pieces
        if self.manners.shows == "bitfield":
            say(connection, BITFIELD, flags_of(pieces))
        elif self.manners.shows == "late":
            say(connection, BITFIELD, flags_of(pieces[::2]))
            say(connection, BITFIELD, flags_of(pieces))
        elif self.manners.shows == "haves":
            for piece in pieces:
                say(connection, HAVE, struct.pack(">I", piece))
        else:
            say(connection, HAVE_ALL)
            say(connection, ALLOWED_FAST, struct.pack(">I", 3))

    def _answer_all(self, connection: socket.socket, stream: io.BufferedReader) -> None:
        for kind, payload in messages(stream):
            self.heard.append(kind)
            if kind == HAVE:
                self.haves += 1
            if kind == REQUEST and not self.manners.mute:
                if self.manners.ends_after <= self.blocks:
                    return
                self._answer(connection, payload)

    def _answer(self, connection: socket.socket, payload: bytes) -> None:
        """Sends a block, or what there is in its place."""
        piece, begin, length = struct.unpack(">III", payload)
        if self.manners.rejects > 0:
            self.manners.rejects -= 1
            say(connection, REJECT, payload)
            return
        self.blocks += 1
        if self.manners.chokes_each and self.blocks % self.manners.chokes_each == 0:
            say(connection, CHOKE)
            say(connection, UNCHOKE)
            return
        threading.Event().wait(self.manners.delay)
        at = piece * PIECE + begin
        block = self.content[at : at + length]
        if self.manners.spoils > 0:
            self.manners.spoils -= 1
            block = bytes(length)
        say(connection, BLOCK_MESSAGE, struct.pack(">II", piece, begin) + block)


def say(connection: socket.socket, kind: int, payload: bytes = b"") -> None:
    """Sends a message."""
    connection.sendall(struct.pack(">IB", 1 + len(payload), kind) + payload)


def messages(stream: io.BufferedReader) -> Iterator[tuple[int, bytes]]:
    """The messages that come."""
    while len(head := stream.read(4)) == 4:
        (length,) = struct.unpack(">I", head)
        if length:
            message = stream.read(length)
            yield message[0], message[1:]


class Downloading(unittest.TestCase):
    """Runs the program in a folder of its own."""

    torrent = single_torrent()
    listens = False

    def setUp(self) -> None:
        folder = tempfile.TemporaryDirectory()
        self.addCleanup(folder.cleanup)
        self.folder = Path(folder.name)
        self.torrent_path, self.out = self.folder / "torrent", self.folder / "out"
        self.torrent_path.write_bytes(self.torrent)
        self.infohash = infohash_of(self.torrent)

    def seeder(self, **manners: Any) -> Seeder:
        """A seeder that is closed at the end of the test."""
        seeder = Seeder(self.infohash, Manners(**manners))
        self.addCleanup(seeder.close)
        return seeder

    def start(self, *words: str, seeders: tuple[Seeder, ...] = ()) -> subprocess.Popen[str]:
        """Starts the program."""
        command = [sys.executable, "-B", "-W", "error", str(Path(CLIENTS, "fetch.py")), "--quiet", "--no-dht"]
        command += [] if self.listens else ["--no-listen"]
        command += ["--figures", *words, str(self.torrent_path), str(self.out), *(seeder.address for seeder in seeders)]
        return subprocess.Popen(command, stdout=subprocess.PIPE, stderr=subprocess.PIPE, text=True)

    def fetch(self, *seeders: Seeder, words: tuple[str, ...] = (), status: int = 0) -> dict[str, str]:
        """Runs it to its end, which has this status; the figures that it prints."""
        process = self.start("--give-up", "1.5" if status else "4", *words, seeders=seeders)
        printed, self.errors = process.communicate(timeout=60)
        self.assertEqual(process.returncode, status, self.errors)
        return dict(line.split() for line in printed.splitlines())

    def assert_same(self) -> None:
        """What was written is the content, and nothing else is left."""
        self.assertEqual(hashlib.sha1(self.out.read_bytes()).digest(), hashlib.sha1(CONTENT).digest())
        self.assertEqual(sorted(path.name for path in self.folder.iterdir()), ["out", "torrent"])
