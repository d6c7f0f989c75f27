"""Gives the files to a player on this machine while they come (HTTP, with ranges as in RFC 9110)."""

from __future__ import annotations

import contextlib
import http.server
import itertools
import mimetypes
import re
import threading
from collections.abc import Callable, Iterable
from html import escape
from urllib.parse import quote

from .content import Content
from .deadlines import Deadlines
from .layout import File, printable
from .peer import ALL_LEVELS
from .session import Session

HOST = "127.0.0.1"
# The levels of what is before a reader, each as far as so many bytes. A film of 8 Mbit/s takes 1 MB a second.
NEAREST = 2 << 20  # at level 7: two seconds of it, which is what the lines of most peers take
NEAR = 8 << 20  # at level 6: eight seconds, so that the next pieces of one reader go before what another one needs later
AHEAD = 32 << 20  # at level 5: half a minute, in which a peer that falls silent is noticed, and others are asked
WIDTHS = ((5, AHEAD), (6, NEAR), (7, NEAREST))
LEAST_AHEAD = 2  # pieces at the highest level, where pieces are long
URGENT = 5  # the least level of what comes in order, and from quick peers alone
LOOK = 1.0  # seconds between two looks at which peers are quick
SOON = 0.1  # seconds between two looks at what readers wait for
CHUNK = 1 << 18  # bytes
WAIT = 0.5  # seconds between two looks at whether the program ends
RANGE = re.compile(r"bytes=(\d*)-(\d*)")


def levels_before(pieces: range, piece_length: int) -> dict[int, int]:
    """The levels of these pieces for a reader that needs the first one next, by how near they are."""
    levels: dict[int, int] = {}
    for level, width in WIDTHS:
        levels.update(dict.fromkeys(pieces[: max(LEAST_AHEAD, width // piece_length)], level))
    return levels


class Gate:
    """Lets readers wait for pieces, and lets the loop know where they are."""

    def __init__(self, content: Content, wake: Callable[[], None]) -> None:
        self.content, self.wake = content, wake
        self.is_closed = False
        self.ahead: dict[int, int] = {}  # of each piece before a reader the level; another object after each move
        self._came = threading.Condition()
        self._places: dict[int, range] = {}  # of each reader the pieces that it needs, from the next one on
        self._numbers = itertools.count()

    def enter(self) -> int:
        """A number for a new reader."""
        return next(self._numbers)

    def wait(self, reader: int, pieces: range) -> bool:
        """Waits until the first of these pieces is had; False where the program ends."""
        with self._came:
            if self._places.get(reader) != pieces:
                self._places[reader] = pieces
                self._look_ahead()
                self.wake()
            while not self.content.has(pieces[0]):
                if self.is_closed:
                    return False
                self._came.wait(WAIT)
        return not self.is_closed

    def awaited(self) -> set[int]:
        """The pieces that readers need next, and that aren't had: two for each of them."""
        with self._came:
            near = [pieces[: max(LEAST_AHEAD, NEAREST // self.content.layout.piece_length)] for pieces in self._places.values()]
        return {piece for pieces in near for piece in itertools.islice(itertools.filterfalse(self.content.has, pieces), LEAST_AHEAD)}

    def leave(self, reader: int) -> None:
        """The reader has what it wanted, or is gone."""
        with self._came:
            if self._places.pop(reader, None):
                self._look_ahead()

    def came(self) -> None:
        """A piece is had."""
        with self._came:
            self._came.notify_all()

    def close(self) -> None:
        """Sends all readers away."""
        self.is_closed = True
        self.came()

    def _look_ahead(self) -> None:
        """A piece before several readers has the level for the nearest of them."""
        ahead: dict[int, int] = {}
        for pieces in self._places.values():
            for piece, level in levels_before(pieces, self.content.layout.piece_length).items():
                ahead[piece] = max(level, ahead.get(piece, 0))
        self.ahead = ahead


class Urgent:
    """Follows the readers: what is before them comes first, in order, and from peers that bring it in time. All else is as the user said."""

    def __init__(self, gate: Gate, session: Session, levels: bytes, in_order: bool) -> None:
        self.gate, self.session, self.levels, self.in_order = gate, session, levels, in_order
        self.raised: dict[int, int] = {}
        self.deadlines = Deadlines()
        self._told = bits_of((piece for piece, level in enumerate(levels) if level >= URGENT), len(session.content.had))
        self._looked = self._hurried = 0.0

    def tick(self) -> None:
        """Tells the picker what is another than before."""
        ahead, before = self.gate.ahead, self.raised
        comes_or_goes = bool(ahead) != bool(before)  # the first reader, or the last one
        if comes_or_goes:
            self._set_order(bool(ahead))
            self.session.set_reading(bool(ahead))
        if ahead is not before:
            self._set_levels(ahead)
        if comes_or_goes or (ahead and self.session.now - self._looked >= LOOK):
            self._looked = self.session.now
            self._set_reaches()
        if ahead and self.session.now - self._hurried >= SOON:
            self._hurried = self.session.now
            self.session.hurry(self.gate.awaited())

    def set_own_levels(self, levels: bytes) -> None:
        """The pieces have other levels of their own, which the picker was told; those before readers are raised again."""
        self.levels = levels
        self._told = bits_of((piece for piece, level in enumerate(levels) if level >= URGENT), len(self.session.content.had))
        for piece in self.raised:
            self.session.picker.set_level(piece, self._level(piece))

    def _set_order(self, has_reader: bool) -> None:
        """The newest of these two calls holds."""
        if has_reader:
            self.session.picker.set_in_order_from(URGENT)
        else:
            self.session.picker.set_in_order(self.in_order)

    def _level(self, piece: int) -> int:
        """The level that a piece has now: its own, or a higher one before a reader."""
        return max(self.levels[piece], self.raised.get(piece, 0))

    def _set_levels(self, ahead: dict[int, int]) -> None:
        """Other pieces are before the readers, and those that were get their own level back."""
        touched = self.raised.keys() | ahead.keys()
        before = {piece: self._level(piece) for piece in touched}
        self.raised = ahead
        others = [piece for piece in touched if self._level(piece) != before[piece]]
        for piece in others:
            self.session.picker.set_level(piece, self._level(piece))
        if others:
            self.session.reconsider()

    def _set_reaches(self) -> None:
        """Slow peers get nothing urgent while somebody reads."""
        if self.raised:
            late = self.deadlines.judge(self.session.lines(), self._missing())
        else:
            late, self.deadlines = set(), Deadlines()
        for peer in self.session.peers.values():
            self.session.set_reach(peer, URGENT - 1 if peer in late else ALL_LEVELS)

    def _missing(self) -> int:
        """A bit for each urgent piece that isn't had, as in a `bitfield` message. Some are so by the level that the user told."""
        had = self.session.content.had
        return (self._told | bits_of(self.raised, len(had))) & ~int.from_bytes(had, "big")


def bits_of(pieces: Iterable[int], length: int) -> int:
    """The bits of these pieces, of flags that are so many bytes long."""
    flags = bytearray(length)
    for piece in pieces:
        flags[piece >> 3] |= 0x80 >> (piece & 7)
    return int.from_bytes(flags, "big")


class WrongRange(Exception):
    """A range that isn't in the file."""


def range_of(header: str | None, length: int) -> tuple[int, int] | None:
    """The first byte of a range and the one behind its last; None where the whole file is meant. Raises WrongRange."""
    found = RANGE.fullmatch(header.strip()) if header else None
    if found is None or found[1] == found[2] == "":
        return None
    if found[1] == "":
        begin, end = max(0, length - int(found[2])), length
    else:
        begin, end = int(found[1]), min(length, int(found[2]) + 1 if found[2] else length)
        if found[2] and int(found[2]) < begin:
            return None
    if begin >= length or begin >= end:
        raise WrongRange
    return begin, end


class Handler(http.server.BaseHTTPRequestHandler):
    """Answers one player."""

    protocol_version = "HTTP/1.1"
    timeout = 60
    server: Server

    def do_GET(self) -> None:
        """A file, a part of it, or the list of files."""
        self._answer(with_body=True)

    def do_HEAD(self) -> None:
        """What GET would answer, without the bytes."""
        self._answer(with_body=False)

    def _answer(self, with_body: bool) -> None:
        # Another name would be that of a page elsewhere, which leads a browser here.
        host = self.headers.get("Host", HOST).rpartition(":")[0] or self.headers.get("Host", HOST)
        if host not in (HOST, "localhost"):
            self._say(403, b"this is for players on this machine\n", with_body)
            return
        if self.path == "/":
            self._say(200, self.server.index(), with_body, "text/html; charset=utf-8")
            return
        number = self.path.strip("/").partition("/")[0]
        file = self.server.files.get(int(number)) if number.isascii() and number.isdigit() and len(number) < 10 else None
        if file is None:
            self._say(404, b"there is no such file\n", with_body)
            return
        self._give(file, with_body)

    def _say(self, status: int, body: bytes, with_body: bool, kind: str = "text/plain") -> None:
        self.send_response(status)
        self.send_header("Content-Type", kind)
        self.send_header("Content-Length", str(len(body)))
        self.end_headers()
        if with_body:
            self.wfile.write(body)

    def _give(self, file: File, with_body: bool) -> None:
        """A file or a part of it."""
        try:
            wanted = range_of(self.headers.get("Range"), file.length)
        except WrongRange:
            self.send_response(416)
            self.send_header("Content-Range", f"bytes */{file.length}")
            self.send_header("Content-Length", "0")
            self.end_headers()
            return
        begin, end = wanted or (0, file.length)
        self.send_response(206 if wanted else 200)
        self.send_header("Content-Type", mimetypes.guess_type(file.path)[0] or "application/octet-stream")
        self.send_header("Accept-Ranges", "bytes")
        if wanted:
            self.send_header("Content-Range", f"bytes {begin}-{end - 1}/{file.length}")
        self.send_header("Content-Length", str(end - begin))
        self.end_headers()
        if with_body:
            with contextlib.suppress(ConnectionError, TimeoutError):
                self.server.copy(file, begin, end, self.wfile.write)

    def log_message(self, format: str, *arguments: object) -> None:
        """Nothing is logged: the terminal is for the progress."""


class Server(http.server.ThreadingHTTPServer):
    """The files of a download, by their numbers."""

    daemon_threads = True

    def __init__(self, port: int, gate: Gate) -> None:
        super().__init__((HOST, port), Handler)
        self.gate = gate
        self.content = gate.content
        self.files = {file.number: file for file in gate.content.layout.files}
        self.url = f"http://{HOST}:{self.server_address[1]}/"

    def start(self) -> None:
        """Answers from now on, in threads of its own."""
        threading.Thread(target=self.serve_forever, args=[WAIT], name="serve", daemon=True).start()

    def index(self) -> bytes:
        """A page with the files."""
        links = [(f"/{file.number}/{quote(file.path, errors='replace')}", escape(printable(file.path))) for file in self.files.values()]
        lines = [f'<li><a href="{link}">{name}</a>' for link, name in links]
        return ("<!doctype html><meta charset=utf-8><title>Files</title><ol>" + "\n".join(lines) + "</ol>\n").encode()

    def copy(self, file: File, begin: int, end: int, write: Callable[[bytes], object]) -> None:
        """Writes a part of a file, as its pieces are had."""
        layout, reader = self.content.layout, self.gate.enter()
        at, stop = file.begin + begin, file.begin + end
        last = (stop - 1) // layout.piece_length
        try:
            while at < stop:
                piece = at // layout.piece_length
                if not self.gate.wait(reader, range(piece, last + 1)):
                    return
                length = min(stop, (piece + 1) * layout.piece_length) - at
                for part in self.content.storage.chunks(at, length, CHUNK):
                    write(bytes(part))
                at += length
        finally:
            self.gate.leave(reader)

    def handle_error(self, request: object, client_address: object) -> None:
        """A player that goes away is no matter."""

    def close(self) -> None:
        """Ends."""
        self.gate.close()
        self.shutdown()
        self.server_close()
