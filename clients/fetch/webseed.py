"""A web server as a peer (BEP 19): a thread takes requests as peers send them, and answers by ranges of the server's files."""

from __future__ import annotations

import contextlib
import hashlib
import select
import socket
import threading
from collections import OrderedDict, deque
from collections.abc import Callable

from .layout import BLOCK
from .ranges import RangeFault, Ranges
from .wire import HANDSHAKE_LENGTH, Handshake, Inbound, Message, WireFault, numbers_of, spell, spell_head

LONGEST_RUN = 1 << 23  # bytes that one range has
READ = 1 << 16


def peer_id_of(url: str) -> bytes:
    """The number under which a server is a peer."""
    return b"-WS0000-" + hashlib.sha1(url.encode()).digest()[:12]


class WebSeed:
    """The peer of one server. `connection` is its end of a pair of sockets, whose other end is the swarm's."""

    def __init__(self, url: str, ranges: Ranges, infohash: bytes, connection: socket.socket, on_fault: Callable[[str], None]) -> None:
        self.url, self.ranges, self.infohash, self.connection, self.on_fault = url, ranges, infohash, connection, on_fault
        self.inbound = Inbound(ranges.layout.pieces)
        self._poll = select.poll()
        self._poll.register(connection, select.POLLIN)
        self.wanted: OrderedDict[int, int] = OrderedDict()  # of each begin in the content the length
        self.coming: deque[tuple[int, int]] = deque()  # the same of those that the server was asked for
        self._last_run = 0  # bytes of the last range
        self._rest = b""  # the front of a block

    def start(self) -> None:
        """Answers from now on, until the other end is closed or the server doesn't do what it should."""
        threading.Thread(target=self._run, name="web seed", daemon=True).start()

    def _run(self) -> None:
        try:
            with contextlib.suppress(OSError, WireFault):  # the other end is gone
                self._greet()
                while self._listen(self.connection):
                    self._want()
                    self._answer()
        except RangeFault as fault:
            self.on_fault(str(fault))
        finally:
            self.ranges.close()
            self.connection.close()

    def _greet(self) -> None:
        """All pieces are there, and may be asked for."""
        head = b""
        while len(head) < HANDSHAKE_LENGTH:
            data = self.connection.recv(HANDSHAKE_LENGTH - len(head))
            if not data:
                raise ConnectionResetError
            head += data
        hello = Handshake(self.infohash, peer_id_of(self.url), is_fast=True, is_extended=False)
        self.connection.sendall(hello.spell() + spell(Message.HAVE_ALL) + spell(Message.UNCHOKE))

    def _listen(self, connection: socket.socket) -> bool:
        """Takes what came, and waits for something where nothing is to come; whether the other end is there."""
        while not (self.wanted or self.coming) or self._poll.poll(0):
            data = connection.recv(READ)
            if not data:
                return False
            for kind, payload in self.inbound.messages(data):
                if kind == Message.REQUEST:
                    piece, begin, length = numbers_of(Message.REQUEST, payload)
                    self.wanted[piece * self.ranges.layout.piece_length + begin] = length
                elif kind == Message.CANCEL:
                    piece, begin, _ = numbers_of(Message.CANCEL, payload)
                    self.wanted.pop(piece * self.ranges.layout.piece_length + begin, None)
        return True

    def _next_run(self) -> list[tuple[int, int]]:
        """The oldest request, with those that lie behind it one after the other."""
        begin, length = self.wanted.popitem(last=False)
        run, end = [(begin, length)], begin + length
        while end in self.wanted and end - begin < LONGEST_RUN:
            length = self.wanted.pop(end)
            run.append((end, length))
            end += length
        return run

    def _want(self) -> None:
        """One more range, once half of the last one is there: requests of others have come meanwhile, so that ranges stay long."""
        if self.wanted and 2 * self.ranges.left <= self._last_run:
            run = self._next_run()
            self._last_run = sum(length for _, length in run)
            self.ranges.want(run[0][0], self._last_run)
            self.coming.extend(run)

    def _answer(self) -> None:
        """Passes on what came next, as the blocks that were asked for."""
        data = self._rest + self.ranges.read()
        view, at = memoryview(data), 0
        parts: list[bytes | memoryview] = []
        while self.coming and len(data) - at >= self.coming[0][1]:
            begin, length = self.coming.popleft()
            parts += (spell_head(*divmod(begin, self.ranges.layout.piece_length), length), view[at : at + length])
            at += length
        self._rest = data[at:]
        if parts:
            self.connection.sendall(b"".join(parts))


assert LONGEST_RUN % BLOCK == 0
