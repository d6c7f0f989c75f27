"""A seeder that sends wrong bytes, for trials. It has all pieces, unchokes whoever comes, and answers each request."""

from __future__ import annotations

import contextlib
import os
import socket
import sys
import threading
from pathlib import Path

sys.path.insert(0, str(Path(__file__).resolve().parent.parent))

from fetch.wire import Handshake, Inbound, Message, numbers_of, spell, spell_bitfield, spell_block  # noqa: E402

READ = 1 << 16


class Spoiler:
    """Listens where its thread is when it is made."""

    def __init__(self, address: tuple[str, int], infohash: bytes, pieces: int) -> None:
        self.infohash, self.pieces, self.sent = infohash, pieces, 0
        self.listener = socket.create_server(address)
        threading.Thread(target=self._listen, daemon=True).start()

    def _listen(self) -> None:
        with contextlib.suppress(OSError):
            while True:
                connection, _ = self.listener.accept()
                threading.Thread(target=self._serve, args=[connection], daemon=True).start()

    def _serve(self, connection: socket.socket) -> None:
        inbound, greeted = Inbound(self.pieces), False
        with connection, contextlib.suppress(OSError, ValueError):
            while data := connection.recv(READ):
                if not greeted:
                    if inbound.handshake(data) is None:
                        continue
                    connection.sendall(self._greeting())
                    greeted, data = True, b""
                for number, payload in inbound.messages(data):
                    if number == Message.REQUEST:
                        self._spoil(connection, *numbers_of(Message.REQUEST, payload))

    def _greeting(self) -> bytes:
        flags = bytearray(b"\xff" * ((self.pieces + 7) // 8))
        if self.pieces % 8:
            flags[-1] = 0xFF << (8 - self.pieces % 8) & 0xFF
        hand = Handshake(self.infohash, b"-PP0000-" + os.urandom(12), is_fast=False, is_extended=False)
        return hand.spell() + spell_bitfield(bytes(flags)) + spell(Message.UNCHOKE)

    def _spoil(self, connection: socket.socket, piece: int, begin: int, length: int) -> None:
        connection.sendall(spell_block(piece, begin, os.urandom(length)))
        self.sent += length

    def close(self) -> None:
        """No more connections."""
        self.listener.close()
