#!/usr/bin/python3
"""Plays a torrent by libtorrent-rasterbar: writes the file to the standard output, from its front, as soon as it is there.

usage: player_libtorrent.py FILE.torrent FOLDER HOST PORT RATE SECONDS [--sequential]

Who reads the output takes RATE bytes a second. Each piece of the next SECONDS has the time at which it is wanted as its deadline
(`set_piece_deadline`). All other pieces come the rarest first, or from the front on. All else is as libtorrent has it by default, but that
nothing beside the tracker finds peers, and that none is tried with uTP or encryption: the seeders of the trials have neither.

It needs Debian's package python3-libtorrent, so it runs by Debian's Python.
"""

from __future__ import annotations

import contextlib
import signal
import sys
import threading
import time
from typing import Any, BinaryIO

import libtorrent  # type: ignore[import]  # Debian has no types of it

LOOK = 0.05  # seconds between two looks at what came
TELLS_BYTES = 1  # of `set_piece_deadline`: the piece's bytes are told once they are there
PLAIN = 2  # of the settings of encryption: none
LAST_WORDS = 2.0  # seconds for the tracker to hear of the end


class Shelf:
    """The pieces that came and weren't written yet; and the one that is written next."""

    def __init__(self, count: int) -> None:
        self.count, self.next = count, 0
        self._pieces: dict[int, bytes] = {}
        self._came = threading.Condition()

    def put(self, piece: int, data: bytes) -> None:
        """A piece came."""
        with self._came:
            self._pieces[piece] = data
            self._came.notify_all()

    def has(self, piece: int) -> bool:
        """Whether the piece came, be it written or not."""
        return piece < self.next or piece in self._pieces

    def write(self, handle: int) -> None:
        """Writes all pieces, each as it comes, and closes the output. The reader's pace holds it up."""
        with open(handle, "wb") as file:
            while self.next < self.count:
                self._write_next(file)

    def _write_next(self, file: BinaryIO) -> None:
        with self._came:
            self._came.wait_for(lambda: self.next in self._pieces)
        file.write(self._pieces[self.next])
        file.flush()
        with self._came:
            del self._pieces[self.next]
            self.next += 1


def open_session(host: str, port: str) -> Any:
    """A session that listens at this address."""
    return libtorrent.session({
        "listen_interfaces": f"{host}:{port}", "outgoing_interfaces": host, "enable_dht": False, "enable_lsd": False, "enable_upnp": False,
        "enable_natpmp": False, "enable_outgoing_utp": False, "enable_incoming_utp": False, "in_enc_policy": PLAIN, "out_enc_policy": PLAIN,
        "allow_multiple_connections_per_ip": True, "report_true_downloaded": True,
        "alert_mask": libtorrent.alert.category_t.storage_notification,
    })  # fmt: skip


def add(session: Any, torrent: str, folder: str, is_sequential: bool) -> Any:
    """Begins the download."""
    given = libtorrent.add_torrent_params()
    given.ti, given.save_path = libtorrent.torrent_info(torrent), folder
    given.flags &= ~(libtorrent.torrent_flags.paused | libtorrent.torrent_flags.auto_managed)
    if is_sequential:
        given.flags |= libtorrent.torrent_flags.sequential_download
    return session.add_torrent(given)


def tell_deadlines(handle: Any, shelf: Shelf, piece_seconds: float, seconds: float) -> None:
    """Each piece of the next seconds has to be there when the reader comes to it."""
    place = shelf.next
    for piece in range(place, min(shelf.count, place + 1 + int(seconds / piece_seconds))):
        if not shelf.has(piece):
            handle.set_piece_deadline(piece, int(1000 * piece_seconds * (piece - place)), TELLS_BYTES)


def play(session: Any, handle: Any, shelf: Shelf, piece_seconds: float, seconds: float) -> None:
    """Takes what comes until all is written, and tells the deadlines anew at each step of the reader."""
    writer = threading.Thread(target=shelf.write, args=[sys.stdout.fileno()], daemon=True)
    writer.start()
    place = -1
    while writer.is_alive():
        if shelf.next != place:
            place = shelf.next
            tell_deadlines(handle, shelf, piece_seconds, seconds)
        session.wait_for_alert(int(1000 * LOOK))
        for alert in session.pop_alerts():
            if isinstance(alert, libtorrent.read_piece_alert) and alert.size:
                shelf.put(alert.piece, alert.buffer)


def main() -> None:
    """Plays until it is interrupted, and lets the tracker know of the end."""
    torrent, folder, host, port, rate, seconds, *more = sys.argv[1:]
    session = open_session(host, port)
    handle = add(session, torrent, folder, "--sequential" in more)
    info = handle.torrent_file()
    with contextlib.suppress(KeyboardInterrupt):
        play(session, handle, Shelf(info.num_pieces()), info.piece_length() / float(rate), float(seconds))
        signal.pause()
    session.pause()
    time.sleep(LAST_WORDS)


if __name__ == "__main__":
    main()
