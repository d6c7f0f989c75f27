"""What peers ask of us: their requests wait in a line, and are answered as fast as the connection takes it."""

from __future__ import annotations

from .content import Content
from .limits import Limit
from .peer import Peer
from .wire import Message, WireFault, spell_block

LONGEST_REQUEST = 1 << 17  # bytes
MOST_REQUESTS = 1 << 14  # that wait at a peer: rtorrent has thousands where it is quick
MOST_UNSENT = 1 << 18  # bytes that wait to be sent, before no further block is read from the disk


class Uploads:
    """Answers the requests of unchoked peers."""

    def __init__(self, content: Content, limit: Limit | None = None) -> None:
        self.content = content
        self.limit = limit or Limit(None)
        self.total = 0
        self.refused = 0

    def request(self, peer: Peer, piece: int, begin: int, length: int) -> None:
        """A peer asks for a part of a piece. What can't be given is rejected, where the peer understands that. Raises WireFault."""
        wanted = (piece, begin, length)
        layout = self.content.layout
        is_there = piece < layout.pieces and self.content.has(piece) and begin + length <= layout.length_of(piece)
        if peer.we_choke or not is_there or not 0 < length <= LONGEST_REQUEST:
            self._reject(peer, wanted)
        elif len(peer.wants) < MOST_REQUESTS:
            peer.wants[wanted] = None
        elif peer.is_fast:
            self._reject(peer, wanted)
        else:
            # It would wait for ever for what isn't answered.
            raise WireFault("the peer asks for too much at once")

    def cancel(self, peer: Peer, piece: int, begin: int, length: int) -> None:
        """The peer wants it no more."""
        if (piece, begin, length) in peer.wants:
            del peer.wants[piece, begin, length]
            self._reject(peer, (piece, begin, length))

    def _reject(self, peer: Peer, wanted: tuple[int, int, int]) -> None:
        self.refused += 1
        if peer.is_fast:
            peer.say(Message.REJECT, *wanted)

    def serve(self, peer: Peer, now: float) -> None:
        """Reads what the peer wants, until enough waits to be sent. Raises StorageFault where the file of a piece that was had is gone."""
        while peer.wants and len(peer.unsent) < MOST_UNSENT and self.limit.allows(now):
            (piece, begin, length), _ = peer.wants.popitem(last=False)
            block = self._read(piece, begin, length)
            if block is None:
                self._reject(peer, (piece, begin, length))
                continue
            peer.unsent += spell_block(piece, begin, block)
            peer.up.add(length, now)
            self.limit.take(length)
            self.total += length

    def _read(self, piece: int, begin: int, length: int) -> bytearray | None:
        """A part of a piece. One that can't be read is lost, and has no part."""
        if not self.content.has(piece):
            return None
        try:
            return self.content.storage.read(piece * self.content.layout.piece_length + begin, length)
        except OSError:
            self.content.lose(piece)
            return None

    def choke(self, peer: Peer) -> None:
        """The peer gets nothing for now; what it waits for is rejected."""
        if peer.we_choke:
            return
        peer.we_choke = True
        peer.say(Message.CHOKE)
        for wanted in peer.wants:
            self._reject(peer, wanted)
        peer.wants.clear()

    def unchoke(self, peer: Peer) -> None:
        """The peer may ask."""
        if peer.we_choke:
            peer.we_choke = False
            peer.say(Message.UNCHOKE)
