"""What is said with a peer to get the info dictionary of a magnet link (BEP 9). Nothing here knows of sockets."""

from __future__ import annotations

from collections.abc import Callable

from . import exchange, metadata
from .blame import Address
from .extended import HELLO, Extension, Hello, read_hello, spell_hello
from .metadata import Assembly, Word
from .wire import Handshake, Inbound, Message, WireFault, extended_of, spell

PIECES = 1 << 23  # as many may the peer's bitfield have, since nobody knows yet how many there are
MOST_HEARD = 1 << 18  # bytes that are kept for who goes on with the connection
SHOWS = (Message.BITFIELD, Message.HAVE, Message.HAVE_ALL)


class Asking:
    """One peer. `unsent` is what is to be sent, `info` the dictionary once it is there. `may_begin` bounds the sizes that come at a time."""

    def __init__(
        self, infohash: bytes, peer_id: bytes, may_begin: Callable[[int], bool], on_peers: Callable[[list[Address]], None], has_dht: bool = False
    ) -> None:
        self.infohash, self.peer_id = infohash, peer_id
        self.may_begin, self.on_peers = may_begin, on_peers
        self.inbound = Inbound(PIECES)
        self.unsent = bytearray(Handshake(infohash, peer_id, has_dht=has_dht).spell())
        self._heard = bytearray()
        self.is_greeted = self.is_interested = False
        self.hello = Hello()
        self.assembly: Assembly | None = None
        self.info: bytes | None = None
        self._was_told = False  # of other peers

    @property
    def size(self) -> int:
        """The bytes that are under way, or may be."""
        return self.assembly.size if self.assembly else 0

    @property
    def heard(self) -> bytes | None:
        """All that the peer has said, but for the dictionary and other peers; None where nobody can go on with the connection."""
        if not self.is_greeted or self.unsent or len(self._heard) > MOST_HEARD:
            return None
        return bytes(self._heard) + self.inbound.rest

    def receive(self, data: bytes) -> None:
        """Takes what came. Raises WireFault where the peer doesn't keep to the protocol, or doesn't give the dictionary."""
        if not self.is_greeted:
            handshake = self.inbound.handshake(data)
            if handshake is None:
                return
            self._greet(handshake)
            self._heard += handshake.spell()
            data = b""
        for kind, payload in self.inbound.messages(data):
            if kind == Message.EXTENDED:
                self._hear(*extended_of(payload))
            elif kind in SHOWS and not self.is_interested and (kind != Message.BITFIELD or any(payload)):
                self.is_interested = True  # so that it has unchoked us, or soon does, when the dictionary is there
                self.unsent += spell(Message.INTERESTED)
            if (kind != Message.EXTENDED or payload[0] == HELLO) and len(self._heard) <= MOST_HEARD:
                self._heard += (1 + len(payload)).to_bytes(4, "big") + bytes([kind]) + payload

    def _greet(self, handshake: Handshake) -> None:
        if handshake.infohash != self.infohash:
            raise WireFault("the peer has another torrent")
        if handshake.peer_id == self.peer_id:
            raise WireFault("the peer is this program")
        if not handshake.is_extended:
            raise WireFault("the peer has no extension protocol, so it can't give the info dictionary")
        self.is_greeted = True
        self.unsent += spell_hello([Extension.METADATA, Extension.EXCHANGE])

    def _hear(self, number: int, payload: memoryview) -> None:
        if number == HELLO:
            self.hello = read_hello(payload)
            self.begin()
        elif number == Extension.METADATA:
            self._take(payload)
        elif number == Extension.EXCHANGE and not self._was_told:
            self._was_told = True
            self.on_peers(exchange.read(payload))

    def begin(self) -> None:
        """Asks for the dictionary, where the peer has it and its size is in the bounds. Raises WireFault where it is too large for any."""
        size = self.hello.metadata_size
        if self.assembly or not size or not self.hello.number(Extension.METADATA):
            return
        if size > metadata.LARGEST:
            raise WireFault(f"the peer's info dictionary has {size} bytes")
        if self.may_begin(size):
            self.assembly = Assembly(self.infohash, size)
            self._ask()

    def _ask(self) -> None:
        assert self.assembly
        for piece in self.assembly.next():
            self.unsent += metadata.spell(self.hello.number(Extension.METADATA), Word.REQUEST, piece)

    def _take(self, payload: memoryview) -> None:
        """A piece, or a request of the peer, who is told that there is nothing yet."""
        said = metadata.read(payload)
        if said.word == Word.REQUEST:
            if number := self.hello.number(Extension.METADATA):
                self.unsent += metadata.spell(number, Word.REJECT, said.piece)
        elif self.assembly:
            self.assembly.take(said)
            if self.assembly.is_full:
                self.info = self.assembly.whole()
            else:
                self._ask()
