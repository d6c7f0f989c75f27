"""What is said with joined peers by the extension protocol: the handshake, the info dictionary, and other peers."""

from __future__ import annotations

from collections.abc import Callable, Iterable
from dataclasses import dataclass, field

from . import exchange, metadata
from .blame import Address
from .extended import HELLO, Extension, read_dont_have, read_hello, spell_dont_have, spell_hello
from .peer import Peer
from .uploads import MOST_UNSENT
from .wire import extended_of


@dataclass
class Extensions:
    """Of one download. `info` is given to who asks for it. Peers are exchanged unless the torrent is private (BEP 27)."""

    info: bytes = b""
    port: int = 0
    exchanges: bool = False
    on_peers: Callable[[list[Address], Address], None] = lambda peers, teller: None
    extensions: list[Extension] = field(init=False)

    def __post_init__(self) -> None:
        self.extensions = [Extension.DONT_HAVE, Extension.METADATA] + ([Extension.EXCHANGE] if self.exchanges else [])

    def greet(self, peer: Peer) -> None:
        """The first message."""
        peer.unsent += spell_hello(self.extensions, self.port, len(self.info))

    def hear(self, peer: Peer, payload: memoryview, now: float) -> int | None:
        """A message of a peer; the piece that it has no more, where it says so. Raises WireFault."""
        number, rest = extended_of(payload)
        if number == HELLO:
            peer.hello = read_hello(rest)
        elif number == Extension.DONT_HAVE:
            return read_dont_have(rest)
        elif number == Extension.METADATA:
            self._give_info(peer, metadata.read(rest))
        elif number == Extension.EXCHANGE and self.exchanges:
            self.on_peers(peer.exchange.take(rest, now), peer.address)
        return None

    def _give_info(self, peer: Peer, said: metadata.Said) -> None:
        """A peer asks for a piece of the info dictionary. Who reads nothing gets no more of it."""
        number = peer.hello.number(Extension.METADATA)
        if not number or said.word != metadata.Word.REQUEST:
            return
        if self.info and len(peer.unsent) < MOST_UNSENT:
            peer.unsent += metadata.answer(number, self.info, said.piece)
        else:
            peer.unsent += metadata.spell(number, metadata.Word.REJECT, said.piece)

    def tell_lost(self, peer: Peer, piece: int) -> None:
        """We have the piece no more. Who doesn't take that message is rejected when it asks."""
        if number := peer.hello.number(Extension.DONT_HAVE):
            peer.unsent += spell_dont_have(number, piece)

    def exchange_peers(self, peers: Iterable[Peer], now: float) -> None:
        """Tells each peer that wants it who else is here, once a minute."""
        if not self.exchanges:
            return
        all_peers = list(peers)
        known = {peer: where for peer in all_peers if (where := peer.listens_at)}
        for peer in all_peers:
            number = peer.hello.number(Extension.EXCHANGE)
            if number and (told := peer.exchange.next((where for other, where in known.items() if other is not peer), now)):
                peer.unsent += exchange.spell(number, *told)
