"""One connection: what was said and asked on both sides, and how fast it goes."""

from __future__ import annotations

import socket
from collections import OrderedDict
from dataclasses import dataclass, field

from piecepick import DepthByRate

from .blame import Address
from .deadlines import Pace
from .exchange import Exchange
from .extended import Hello
from .rate import Rate
from .wire import Inbound, Message, spell

FIRST_DEPTH = 64
FIRST_DEPTH_WEB = 256  # of web servers, whose ranges are to be long
FIRST_DEPTH_READING = 8  # while somebody reads, since a slow peer would keep what the reader waits for
MOST_DEPTH = 500
MOST_LATE = 2000  # requests that are remembered after they were taken back, since their blocks may come
NO_WORKER = -1
ALL_LEVELS = 7  # the reach of a peer, until another one is told


def milliseconds(now: float) -> int:
    """A time, as the rule of depths takes it."""
    return int(1000 * now)


@dataclass(eq=False)
class Peer:
    """A peer. Its worker's number is the picker's; `asked` is what we want of it, and `wants` what it wants of us."""

    connection: socket.socket
    address: Address
    is_incoming: bool
    inbound: Inbound
    began: float
    worker: int = NO_WORKER
    peer_id: bytes = b""
    is_connected: bool = False
    is_fast: bool = False
    is_extended: bool = False
    has_dht: bool = False
    hello: Hello = field(default_factory=Hello)  # what it said by the extension protocol
    exchange: Exchange = field(default_factory=Exchange)
    is_web: bool = False  # a web server, by a peer of this process
    is_alone: bool = False  # it gets whole pieces, so that its ranges are long
    unsent: bytearray = field(default_factory=bytearray)
    events: int = 0  # of the selector

    chokes_us: bool = True
    has_choked: bool = False  # it did so just now, and the picker doesn't know yet
    we_choke: bool = True
    interests_us: bool = False
    is_interested: bool = False
    pieces: bytearray = field(default_factory=bytearray)
    piece_count: int = 0

    asked: OrderedDict[tuple[int, int], float] = field(default_factory=OrderedDict)
    told_late: dict[tuple[int, int], float] = field(default_factory=dict)  # those of `asked` that the picker was told late of, and when
    late: OrderedDict[tuple[int, int], None] = field(default_factory=OrderedDict)
    by_rate: DepthByRate = field(init=False)
    pace: Pace = field(default_factory=Pace)
    reach: int = ALL_LEVELS  # nothing of a higher level is asked of it
    epoch: int = -1  # the picker's, when the peer was asked last; -1 where it is to be asked in any case
    rests_until: float = 0.0
    timeouts: int = 0
    wants: OrderedDict[tuple[int, int, int], None] = field(default_factory=OrderedDict)

    heard: float = 0.0
    said: float = 0.0
    block_came: float = 0.0
    came: int = 0  # bytes of blocks that the rates don't know yet
    down: Rate = field(init=False)
    up: Rate = field(init=False)
    twice: int = 0

    def __post_init__(self) -> None:
        self.by_rate = DepthByRate(milliseconds(self.began), depth=FIRST_DEPTH, deepest=MOST_DEPTH)
        self.down, self.up = Rate(self.began), Rate(self.began)
        self.heard = self.said = self.block_came = self.began

    @property
    def is_joined(self) -> bool:
        """Whether the handshakes were exchanged, so that the picker knows it."""
        return self.worker != NO_WORKER

    @property
    def listens_at(self) -> Address | None:
        """Where others may connect to it; None where that isn't known. Who came to us says its port, or doesn't."""
        if self.is_web:
            return None
        if not self.is_incoming:
            return self.address
        return (self.address[0], self.hello.port) if self.hello.port else None

    @property
    def depth(self) -> int:
        """How many blocks may be asked of the peer at a time."""
        return self.by_rate.depth

    @property
    def program(self) -> str:
        """What the peer's identity says of its program, such as TR3000; empty where it says nothing."""
        head = self.peer_id[:8]
        if head[:1] == b"-" and head[-1:] == b"-" and head[1:-1].isalnum():
            return head[1:-1].decode("ascii")
        return head.split(b"-")[0].decode("ascii") if head[:1].isalpha() and head.replace(b"-", b"").isalnum() else ""

    def begin_with(self, depth: int) -> None:
        """The peer has another depth at first than most."""
        self.by_rate = DepthByRate(milliseconds(self.began), depth=depth, deepest=MOST_DEPTH)

    def say(self, message: Message, *numbers: int) -> None:
        """Puts a message behind what is to be sent."""
        self.unsent += spell(message, *numbers)

    def shows(self, piece: int) -> bool:
        """Whether the peer has said that it has the piece."""
        return bool(self.pieces[piece >> 3] & 0x80 >> (piece & 7))

    def forget(self, block: tuple[int, int]) -> None:
        """A request was taken back; its block may come all the same."""
        if self.asked.pop(block, None) is None:
            return
        self.told_late.pop(block, None)
        self.late[block] = None
        if len(self.late) > MOST_LATE:
            self.late.popitem(last=False)

    def takes(self, block: tuple[int, int]) -> bool:
        """Whether the block was asked for at some time; it is asked for no more."""
        if block in self.asked:
            del self.asked[block]
            self.told_late.pop(block, None)
            return True
        if block in self.late:
            del self.late[block]
            return True
        return False
