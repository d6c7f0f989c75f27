"""The rules of the picker as a plain model: what the calls so far say, in sets and lists, and the one reply that each line of a script has.

It is written from the rules (README.md, `piecepick script --help` and crates/bt_history/specs), and not from the picker's code. It is slow
and short on purpose: each question is answered by looking at every block.
"""

from __future__ import annotations

import hashlib
from collections.abc import Callable
from dataclasses import dataclass, field
from typing import Any, NamedTuple

BLOCK_SIZE = 16384
USUAL_LEVEL = 4
MOST_LEVEL = 7
MOST_WORKERS = 1024
MOST_DEPTH = 64
MOST_TOLD_DEPTH = 4096
MOST_OPEN = 1024
MOST_PIECE_LENGTH = 2**31

NOT_JOINED, ALREADY_JOINED, LATE_BITS, WRONG_COUNT, NO_SUCH_PIECE, NO_SUCH_BLOCK = range(1, 7)
WRONG_LENGTH, NOT_WAITING, STALE, NOT_ASKED, WRONG_DEPTH, WRONG_LEVEL = range(7, 13)

IN_ORDER, BEGUN, RAREST, RANDOM, ENDGAME, LATE = range(1, 7)


class NotALine(Exception):
    """The text is no line of a script of this torrent."""


class Refused(Exception):
    """The call isn't allowed, for the reason of this number."""


class Block(NamedTuple):
    """A block by its piece, the byte of the piece at which it begins, and its length."""

    piece: int
    begin: int
    length: int

    def __str__(self) -> str:
        return f"{self.piece} {self.begin} {self.length}"


@dataclass(frozen=True)
class Rules:
    """Blocks that may be in flight at a peer, pieces at random, peers of one block in endgame, the greatest depth that may be told, and how
    many pieces may be open before begun ones come first: with 0 they always do. In endgame a block is requested again only of a peer with
    fewer than `rush` in flight. With `shown` endgame waits only for pieces that a connected peer shows."""

    depth: int = 5
    random: int = 1
    askers: int = MOST_WORKERS
    deepest: int = MOST_DEPTH
    open: int = 0
    rush: int = MOST_TOLD_DEPTH
    shown: bool = False


@dataclass(frozen=True)
class Torrent:
    """A content that is cut into pieces, with the SHA-1 of each."""

    piece_length: int
    total: int
    hashes: tuple[bytes, ...]

    def blocks(self) -> list[list[Block]]:
        """The blocks of each piece, in order."""
        return [self.blocks_of(piece) for piece in range(len(self.hashes))]

    def blocks_of(self, piece: int) -> list[Block]:
        """The blocks of one piece, in order."""
        length = min(self.piece_length, self.total - piece * self.piece_length)
        return [Block(piece, begin, min(BLOCK_SIZE, length - begin)) for begin in range(0, length, BLOCK_SIZE)]


@dataclass
class Peer:
    """What is known of the peer of one worker."""

    joined: bool = False
    late: bool = False
    opened: bool = False
    depth: int | None = None
    reach: int = MOST_LEVEL
    alone: bool = False
    shows: set[int] = field(default_factory=set)
    asked: list[Block] = field(default_factory=list)
    overdue: set[Block] = field(default_factory=set)
    due: list[Block] = field(default_factory=list)

    def give_up(self, blocks: list[Block]) -> None:
        """These are in flight at it no more."""
        self.asked = [block for block in self.asked if block not in blocks]
        self.overdue.difference_update(blocks)

    def free(self) -> None:
        """All that is in flight at it is taken back, and so are the cancels that it is owed."""
        self.asked.clear()
        self.overdue.clear()
        self.due.clear()

    def renew(self, joined: bool) -> None:
        """The worker's next peer joins, or its peer is gone."""
        self.joined, self.late, self.opened, self.depth, self.reach = joined, False, False, None, MOST_LEVEL
        self.alone = False
        self.shows = set()
        self.free()


class Model:
    """All that a history says, and what is replied to its next call."""

    def __init__(self, torrent: Torrent, workers: int, rules: Rules, with_losses: bool = False) -> None:
        self.forms = {**FORMS, **LOSSES} if with_losses else FORMS
        self.torrent = torrent
        self.rules = rules
        self.peers = [Peer() for _ in range(workers)]
        self.blocks = torrent.blocks()
        self.pieces = len(self.blocks)
        self.held: dict[Block, bytes] = {}
        self.senders: dict[Block, Peer] = {}
        self.had: set[int] = set()
        self.levels = [USUAL_LEVEL] * self.pieces
        self.order_from = MOST_LEVEL + 1

    # ---- what the calls so far say

    def expected(self) -> set[Block]:
        """The blocks that are in flight at some peer that isn't late with them."""
        return {block for peer in self.peers for block in peer.asked if block not in peer.overdue}

    def askers(self, block: Block) -> int:
        """At how many peers that aren't late with it the block is in flight."""
        return sum(block in peer.asked and block not in peer.overdue for peer in self.peers)

    def is_full(self, piece: int) -> bool:
        """Whether each block of the piece is held."""
        return all(block in self.held for block in self.blocks[piece])

    def waits(self, piece: int) -> bool:
        """Whether the piece is full, and wasn't found to have its hash yet."""
        return self.is_full(piece) and piece not in self.had

    def is_interesting(self, peer: Peer) -> bool:
        """Whether the peer shows a wanted piece that isn't complete."""
        return any(self.levels[piece] > 0 and piece not in self.had for piece in peer.shows)

    def availability(self, piece: int) -> int:
        """How many connected peers show the piece."""
        return sum(peer.joined and piece in peer.shows for peer in self.peers)

    # ---- whose a piece is

    def is_sole(self, peer: Peer, piece: int) -> bool:
        """Whether nobody else brought a block of the piece, or is expected to."""
        others = [other for other in self.peers if other is not peer]
        return not any(
            self.senders[block] is not peer if block in self.held else any(block in other.asked and block not in other.overdue for other in others)
            for block in self.blocks[piece]
        )

    def is_own(self, peer: Peer, piece: int, begun: set[int]) -> bool:
        """Whether the begun piece is the peer's own: it works alone and lets itself be asked, and nobody else has to do with the piece."""
        return peer.alone and peer.opened and piece in begun and self.is_sole(peer, piece)

    def takes_part(self, peer: Peer, piece: int, begun: set[int]) -> bool:
        """Whether the peer may take part in the piece."""
        return self.is_sole(peer, piece) if peer.alone else not any(self.is_own(other, piece, begun) for other in self.peers)

    # ---- what is requested next

    def is_pipe_full(self, peer: Peer) -> bool:
        """Whether as many blocks as may be are in flight at the peer."""
        return len(peer.asked) >= (self.rules.depth if peer.depth is None else peer.depth)

    def fitting(self, peer: Peer, expected: set[Block]) -> list[Block]:
        """The wanted blocks that the peer has, within its reach, which are neither held nor expected of anybody. A late block is none for the
        peers at which it is in flight. Neither is one of a piece that the peer may take no part in."""
        begun = self.begun(expected)
        return [
            block
            for piece in peer.shows
            if 0 < self.levels[piece] <= peer.reach and self.takes_part(peer, piece, begun)
            for block in self.blocks[piece]
            if block not in self.held and block not in expected and block not in peer.asked
        ]

    def usable(self, peer: Peer, expected: set[Block]) -> list[Block]:
        """Of these blocks just the highest level."""
        found = self.fitting(peer, expected)
        highest = max((self.levels[block.piece] for block in found), default=0)
        return [block for block in found if self.levels[block.piece] == highest]

    def begun(self, expected: set[Block]) -> set[int]:
        """The pieces that aren't complete, and of which a block is held or expected."""
        return {block.piece for block in expected.union(self.held)} - self.had

    def open_pieces(self, expected: set[Block]) -> list[int]:
        """The wanted pieces that have begun, and of which a block is neither held nor expected."""
        requested = expected.union(self.held)
        return [piece for piece in self.begun(expected) if self.levels[piece] > 0 and not requested.issuperset(self.blocks[piece])]

    def rarest(self, blocks: list[Block]) -> list[Block]:
        """Those of these blocks whose pieces fewest peers show."""
        fewest = min((self.availability(block.piece) for block in blocks), default=0)
        return [block for block in blocks if self.availability(block.piece) == fewest]

    def chosen(self, usable: list[Block], expected: set[Block]) -> list[Block]:
        """Those of these blocks, all of one level, that the rules let be requested."""
        if usable and self.levels[usable[0].piece] >= self.order_from:
            least = min(block.piece for block in usable)
            return [block for block in usable if block.piece == least]
        begun = self.begun(expected)
        going_on = [block for block in usable if block.piece in begun]
        new = [block for block in usable if block.piece not in begun]
        at_random = len(self.had) < self.rules.random
        first = new if at_random else self.rarest(new)
        if self.rules.open == 0:
            return going_on or first
        if at_random or len(self.open_pieces(expected)) > self.rules.open:
            return self.rarest(going_on) or first
        rarest = self.rarest(usable)
        return [block for block in rarest if block.piece in begun] or rarest

    def doubles(self, peer: Peer, expected: set[Block]) -> list[Block]:
        """In endgame the blocks that may be requested of one more peer."""
        lacking = [block for blocks in self.blocks for block in blocks if self.levels[block.piece] > 0 and block not in self.held]
        awaited = [block for block in lacking if not self.rules.shown or self.availability(block.piece) > 0]
        if any(block not in expected for block in awaited) or len(peer.asked) >= self.rules.rush:
            return []
        return [
            block
            for block in lacking
            if block.piece in peer.shows
            and self.levels[block.piece] <= peer.reach
            and block not in peer.asked
            and self.askers(block) < self.rules.askers
        ]

    def options(self, peer: Peer) -> tuple[str, list[Block]]:
        """What is said to the peer next, by the first case that applies, and the blocks of which it may name any."""
        if peer.due:
            return "cancel", list(peer.due)
        if not peer.opened:
            return "choked", []
        if self.is_pipe_full(peer):
            return "pipefull", []
        expected = self.expected()
        blocks = self.chosen(self.usable(peer, expected), expected) or self.doubles(peer, expected)
        if blocks:
            return "request", blocks
        return ("idle" if self.is_interesting(peer) else "nothing"), []

    def next(self, peer: Peer, word: int) -> str:
        """What is said to the peer next: the oldest cancel, or of the blocks that may be requested the one that the word picks."""
        kind, blocks = self.options(peer)
        if kind == "request":
            blocks = [self.picked(blocks, self.begun(self.expected()), word)]
        return f"{kind} {blocks[0]}" if blocks else kind

    def picked(self, blocks: list[Block], begun: set[int], word: int) -> Block:
        """Of begun pieces the least block of the highest level, and of others that of the first piece in a round from the word's on."""
        first = word % self.pieces

        def turn(piece: int) -> int:
            return piece if piece in begun else self.pieces + (piece - first) % self.pieces

        return min(blocks, key=lambda block: (-self.levels[block.piece], turn(block.piece), block))

    def rule_of(self, block: Block) -> int:
        """The number of the rule by which the block was requested, where the newest reply requested it: the first that applies."""
        requested = self.expected().union(self.held)
        if self.askers(block) > 1:
            return ENDGAME
        if any(block in peer.overdue for peer in self.peers):
            return LATE
        if self.levels[block.piece] >= self.order_from:
            return IN_ORDER
        if len(requested.intersection(self.blocks[block.piece])) > 1:
            return BEGUN
        return RANDOM if len(self.had) < self.rules.random else RAREST

    def follow(self, peer: Peer, reply: str) -> None:
        """The reply to a Next was given, one that may be wrong."""
        word, *numbers = reply.split(" ")
        block = Block(*map(int, numbers)) if word in ("cancel", "request") else None
        if word == "cancel" and block in peer.due:
            peer.due.remove(block)
        elif word == "request" and block is not None:
            peer.asked.append(block)

    # ---- the calls, by the words of their lines

    def play(self, line: str, given: str | None = None) -> str:
        """The reply that the line has. Where another one was given to a Next, the model goes on from that one."""
        number, word, arguments = self.parse(line)
        peer = self.peers[number]
        try:
            if word == "next":
                self.need(peer.joined, NOT_JOINED)
                reply = self.next(peer, arguments[0])
                self.follow(peer, given or reply)
                return reply
            call: Callable[..., str] = getattr(self, f"call_{word}")
            return call(peer, *arguments)
        except Refused as refused:
            return f"refused {refused.args[0]}"

    @staticmethod
    def need(holds: bool, reason: int) -> None:
        """Refuses the call for this reason where the condition doesn't hold."""
        if not holds:
            raise Refused(reason)

    def noted(self, peer: Peer) -> str:
        """The reply to a call that tells of the peer's pieces."""
        peer.late = True
        return "noted yes" if self.is_interesting(peer) else "noted no"

    def call_join(self, peer: Peer) -> str:
        self.need(not peer.joined, ALREADY_JOINED)
        peer.renew(joined=True)
        return "joined"

    def call_leave(self, peer: Peer) -> str:
        self.need(peer.joined, NOT_JOINED)
        peer.renew(joined=False)
        return "quiet"

    def call_bits(self, peer: Peer, flags: set[int]) -> str:
        self.need(peer.joined, NOT_JOINED)
        self.need(not peer.late, LATE_BITS)
        peer.shows = set(flags)
        return self.noted(peer)

    def call_have(self, peer: Peer, piece: int) -> str:
        self.need(peer.joined, NOT_JOINED)
        self.need(piece < self.pieces, NO_SUCH_PIECE)
        peer.shows.add(piece)
        return self.noted(peer)

    def call_haves(self, peer: Peer, flags: set[int]) -> str:
        self.need(peer.joined, NOT_JOINED)
        peer.shows |= flags
        return self.noted(peer)

    def call_lack(self, peer: Peer, piece: int) -> str:
        self.need(peer.joined, NOT_JOINED)
        self.need(piece < self.pieces, NO_SUCH_PIECE)
        peer.shows.discard(piece)
        peer.give_up(self.blocks[piece])
        return self.noted(peer)

    def call_choke(self, peer: Peer) -> str:
        self.need(peer.joined, NOT_JOINED)
        peer.late, peer.opened = True, False
        peer.free()
        return "quiet"

    def call_unchoke(self, peer: Peer) -> str:
        self.need(peer.joined, NOT_JOINED)
        peer.late, peer.opened = True, True
        return "quiet"

    def call_block(self, peer: Peer, piece: int, begin: int, data: bytes) -> str:
        self.need(peer.joined, NOT_JOINED)
        self.need(piece < self.pieces, NO_SUCH_PIECE)
        block = next((block for block in self.blocks[piece] if block.begin == begin), None)
        if block is None:
            raise Refused(NO_SUCH_BLOCK)
        self.need(block.length == len(data), WRONG_LENGTH)
        peer.late = True
        if block in self.held:
            return "dropped"
        self.held[block] = data
        self.senders[block] = peer
        for other in self.peers:
            if block in other.asked:
                other.give_up([block])
                if other is not peer:
                    other.due.append(block)
        return "completed" if self.is_full(piece) else "stored"

    def call_settle(self, _peer: Peer, piece: int) -> str:
        self.need(piece < self.pieces, NO_SUCH_PIECE)
        self.need(self.waits(piece), NOT_WAITING)
        content = b"".join(self.held[block] for block in self.blocks[piece])
        if hashlib.sha1(content).digest() == self.torrent.hashes[piece]:
            self.had.add(piece)
            return "had"
        return self.free_blocks(self.blocks[piece])

    def free_blocks(self, blocks: list[Block]) -> str:
        """These are held no more."""
        for block in blocks:
            self.held.pop(block, None)
            self.senders.pop(block, None)
        return "failed"

    def call_lose(self, _peer: Peer, piece: int) -> str:
        self.need(piece < self.pieces, NO_SUCH_PIECE)
        self.had.discard(piece)
        return self.free_blocks(self.blocks[piece])

    def call_discard(self, _peer: Peer, piece: int, begin: int) -> str:
        self.need(piece < self.pieces, NO_SUCH_PIECE)
        blocks = [block for block in self.blocks[piece] if block.begin == begin]
        self.need(bool(blocks), NO_SUCH_BLOCK)
        self.need(piece not in self.had, NOT_WAITING)
        return self.free_blocks(blocks)

    def call_want(self, _peer: Peer, flags: set[int]) -> str:
        self.levels = [USUAL_LEVEL if piece in flags else 0 for piece in range(self.pieces)]
        return "quiet"

    def call_depth(self, peer: Peer, depth: int) -> str:
        self.need(peer.joined, NOT_JOINED)
        self.need(1 <= depth <= min(self.rules.deepest, MOST_TOLD_DEPTH), WRONG_DEPTH)
        peer.depth = depth
        return "quiet"

    def asked_at(self, peer: Peer, piece: int, begin: int) -> Block:
        """The block that begins there, which is in flight at the peer."""
        self.need(peer.joined, NOT_JOINED)
        block = next((block for block in peer.asked if (block.piece, block.begin) == (piece, begin)), None)
        if block is None:
            raise Refused(NOT_ASKED)
        return block

    def call_release(self, peer: Peer, piece: int, begin: int) -> str:
        peer.give_up([self.asked_at(peer, piece, begin)])
        return "quiet"

    def call_late(self, peer: Peer, piece: int, begin: int) -> str:
        peer.overdue.add(self.asked_at(peer, piece, begin))
        return "quiet"

    def call_requested(self, peer: Peer, piece: int, begin: int) -> str:
        self.need(peer.joined, NOT_JOINED)
        self.need(piece < self.pieces, NO_SUCH_PIECE)
        block = next((block for block in self.blocks[piece] if block.begin == begin), None)
        if block is None:
            raise Refused(NO_SUCH_BLOCK)
        may_be_asked = peer.opened and not peer.due and not self.is_pipe_full(peer)
        self.need(may_be_asked and block in self.fitting(peer, self.expected()), NOT_WAITING)
        peer.asked.append(block)
        return f"inflight {block}"

    def call_level(self, _peer: Peer, piece: int, level: int) -> str:
        self.need(piece < self.pieces, NO_SUCH_PIECE)
        self.need(level <= MOST_LEVEL, WRONG_LEVEL)
        self.levels[piece] = level
        return "quiet"

    def call_levels(self, _peer: Peer, levels: list[int]) -> str:
        self.need(len(levels) == self.pieces, WRONG_COUNT)
        self.need(max(levels) <= MOST_LEVEL, WRONG_LEVEL)
        self.levels = list(levels)
        return "quiet"

    def call_inorder(self, _peer: Peer, rising: bool) -> str:
        self.order_from = 0 if rising else MOST_LEVEL + 1
        return "quiet"

    def call_inorderfrom(self, _peer: Peer, level: int) -> str:
        self.need(level <= MOST_LEVEL + 1, WRONG_LEVEL)
        self.order_from = level
        return "quiet"

    def call_alone(self, peer: Peer, alone: bool) -> str:
        self.need(peer.joined, NOT_JOINED)
        peer.alone = alone
        return "quiet"

    def call_reach(self, peer: Peer, level: int) -> str:
        self.need(peer.joined, NOT_JOINED)
        self.need(level <= MOST_LEVEL, WRONG_LEVEL)
        peer.reach = level
        return "quiet"

    # ---- lines

    def parse(self, line: str) -> tuple[int, str, list[Any]]:
        """The worker, the word and the arguments that the line says."""
        worker, *rest = line.split(" ")
        if number(worker, 32) >= len(self.peers) or not rest:
            raise NotALine(line)
        word, *texts = rest
        forms = self.forms.get(word)
        if forms is None or len(forms) != len(texts):
            raise NotALine(line)
        return int(worker), word, [self.argument(form, text) for form, text in zip(forms, texts)]

    def argument(self, form: str, text: str) -> Any:
        """The value that a text of this form says."""
        if form == "flags":
            return self.flags(hexadecimal(text))
        if form == "bytes":
            return hexadecimal(text)
        if form == "digits":
            if not is_digits(text):
                raise NotALine(text)
            return [int(digit) for digit in text]
        if form == "yes":
            if text not in ("yes", "no"):
                raise NotALine(text)
            return text == "yes"
        return number(text, int(form))

    def flags(self, payload: bytes) -> set[int]:
        """The pieces of a bitfield: the first piece is the highest bit of the first byte, and spare bits are 0."""
        bits = "".join(f"{byte:08b}" for byte in payload)
        if len(payload) != (self.pieces + 7) // 8 or "1" in bits[self.pieces:]:
            raise NotALine(payload.hex())
        return {piece for piece, bit in enumerate(bits) if bit == "1"}


# what stands behind each word: numbers by their bits, bitfields, bytes, digits, yes or no
FORMS: dict[str, list[str]] = {
    "join": [], "leave": [], "choke": [], "unchoke": [],
    "bits": ["flags"], "haves": ["flags"], "want": ["flags"],
    "have": ["32"], "lack": ["32"], "settle": ["32"], "depth": ["32"], "next": ["64"],
    "block": ["32", "32", "bytes"], "release": ["32", "32"], "late": ["32", "32"],
    "level": ["32", "8"], "levels": ["digits"], "inorder": ["yes"], "inorderfrom": ["8"], "reach": ["8"], "alone": ["yes"],
}

# and behind those that no script has: a desk loses nothing, and chooses each request itself
LOSSES: dict[str, list[str]] = {"lose": ["32"], "discard": ["32", "32"], "requested": ["32", "32"]}


def is_digits(text: str) -> bool:
    """Whether it is digits of base ten alone, and at least one."""
    return text.isascii() and text.isdigit()


def number(text: str, bits: int) -> int:
    """The number that the digits write, within so many bits."""
    if not is_digits(text) or int(text) >= 2**bits:
        raise NotALine(text)
    return int(text)


def hexadecimal(text: str) -> bytes:
    """The bytes that hexadecimal digits write, at least one byte."""
    if not (text.isascii() and text.isalnum()):
        raise NotALine(text)
    try:
        return bytes.fromhex(text)
    except ValueError as error:
        raise NotALine(text) from error


def opened(line: str) -> tuple[Torrent, int]:
    """The torrent and the number of workers that the first line says."""
    word, *texts = line.split(" ")
    if word != "torrent" or len(texts) < 3:
        raise NotALine(line)
    piece_length, total, workers = number(texts[0], 32), number(texts[1], 64), number(texts[2], 32)
    hashes = tuple(hexadecimal(text) for text in texts[3:])
    whole = 1 <= piece_length <= MOST_PIECE_LENGTH and 1 <= total < 2**63 and 1 <= workers <= MOST_WORKERS
    if not whole or len(hashes) != -(-total // piece_length) or any(len(digest) != 20 for digest in hashes):
        raise NotALine(line)
    return Torrent(piece_length, total, hashes), workers


def ruled(line: str, pieces: int) -> Rules | None:
    """The rules that the line sets, if it sets any: the depth and the pieces at random. Behind them may stand the open pieces, the bound `rush`,
    and whether endgame waits for shown pieces alone: from the end each may be left out."""
    word, *texts = line.split(" ")
    numbers, answers = texts[:4], texts[4:]
    if word != "rules" or not 2 <= len(texts) <= 5 or not all(is_digits(text) for text in numbers) or not {"yes", "no"}.issuperset(answers):
        return None
    depth, at_random, most_open, rush = [*map(int, numbers), *(0, MOST_TOLD_DEPTH)[len(numbers) - 2:]]
    is_allowed = 1 <= depth <= MOST_DEPTH and at_random <= pieces and most_open <= MOST_OPEN and rush <= MOST_TOLD_DEPTH
    return Rules(depth, at_random, open=most_open, rush=rush, shown=answers == ["yes"]) if is_allowed else None


def open_model(lines: list[str]) -> tuple[Model, int]:
    """The model that a script's first lines open, and how many lines that were, empty ones with them."""
    at = next((at for at, line in enumerate(lines) if line), len(lines))
    torrent, workers = opened(lines[at] if lines[at:] else "")
    behind = next((more for more in range(at + 1, len(lines)) if lines[more]), None)
    rules = ruled(lines[behind], len(torrent.hashes)) if behind is not None else None
    if behind is None or rules is None:
        return Model(torrent, workers, Rules()), at + 1
    return Model(torrent, workers, rules), behind + 1
