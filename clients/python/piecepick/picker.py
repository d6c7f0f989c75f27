"""The picker of a download, and the checks of its pieces."""

from __future__ import annotations

import mmap
import random as _random
import secrets
import threading
import weakref
from ctypes import byref, c_size_t, c_uint8, c_uint32, c_uint64, c_void_p, sizeof
from types import TracebackType
from typing import Any, Callable, NamedTuple, NoReturn, Union

from . import _native
from ._buffers import lend, lend_writable
from ._library import LIBRARY
from ._native import Keeps, Kind, PickRule, Reason, Status

# Anything else that gives its bytes by the buffer protocol, in one run, is taken too.
BytesLike = Union[bytes, bytearray, memoryview, mmap.mmap]
Writable = Union[bytearray, memoryview, mmap.mmap]
Block = tuple[int, int, int]

_DIGEST_LENGTH = 20

# What the picker leaves to chance needs no secret but the seed, and this is ten times as quick as asking the system for each word.
_random_bits = _random.Random(secrets.randbits(256)).getrandbits

# The two calls that are made most often have no types that ctypes converts to: they are passed objects of these types, at half the time.
_next = LIBRARY["piecepick_next"]
_next.restype = c_uint32
_arrived = LIBRARY["piecepick_arrived"]
_arrived.restype = c_uint32


class PiecepickError(Exception):
    """A call that did nothing; `status` says why."""

    def __init__(self, call: str, status: Status) -> None:
        super().__init__(f"{call}: {status.text}")
        self.call = call
        self.status = status

    def __reduce__(self) -> tuple[Any, ...]:
        return type(self), (self.call, self.status)


class InputFault(PiecepickError, ValueError):
    """No such worker, piece, block or place, options out of their range, or bytes that spell nothing."""


class MemoryFault(PiecepickError, MemoryError):
    """There was no memory. The same call may be made again."""


# These are about what was done before, and not about what was passed.
_OF_STATE = frozenset(
    {
        Status.CLOSED,
        Status.OPEN,
        Status.INCOMPLETE,
        Status.NOT_WAITING,
        Status.NO_JOB,
        Status.NOT_HASHED,
        Status.KEEPS,
        Status.STALE,
        Status.NOT_HELD,
        Status.BEGUN,
    }
)


class File(NamedTuple):
    """A file of a torrent: its bytes, and the names on its path. The first name is the torrent's own, which is the file's where there is one.

    The names are whatever the metainfo file says: empty, "..", with slashes or zeros in them. Look at each before you make a path of it.
    """

    length: int
    path: tuple[bytes, ...]


class Answer(NamedTuple):
    """What the picker answers. A block stands in CANCEL, REQUEST and IN_FLIGHT, in bytes; `reason` in REFUSED; `interesting` in NOTED."""

    kind: Kind
    piece: int = 0
    begin: int = 0
    length: int = 0
    reason: Reason = Reason.NONE
    interesting: bool = False

    @property
    def block(self) -> Block:
        """The block of a CANCEL, a REQUEST or an IN_FLIGHT: piece, begin and length."""
        return self.piece, self.begin, self.length


# By their numbers: a tuple is quicker than an enum's own call.
_KINDS = tuple(Kind)

# All answers but those with a block are made once. Those that carry something have None in the first table.
_CARRYING = (Kind.CANCEL, Kind.REQUEST, Kind.IN_FLIGHT, Kind.NOTED, Kind.REFUSED)
_PLAIN = tuple(None if kind in _CARRYING else Answer(kind) for kind in _KINDS)
_NOTED = Answer(Kind.NOTED), Answer(Kind.NOTED, interesting=True)
_REFUSED = tuple(Answer(Kind.REFUSED, reason=reason) for reason in Reason)


def _answer(given: _native.Answer) -> Answer:
    """The answer that C has written."""
    kind = given.kind
    if plain := _PLAIN[kind]:
        return plain
    if kind == Kind.NOTED:
        return _NOTED[given.interesting]
    if kind == Kind.REFUSED:
        return _REFUSED[given.reason]
    return Answer(_KINDS[kind], given.piece, given.begin, given.length)


def _u32(number: int) -> int:
    """The number, which has to fit: ctypes would take it modulo 2^32."""
    if number >> 32:
        raise ValueError(f"{number} isn't 0 to 2^32 - 1")
    return number


def _u64(number: int) -> int:
    """The number, which has to fit: ctypes would take it modulo 2^64."""
    if number >> 64:
        raise ValueError(f"{number} isn't 0 to 2^64 - 1")
    return number


def _digest(data: BytesLike) -> _native.Digest:
    """The digest, which C reads without a length."""
    view = memoryview(data)
    if view.nbytes != _DIGEST_LENGTH:
        raise ValueError(f"a SHA-1 has {_DIGEST_LENGTH} bytes, and this has {view.nbytes}")
    return _native.Digest.from_buffer_copy(view.tobytes())


def _fail(name: str, status: int) -> NoReturn:
    """Raises what stands for a status."""
    which = Status(status)
    name = name.removeprefix("piecepick_")
    if which is Status.MEMORY:
        raise MemoryFault(name, which)
    if which in _OF_STATE:
        raise PiecepickError(name, which)
    raise InputFault(name, which)


def _check(call: Any, *arguments: Any) -> None:
    """Makes the call, whose status has to be OK."""
    if status := call(*arguments):
        _fail(call.__name__, status)


def _options(
    keeps: int, workers: int, depth: int, deepest: int, random: int, askers: int, most_open: int, rush: int, shown: int
) -> _native.Options:
    numbers = map(_u32, (keeps, workers, depth, deepest, random, askers, most_open, rush, shown))
    return _native.Options(sizeof(_native.Options), *numbers)


def version() -> str:
    """The version of the library that was loaded."""
    number = LIBRARY.piecepick_version()
    return f"{number // 10000}.{number // 100 % 100}.{number % 100}"


def hash(message: BytesLike) -> bytes:
    """The SHA-1 of a message, as hashlib has it too."""
    digest = _native.Digest()
    LIBRARY.piecepick_hash(*lend(message), byref(digest))
    return bytes(digest)


def hash_four(first: BytesLike, second: BytesLike, third: BytesLike, fourth: BytesLike) -> list[bytes]:
    """The SHA-1 of each of four messages. Four of one length are hashed side by side. It takes no lock."""
    lent = [part for message in (first, second, third, fourth) for part in lend(message)]
    digests = (c_uint8 * (4 * _DIGEST_LENGTH))()
    _check(LIBRARY.piecepick_hash_four, *lent, digests, len(digests))
    return [bytes(digests[place : place + _DIGEST_LENGTH]) for place in range(0, len(digests), _DIGEST_LENGTH)]


class Picker:
    """The picker of one download.

    It is closed at the end of its `with` block, by `close`, or when it is forgotten. Each call takes the picker's own lock: the library takes
    none, and while ctypes is in C another thread may run. So threads may share a picker. Don't call it in a signal handler, which may find
    the lock taken by its own thread, nor in the forked child of a process with threads.
    """

    __slots__ = (
        "__weakref__",
        "_answer",
        "_answer_at",
        "_begin",
        "_close",
        "_handle",
        "_is_open",
        "_length",
        "_lock",
        "_number",
        "_number_at",
        "_piece",
        "_wide",
        "_wide_at",
        "_word",
        "_worker",
    )

    def __init__(
        self,
        metainfo: BytesLike,
        *,
        keeps: Keeps = Keeps.NOTHING,
        workers: int = 50,
        depth: int = 16,
        deepest: int = 500,
        random: int = 1,
        askers: int = 2,
        open: int = 8,
        rush: int = 32,
        shown: bool = True,
    ) -> None:
        """A picker for the torrent of a metainfo file. The choices are those of the header's piecepick_options.

        In endgame a block is requested again only from a peer with fewer requests than `rush`: 0 is no endgame, and 4,096 no bound. With
        `shown` endgame waits only for pieces that a joined peer shows, and without it for all wanted ones.
        """
        options = _options(keeps, workers, depth, deepest, random, askers, open, rush, shown)
        data, length = lend(metainfo)
        self._open(LIBRARY.piecepick_open, data, length, byref(options))

    @classmethod
    def open_parts(
        cls,
        piece_length: int,
        total: int,
        digests: BytesLike,
        *,
        keeps: Keeps = Keeps.NOTHING,
        workers: int = 50,
        depth: int = 16,
        deepest: int = 500,
        random: int = 1,
        askers: int = 2,
        open: int = 8,
        rush: int = 32,
        shown: bool = True,
    ) -> Picker:
        """A picker for the torrent of these parts: lengths in bytes, and the SHA-1 of each piece in order, 20 bytes each."""
        options = _options(keeps, workers, depth, deepest, random, askers, open, rush, shown)
        data, length = lend(digests)
        picker = cls.__new__(cls)
        picker._open(LIBRARY.piecepick_open_parts, _u32(piece_length), _u64(total), data, length, byref(options))
        return picker

    def _open(self, call: Callable[..., int], *arguments: Any) -> None:
        self._is_open = False
        self._lock = threading.Lock()
        self._handle = c_void_p()
        # What C writes into, and what the two quickest calls pass, is made once, and is used under the lock alone.
        self._answer = _native.Answer()
        self._answer_at = byref(self._answer)
        self._number = c_uint32()
        self._number_at = byref(self._number)
        self._wide = c_uint64()
        self._wide_at = byref(self._wide)
        self._worker, self._piece, self._begin = c_uint32(), c_uint32(), c_uint32()
        self._length, self._word = c_size_t(), c_uint64()
        _check(call, byref(self._handle), *arguments)
        self._is_open = True
        self._close = weakref.finalize(self, LIBRARY.piecepick_close, byref(self._handle))
        # The end of the process gives all back, and a forked child may not call the library.
        self._close.atexit = False

    def close(self) -> None:
        """Frees the picker. Each later call but this raises a PiecepickError with Status.CLOSED."""
        with self._lock:
            if self._is_open:
                self._is_open = False
                self._close()

    def __enter__(self) -> Picker:
        return self

    def __exit__(self, kind: type[BaseException] | None, error: BaseException | None, trace: TracebackType | None) -> None:
        self.close()

    def __reduce__(self) -> NoReturn:
        raise TypeError("a picker can't be copied")

    def _told(self, call: Any, *arguments: Any) -> Answer:
        """Makes a call that has an answer."""
        with self._lock:
            if not self._is_open:
                _fail(call.__name__, Status.CLOSED)
            if status := call(self._handle, *arguments, self._answer_at):
                _fail(call.__name__, status)
            return _answer(self._answer)

    def _do(self, call: Any, *arguments: Any) -> None:
        """Makes a call that has none."""
        with self._lock:
            if not self._is_open:
                _fail(call.__name__, Status.CLOSED)
            _check(call, self._handle, *arguments)

    def _count(self, call: Any, *arguments: int) -> int:
        """Makes a call that writes a number of 32 bits."""
        with self._lock:
            if not self._is_open:
                _fail(call.__name__, Status.CLOSED)
            _check(call, self._handle, *arguments, self._number_at)
            return self._number.value

    def _long_count(self, call: Any, *arguments: Any) -> int:
        """Makes a call that writes a number of 64 bits."""
        with self._lock:
            if not self._is_open:
                _fail(call.__name__, Status.CLOSED)
            _check(call, self._handle, *arguments, self._wide_at)
            return self._wide.value

    # What came on the wire of a worker's peer.

    def join(self, worker: int) -> Answer:
        """The handshakes were exchanged."""
        return self._told(LIBRARY.piecepick_join, _u32(worker))

    def leave(self, worker: int) -> Answer:
        """The connection is gone."""
        return self._told(LIBRARY.piecepick_leave, _u32(worker))

    def choke(self, worker: int) -> Answer:
        """A `choke` message came, or the peer is silent: what was requested from it is free for others."""
        return self._told(LIBRARY.piecepick_choke, _u32(worker))

    def unchoke(self, worker: int) -> Answer:
        """An `unchoke` message came."""
        return self._told(LIBRARY.piecepick_unchoke, _u32(worker))

    def have(self, worker: int, piece: int) -> Answer:
        """A `have` message came."""
        return self._told(LIBRARY.piecepick_have, _u32(worker), _u32(piece))

    def bits(self, worker: int, payload: BytesLike) -> Answer:
        """A `bitfield` message came; REFUSED by LATE_BITS where it isn't the peer's first word."""
        data, length = lend(payload)
        return self._told(LIBRARY.piecepick_bits, _u32(worker), data, length)

    def haves(self, worker: int, flags: BytesLike) -> Answer:
        """The peer has these pieces too, at any time: a second `bitfield` came, or `have all` (BEP 6)."""
        data, length = lend(flags)
        return self._told(LIBRARY.piecepick_haves, _u32(worker), data, length)

    def lack(self, worker: int, piece: int) -> Answer:
        """The peer has this piece no more (`lt_donthave`, BEP 54): blocks of it that are requested from the peer are released, with no cancel."""
        return self._told(LIBRARY.piecepick_lack, _u32(worker), _u32(piece))

    def arrived(self, worker: int, piece: int, begin: int, block: BytesLike) -> Answer:
        """A `piece` message came. A picker that keeps nothing reads none of the bytes; another one copies them once.

        Where nothing is kept, write the bytes at STORED and FULL, and at no other answer: of two copies the first one counts.
        """
        if (worker | piece | begin) >> 32:
            raise ValueError(f"{worker}, {piece} or {begin} isn't 0 to 2^32 - 1")
        data, length = lend(block)
        with self._lock:
            if not self._is_open:
                _fail("arrived", Status.CLOSED)
            self._worker.value = worker
            self._piece.value = piece
            self._begin.value = begin
            self._length.value = length
            if status := _arrived(self._handle, self._worker, self._piece, self._begin, data, self._length, self._answer_at):
                _fail("arrived", status)
            return _answer(self._answer)

    def received(self, worker: int, piece: int, begin: int, length: int) -> Answer:
        """Keeps.NOTHING: as `arrived`, for a block of so many bytes that are elsewhere, in a cache or on their way to the disk."""
        if not 0 <= length < 1 << 64:
            raise ValueError(f"{length} isn't 0 to 2^64 - 1")
        return self._told(LIBRARY.piecepick_received, _u32(worker), _u32(piece), _u32(begin), c_size_t(length))

    def release(self, worker: int, piece: int, begin: int) -> Answer:
        """The block that begins there, in bytes, is requested from the peer no more; REFUSED by NOT_REQUESTED where it wasn't."""
        return self._told(LIBRARY.piecepick_release, _u32(worker), _u32(piece), _u32(begin))

    def late(self, worker: int, piece: int, begin: int) -> Answer:
        """A request takes too long: late. It was rejected, or never sent: `release`. REFUSED by NOT_REQUESTED as there.

        The block that begins there, in bytes, stays requested from the peer. It may be requested from another one at once, before endgame. When
        another one brings it, a cancel is due at this peer. While the request lasts, the block isn't requested again from this peer.
        """
        return self._told(LIBRARY.piecepick_late, _u32(worker), _u32(piece), _u32(begin))

    def requested(self, worker: int, piece: int, begin: int) -> Answer:
        """The block that begins there, in bytes, was requested from the peer already, and not by the picker: IN_FLIGHT with the block.

        From now on the request counts as one of the picker's own. REFUSED by NOT_WAITING where the block can't be requested from this peer now:
        nothing has changed then, and the block is stored when it comes. `Status.KEEPS` where a journal is kept.
        """
        return self._told(LIBRARY.piecepick_requested, _u32(worker), _u32(piece), _u32(begin))

    def depth(self, worker: int, depth: int) -> Answer:
        """From now on so many blocks may be requested from the peer at a time; REFUSED by WRONG_DEPTH beyond `deepest`."""
        return self._told(LIBRARY.piecepick_depth, _u32(worker), _u32(depth))

    def reach(self, worker: int, level: int) -> Answer:
        """From now on only blocks of this level and of lower ones are requested of the peer: 7 is all, and 0 none. REFUSED by WRONG_LEVEL above 7.

        It goes with the peer. So a slow peer gets nothing urgent.
        """
        return self._told(LIBRARY.piecepick_reach, _u32(worker), _u32(level))

    def alone(self, worker: int, yes: bool = True) -> Answer:
        """From now on the peer works alone, or like the others again, as each peer does from when it joins.

        One that works alone begins pieces, and goes on with those that nobody else brought or is expected to bring a block of. No block of
        its own pieces is requested from others until endgame. So the sender of a whole piece is known. Its pieces wait for it: set it back where
        it gets slow, and where it is IDLE with nothing in flight.
        """
        return self._told(LIBRARY.piecepick_alone, _u32(worker), int(bool(yes)))

    def next(self, worker: int, word: int | None = None) -> Answer:
        """What to say to the peer next. Ask until the answer is neither CANCEL nor REQUEST. The word is the
        randomness; None draws one."""
        word = _random_bits(64) if word is None else _u64(word)
        if worker >> 32:
            raise ValueError(f"{worker} isn't 0 to 2^32 - 1")
        with self._lock:
            if not self._is_open:
                _fail("next", Status.CLOSED)
            self._worker.value = worker
            self._word.value = word
            if status := _next(self._handle, self._worker, self._word, self._answer_at):
                _fail("next", status)
            return _answer(self._answer)

    # What is to be downloaded.

    def want(self, flags: BytesLike) -> Answer:
        """From now on just these pieces are to be downloaded, spelled as in a `bitfield` message. They have level 4 then."""
        data, length = lend(flags)
        return self._told(LIBRARY.piecepick_want, data, length)

    def lose(self, piece: int) -> Answer:
        """The piece is gone from where you keep it: FAILED. It isn't complete any more, and all of its blocks are lacking, as after a failed check.

        What is in flight stays in flight. `Status.KEEPS` where a journal is kept.
        """
        return self._told(LIBRARY.piecepick_lose, _u32(piece))

    def discard(self, piece: int, begin: int) -> Answer:
        """The block that begins there is known to be bad: FAILED. It is held no more, and the other blocks of its piece stay.

        Of a complete piece it is refused. `Status.KEEPS` where a journal is kept.
        """
        return self._told(LIBRARY.piecepick_discard, _u32(piece), _u32(begin))

    def set_level(self, piece: int, level: int) -> Answer:
        """The piece has this level, 0 to 7: 0 isn't downloaded, and a higher one comes first. REFUSED by WRONG_LEVEL above 7."""
        return self._told(LIBRARY.piecepick_set_level, _u32(piece), _u32(level))

    def set_levels(self, levels: BytesLike) -> Answer:
        """Each piece has the level of its byte, that of the first piece first."""
        data, length = lend(levels)
        return self._told(LIBRARY.piecepick_set_levels, data, length)

    def set_in_order(self, rising: bool = True) -> Answer:
        """The pieces of one level come in rising order, or the rarest first again."""
        return self._told(LIBRARY.piecepick_set_in_order, int(bool(rising)))

    def set_in_order_from(self, level: int) -> Answer:
        """Pieces of this level and of higher ones come in rising order, and of lower ones the rarest first. REFUSED by WRONG_LEVEL above 8.

        With 0 all come in order, with 8 none. It takes the place of what `set_in_order` set, and the other way round.
        """
        return self._told(LIBRARY.piecepick_set_in_order_from, _u32(level))

    # Checks.

    def settle(self, piece: int, digest: BytesLike) -> Answer:
        """Keeps.NOTHING: the piece is full, and this is the SHA-1 of its blocks as they were stored. COMPLETE or FAILED."""
        return self._told(LIBRARY.piecepick_settle, _u32(piece), byref(_digest(digest)))

    def verdict(self, piece: int, passed: bool) -> Answer:
        """Keeps.NOTHING: the piece is full, and was compared: whether its blocks, as they were stored, have its hash. COMPLETE or FAILED.

        Where the disk couldn't be read nothing is known of the hash: call `discard` for each block.
        """
        return self._told(LIBRARY.piecepick_verdict, _u32(piece), _u32(int(passed)))

    def restore(self, worker: int, piece: int, data: BytesLike, digest: BytesLike) -> Answer:
        """Keeps.NOTHING: the whole piece is on a disk, for which this worker stands. None of the data is read, so a mapping does."""
        lent, length = lend(data)
        return self._told(LIBRARY.piecepick_restore, _u32(worker), _u32(piece), lent, length, byref(_digest(digest)))

    def resume(self, worker: int, piece: int, passed: bool) -> Answer:
        """Keeps.NOTHING: as `restore`, for a whole piece that the caller has compared: whether it has the hash of the metainfo file."""
        return self._told(LIBRARY.piecepick_resume, _u32(worker), _u32(piece), _u32(int(passed)))

    def job_take(self, piece: int) -> Job:
        """Keeps.BEGUN and Keeps.JOURNAL: the check of a full piece, to be hashed without the lock."""
        return Job(self, piece)

    def settle_now(self, piece: int) -> Answer:
        """Keeps.JOURNAL: hashes a full piece under the lock. COMPLETE or FAILED."""
        return self._told(LIBRARY.piecepick_settle_now, _u32(piece))

    # What the picker knows.

    @property
    def pieces(self) -> int:
        """How many pieces there are."""
        return self._count(LIBRARY.piecepick_pieces)

    @property
    def workers(self) -> int:
        """How many workers there are."""
        return self._count(LIBRARY.piecepick_workers)

    @property
    def is_complete(self) -> bool:
        """Whether each piece is complete."""
        return bool(self._count(LIBRARY.piecepick_is_complete))

    @property
    def has_wanted(self) -> bool:
        """Whether each wanted piece is complete."""
        return bool(self._count(LIBRARY.piecepick_has_wanted))

    @property
    def is_in_order(self) -> bool:
        """Whether all pieces come in rising order."""
        return bool(self._count(LIBRARY.piecepick_is_in_order))

    @property
    def order_from(self) -> int:
        """The level from which on pieces come in rising order, 0 to 8. At the start it is 8, and none does."""
        return self._count(LIBRARY.piecepick_order_from)

    @property
    def epoch(self) -> int:
        """While it is the same, a peer whose answer was IDLE or NOTHING_LEFT needs no further query, but after an event of its own."""
        return self._long_count(LIBRARY.piecepick_epoch)

    def has_piece(self, piece: int) -> bool:
        """Whether the piece is complete."""
        return bool(self._count(LIBRARY.piecepick_has_piece, _u32(piece)))

    def is_waiting(self, piece: int) -> bool:
        """Whether the piece is full, and waits for its check."""
        return bool(self._count(LIBRARY.piecepick_is_waiting, _u32(piece)))

    def level(self, piece: int) -> int:
        """The level of the piece, 0 to 7."""
        return self._count(LIBRARY.piecepick_level, _u32(piece))

    def availability(self, piece: int) -> int:
        """How many joined peers show the piece."""
        return self._count(LIBRARY.piecepick_availability, _u32(piece))

    def piece_length(self, piece: int) -> int:
        """The bytes of the piece."""
        return self._count(LIBRARY.piecepick_piece_length, _u32(piece))

    def blocks(self, piece: int) -> int:
        """The blocks of the piece."""
        return self._count(LIBRARY.piecepick_blocks, _u32(piece))

    def sender(self, piece: int, index: int) -> int:
        """The worker whose peer brought a block that is held; `index` counts the piece's blocks from 0."""
        return self._count(LIBRARY.piecepick_sender, _u32(piece), _u32(index))

    def rule(self, piece: int, index: int) -> PickRule:
        """The rule by which a block was requested: call it right after its REQUEST. Of any other block it means nothing."""
        return PickRule(self._count(LIBRARY.piecepick_rule, _u32(piece), _u32(index)))

    def askers(self, piece: int, index: int) -> int:
        """From how many peers a block is requested that aren't late with it. Right after its REQUEST the peer itself is one of them."""
        return self._count(LIBRARY.piecepick_askers, _u32(piece), _u32(index))

    def is_interesting(self, worker: int) -> bool:
        """Whether the worker's peer shows a wanted piece that isn't complete; False where no peer has joined."""
        return bool(self._count(LIBRARY.piecepick_is_interesting, _u32(worker)))

    def outstanding(self, worker: int) -> int:
        """How many blocks are requested from the worker's peer, late ones too."""
        return self._count(LIBRARY.piecepick_outstanding, _u32(worker))

    def outstanding_at(self, worker: int, place: int) -> Answer:
        """One of them, as a REQUEST; the oldest has the place 0."""
        return self._told(LIBRARY.piecepick_outstanding_at, _u32(worker), _u32(place))

    # What the metainfo file says.

    @property
    def total(self) -> int:
        """The bytes of the content."""
        return self._long_count(LIBRARY.piecepick_total)

    @property
    def name(self) -> bytes:
        """The suggested name, which is perhaps no text; empty where the picker was made of parts."""
        buffer = bytearray(self._long_count(LIBRARY.piecepick_name_length))
        data, length = lend_writable(buffer)
        self._do(LIBRARY.piecepick_name, data, length)
        return bytes(buffer)

    @property
    def infohash(self) -> bytes:
        """The SHA-1 of the info dictionary; zeros where the picker was made of parts."""
        digest = _native.Digest()
        self._do(LIBRARY.piecepick_infohash, byref(digest))
        return bytes(digest)

    def piece_hash(self, piece: int) -> bytes:
        """The SHA-1 that the piece has to have."""
        digest = _native.Digest()
        self._do(LIBRARY.piecepick_piece_hash, _u32(piece), byref(digest))
        return bytes(digest)

    @property
    def files(self) -> list[File]:
        """The files that the metainfo file lists, in the order of the content; none where the picker was made of parts."""
        return [self._file(file) for file in range(self._long_count(LIBRARY.piecepick_files))]

    def _file(self, file: int) -> File:
        """One of them."""
        length = self._long_count(LIBRARY.piecepick_file_length, c_uint64(file))
        parts = self._long_count(LIBRARY.piecepick_file_parts, c_uint64(file))
        return File(length, tuple(self._file_part(file, part) for part in range(parts)))

    def _file_part(self, file: int, part: int) -> bytes:
        """A name on its path."""
        place = c_uint64(file), c_uint64(part)
        buffer = bytearray(self._long_count(LIBRARY.piecepick_file_part_length, *place))
        data, length = lend_writable(buffer)
        self._do(LIBRARY.piecepick_file_part, *place, data, length)
        return bytes(buffer)

    # Keeps.JOURNAL alone.

    def read(self, piece: int) -> bytearray:
        """The bytes of a complete piece."""
        try:
            buffer = bytearray(self.piece_length(piece))
        except PiecepickError as fault:
            _fail("read", fault.status)
        self.read_into(piece, buffer)
        return buffer

    def read_into(self, piece: int, buffer: Writable) -> None:
        """Writes them into a buffer of just their length."""
        data, length = lend_writable(buffer)
        self._do(LIBRARY.piecepick_read, _u32(piece), data, length)

    def audit(self) -> None:
        """Goes over the journal of all calls by the picker's rules."""
        self._do(LIBRARY.piecepick_audit)


class Job:
    """The check of one full piece: `hash` it in any thread, then `settle` it. `with`, `close`, or forgetting it frees it.

    A job has a lock of its own, so that it isn't freed or settled while it is hashed. Its picker's lock isn't taken for hashing.
    """

    __slots__ = ("__weakref__", "_close", "_handle", "_is_open", "_lock", "_picker", "length", "piece")

    def __init__(self, picker: Picker, piece: int) -> None:
        """`Picker.job_take` makes it."""
        self._is_open = False
        self._picker = picker
        self._lock = threading.Lock()
        self._handle = c_void_p()
        self.piece = piece
        self.length = picker.piece_length(piece)
        picker._do(LIBRARY.piecepick_job_take, _u32(piece), byref(self._handle))
        self._is_open = True
        self._close = weakref.finalize(self, LIBRARY.piecepick_job_close, byref(self._handle))
        self._close.atexit = False

    def close(self) -> None:
        """Frees the check, whether it was settled or not, before or after its picker."""
        with self._lock:
            if self._is_open:
                self._is_open = False
                self._close()

    def __enter__(self) -> Job:
        return self

    def __exit__(self, kind: type[BaseException] | None, error: BaseException | None, trace: TracebackType | None) -> None:
        self.close()

    def __reduce__(self) -> NoReturn:
        raise TypeError("a job can't be copied")

    def _do(self, call: Any, *arguments: Any) -> None:
        with self._lock:
            if not self._is_open:
                _fail(call.__name__, Status.NO_JOB)
            _check(call, self._handle, *arguments)

    def hash(self) -> None:
        """Hashes the bytes. Others may use the picker meanwhile."""
        self._do(LIBRARY.piecepick_job_hash)

    def settle(self) -> Answer:
        """Tells the picker the verdict: COMPLETE or FAILED. The bytes can be read still."""
        with self._lock:
            if not self._is_open:
                _fail("job_settle", Status.NO_JOB)
            return self._picker._told(LIBRARY.piecepick_job_settle, self._handle)

    def read(self) -> bytearray:
        """The bytes of the piece, before or after it is settled."""
        buffer = bytearray(self.length)
        self.read_into(buffer)
        return buffer

    def read_into(self, buffer: Writable) -> None:
        """Writes them into a buffer of just their length."""
        data, length = lend_writable(buffer)
        self._do(LIBRARY.piecepick_job_read, data, length)
