"""The interface of libpiecepick, as piecepick.h has it: its structs, its functions in the header's order, and its numbers."""

from __future__ import annotations

from ctypes import POINTER, Structure, c_size_t, c_uint8, c_uint32, c_uint64, c_void_p
from enum import IntEnum
from typing import Any

from . import _texts

ABI = 1
VERSION_NUMBER = 10200


class Status(IntEnum):
    """Why a call did nothing."""

    OK = 0
    CLOSED = 1
    OPEN = 2
    WORKER = 3
    PIECE = 4
    BITS_LENGTH = 5
    SPARE_BITS = 6
    LENGTH = 7
    MEMORY = 8
    INCOMPLETE = 9
    RULES = 10
    NOT_WAITING = 11
    NO_JOB = 12
    NOT_HASHED = 13
    PLACE = 14
    KEEPS = 15
    OPTIONS = 16
    STALE = 17
    BLOCK = 18
    NOT_HELD = 19
    BEGUN = 20
    FILE = 21
    PART = 22
    BENCODE = 101
    NOT_DICTIONARY = 102
    MISSING_KEY = 103
    WRONG_KIND = 104
    PIECE_LENGTH = 105
    PIECES_LENGTH = 106
    LENGTH_AND_FILES = 107
    NO_CONTENT = 108
    COUNT_MISMATCH = 109
    TOO_LARGE = 110

    @property
    def text(self) -> str:
        """What it says to a person."""
        return _texts.STATUS[self.name]


class Kind(IntEnum):
    """What the picker answers."""

    NONE = 0
    JOINED = 1
    NOTED = 2
    QUIET = 3
    CANCEL = 4
    REQUEST = 5
    CHOKED = 6
    PIPE_FULL = 7
    IDLE = 8
    NOTHING_LEFT = 9
    STORED = 10
    FULL = 11
    DROPPED = 12
    COMPLETE = 13
    FAILED = 14
    REFUSED = 15
    IN_FLIGHT = 16


class Reason(IntEnum):
    """Why a call was refused."""

    NONE = 0
    NOT_JOINED = 1
    ALREADY_JOINED = 2
    LATE_BITS = 3
    WRONG_COUNT = 4
    NO_SUCH_PIECE = 5
    NO_SUCH_BLOCK = 6
    WRONG_LENGTH = 7
    NOT_WAITING = 8
    STALE = 9
    NOT_REQUESTED = 10
    WRONG_DEPTH = 11
    WRONG_LEVEL = 12

    @property
    def text(self) -> str:
        """What it says to a person."""
        return _texts.REASON[self.name]


class PickRule(IntEnum):
    """The rule by which a block was requested."""

    IN_ORDER = 1
    BEGUN = 2
    RAREST = 3
    RANDOM = 4
    ENDGAME = 5
    LATE = 6


class Keeps(IntEnum):
    """What a picker keeps of what is reported."""

    NOTHING = 0
    BEGUN = 1
    JOURNAL = 2


class Answer(Structure):
    """struct piecepick_answer."""

    kind: int
    piece: int
    begin: int
    length: int
    reason: int
    interesting: int
    _fields_ = [(name, c_uint32) for name in ("kind", "piece", "begin", "length", "reason", "interesting")]


class Digest(Structure):
    """struct piecepick_digest."""

    _fields_ = [("bytes", c_uint8 * 20)]


class Options(Structure):
    """struct piecepick_options."""

    _fields_ = [(name, c_uint32) for name in ("size", "keeps", "workers", "depth", "deepest", "random", "askers", "open", "rush", "shown")]


# A buffer is untyped here, so that ctypes takes `bytes` where they lie, or an address.
_PICKER = c_void_p  # piecepick_picker *
_PICKER_AT = POINTER(c_void_p)  # piecepick_picker **
_JOB = c_void_p  # piecepick_job *
_JOB_AT = POINTER(c_void_p)  # piecepick_job **
_DATA = c_void_p  # const uint8_t *
_ROOM = c_void_p  # uint8_t *
_ANSWER = POINTER(Answer)
_DIGEST = POINTER(Digest)
_OPTIONS = POINTER(Options)
_NUMBER = POINTER(c_uint32)
_WIDE = POINTER(c_uint64)

SIGNATURES: dict[str, tuple[Any, list[Any]]] = {
    "piecepick_abi": (c_uint32, []),
    "piecepick_version": (c_uint32, []),
    "piecepick_open": (c_uint32, [_PICKER_AT, _DATA, c_size_t, _OPTIONS]),
    "piecepick_open_parts": (c_uint32, [_PICKER_AT, c_uint32, c_uint64, _DATA, c_size_t, _OPTIONS]),
    "piecepick_close": (None, [_PICKER_AT]),
    "piecepick_join": (c_uint32, [_PICKER, c_uint32, _ANSWER]),
    "piecepick_leave": (c_uint32, [_PICKER, c_uint32, _ANSWER]),
    "piecepick_choke": (c_uint32, [_PICKER, c_uint32, _ANSWER]),
    "piecepick_unchoke": (c_uint32, [_PICKER, c_uint32, _ANSWER]),
    "piecepick_have": (c_uint32, [_PICKER, c_uint32, c_uint32, _ANSWER]),
    "piecepick_bits": (c_uint32, [_PICKER, c_uint32, _DATA, c_size_t, _ANSWER]),
    "piecepick_haves": (c_uint32, [_PICKER, c_uint32, _DATA, c_size_t, _ANSWER]),
    "piecepick_lack": (c_uint32, [_PICKER, c_uint32, c_uint32, _ANSWER]),
    "piecepick_arrived": (c_uint32, [_PICKER, c_uint32, c_uint32, c_uint32, _DATA, c_size_t, _ANSWER]),
    "piecepick_received": (c_uint32, [_PICKER, c_uint32, c_uint32, c_uint32, c_size_t, _ANSWER]),
    "piecepick_release": (c_uint32, [_PICKER, c_uint32, c_uint32, c_uint32, _ANSWER]),
    "piecepick_late": (c_uint32, [_PICKER, c_uint32, c_uint32, c_uint32, _ANSWER]),
    "piecepick_requested": (c_uint32, [_PICKER, c_uint32, c_uint32, c_uint32, _ANSWER]),
    "piecepick_depth": (c_uint32, [_PICKER, c_uint32, c_uint32, _ANSWER]),
    "piecepick_reach": (c_uint32, [_PICKER, c_uint32, c_uint32, _ANSWER]),
    "piecepick_alone": (c_uint32, [_PICKER, c_uint32, c_uint32, _ANSWER]),
    "piecepick_next": (c_uint32, [_PICKER, c_uint32, c_uint64, _ANSWER]),
    "piecepick_want": (c_uint32, [_PICKER, _DATA, c_size_t, _ANSWER]),
    "piecepick_lose": (c_uint32, [_PICKER, c_uint32, _ANSWER]),
    "piecepick_discard": (c_uint32, [_PICKER, c_uint32, c_uint32, _ANSWER]),
    "piecepick_set_level": (c_uint32, [_PICKER, c_uint32, c_uint32, _ANSWER]),
    "piecepick_set_levels": (c_uint32, [_PICKER, _DATA, c_size_t, _ANSWER]),
    "piecepick_set_in_order": (c_uint32, [_PICKER, c_uint32, _ANSWER]),
    "piecepick_set_in_order_from": (c_uint32, [_PICKER, c_uint32, _ANSWER]),
    "piecepick_settle": (c_uint32, [_PICKER, c_uint32, _DIGEST, _ANSWER]),
    "piecepick_verdict": (c_uint32, [_PICKER, c_uint32, c_uint32, _ANSWER]),
    "piecepick_restore": (c_uint32, [_PICKER, c_uint32, c_uint32, _DATA, c_size_t, _DIGEST, _ANSWER]),
    "piecepick_resume": (c_uint32, [_PICKER, c_uint32, c_uint32, c_uint32, _ANSWER]),
    "piecepick_job_take": (c_uint32, [_PICKER, c_uint32, _JOB_AT]),
    "piecepick_job_hash": (c_uint32, [_JOB]),
    "piecepick_job_settle": (c_uint32, [_PICKER, _JOB, _ANSWER]),
    "piecepick_job_read": (c_uint32, [_JOB, _ROOM, c_size_t]),
    "piecepick_job_close": (None, [_JOB_AT]),
    "piecepick_pieces": (c_uint32, [_PICKER, _NUMBER]),
    "piecepick_workers": (c_uint32, [_PICKER, _NUMBER]),
    "piecepick_is_complete": (c_uint32, [_PICKER, _NUMBER]),
    "piecepick_has_wanted": (c_uint32, [_PICKER, _NUMBER]),
    "piecepick_is_in_order": (c_uint32, [_PICKER, _NUMBER]),
    "piecepick_order_from": (c_uint32, [_PICKER, _NUMBER]),
    "piecepick_epoch": (c_uint32, [_PICKER, _WIDE]),
    "piecepick_has_piece": (c_uint32, [_PICKER, c_uint32, _NUMBER]),
    "piecepick_is_waiting": (c_uint32, [_PICKER, c_uint32, _NUMBER]),
    "piecepick_level": (c_uint32, [_PICKER, c_uint32, _NUMBER]),
    "piecepick_availability": (c_uint32, [_PICKER, c_uint32, _NUMBER]),
    "piecepick_piece_length": (c_uint32, [_PICKER, c_uint32, _NUMBER]),
    "piecepick_blocks": (c_uint32, [_PICKER, c_uint32, _NUMBER]),
    "piecepick_sender": (c_uint32, [_PICKER, c_uint32, c_uint32, _NUMBER]),
    "piecepick_rule": (c_uint32, [_PICKER, c_uint32, c_uint32, _NUMBER]),
    "piecepick_askers": (c_uint32, [_PICKER, c_uint32, c_uint32, _NUMBER]),
    "piecepick_is_interesting": (c_uint32, [_PICKER, c_uint32, _NUMBER]),
    "piecepick_outstanding": (c_uint32, [_PICKER, c_uint32, _NUMBER]),
    "piecepick_outstanding_at": (c_uint32, [_PICKER, c_uint32, c_uint32, _ANSWER]),
    "piecepick_total": (c_uint32, [_PICKER, _WIDE]),
    "piecepick_name_length": (c_uint32, [_PICKER, _WIDE]),
    "piecepick_name": (c_uint32, [_PICKER, _ROOM, c_size_t]),
    "piecepick_infohash": (c_uint32, [_PICKER, _DIGEST]),
    "piecepick_piece_hash": (c_uint32, [_PICKER, c_uint32, _DIGEST]),
    "piecepick_files": (c_uint32, [_PICKER, _WIDE]),
    "piecepick_file_length": (c_uint32, [_PICKER, c_uint64, _WIDE]),
    "piecepick_file_parts": (c_uint32, [_PICKER, c_uint64, _WIDE]),
    "piecepick_file_part_length": (c_uint32, [_PICKER, c_uint64, c_uint64, _WIDE]),
    "piecepick_file_part": (c_uint32, [_PICKER, c_uint64, c_uint64, _ROOM, c_size_t]),
    "piecepick_hash": (None, [_DATA, c_size_t, _DIGEST]),
    "piecepick_hash_four": (c_uint32, [_DATA, c_size_t, _DATA, c_size_t, _DATA, c_size_t, _DATA, c_size_t, _ROOM, c_size_t]),
    "piecepick_settle_now": (c_uint32, [_PICKER, c_uint32, _ANSWER]),
    "piecepick_read": (c_uint32, [_PICKER, c_uint32, _ROOM, c_size_t]),
    "piecepick_audit": (c_uint32, [_PICKER]),
}
