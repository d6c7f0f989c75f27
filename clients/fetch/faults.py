"""What ends a download: the status of the program, and the sentence for the user."""

from __future__ import annotations

from dataclasses import dataclass
from enum import IntEnum

from .metainfo import MetainfoFault
from .source import NotFound


class Ended(IntEnum):
    """The statuses of the program."""

    DONE = 0
    NOT_DONE = 1
    WRONG_LINE = 2
    WRONG_METAINFO = 3
    WRONG_DISK = 4


@dataclass(frozen=True)
class Fault:
    """What the user can do something about."""

    status: Ended
    text: str


def named(torrent: str, text: str) -> str:
    """A fault's text, behind the name of its torrent."""
    return text if torrent.startswith("magnet:") or text.startswith(torrent) else f"{torrent}: {text}"


def fault_of(error: Exception) -> Fault | None:
    """The fault that an exception stands for; None where it is a mistake of the program."""
    from .storage import StorageFault  # here, so that all that goes well starts sooner

    if isinstance(error, NotFound):
        return Fault(Ended.NOT_DONE, str(error))
    if isinstance(error, MetainfoFault):
        return Fault(Ended.WRONG_METAINFO, str(error))
    if isinstance(error, StorageFault):
        return Fault(Ended.WRONG_DISK, str(error))
    if isinstance(error, MemoryError):
        return Fault(Ended.WRONG_DISK, "there is no memory for the picker")
    if isinstance(error, ValueError | ImportError):
        return Fault(Ended.WRONG_LINE, str(error))
    if isinstance(error, OSError):
        return Fault(Ended.WRONG_LINE, f"{error.filename or 'a socket'}: {error.strerror}")
    return None
