"""The piece picker of a BitTorrent download (BEP 3): which block to request next, and from which peer.

    with Picker(metainfo, workers=20) as picker:
        picker.join(0)
        picker.bits(0, payload)
        picker.unchoke(0)
        while (answer := picker.next(0)).kind in (Kind.REQUEST, Kind.CANCEL):
            send = send_request if answer.kind is Kind.REQUEST else send_cancel
            send(*answer.block)

It is a binding of libpiecepick, whose header piecepick.h says what each call means. A call whose status isn't OK raises a PiecepickError, and
has changed nothing. A call that a rule refuses has the answer REFUSED: that is mostly the peer's fault, and raises nothing.

Beside what is listed, `piecepick.hash(data)` is the SHA-1 of one message.
"""

from ._native import Keeps, Kind, PickRule, Reason, Status
from .depth import DepthByRate
from .picker import Answer, File, InputFault, Job, MemoryFault, Picker, PiecepickError

# It isn't in __all__, so that `import *` leaves Python's own `hash` alone.
from .picker import hash as hash  # noqa: F401
from .picker import hash_four, version

__version__ = "1.2.0"

__all__ = [
    "Answer",
    "DepthByRate",
    "File",
    "InputFault",
    "Job",
    "Keeps",
    "Kind",
    "MemoryFault",
    "PickRule",
    "Picker",
    "PiecepickError",
    "Reason",
    "Status",
    "hash_four",
    "version",
]
