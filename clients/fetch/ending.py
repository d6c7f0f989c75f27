"""The line for a person at the end of a download."""

from __future__ import annotations

from dataclasses import dataclass

from .layout import printable
from .progress import duration, size

MOST_NAMES = 3


@dataclass(frozen=True)
class Ending:
    """What there is to tell. Of `parts` each is a file that isn't wanted, and has a part beside it since it shares a piece with a wanted one."""

    path: str
    is_done: bool
    done: int
    wanted: int
    restored: int
    came: int
    given: int
    seconds: float
    givers: int
    reasons: str = ""
    note: str = ""  # what the tracker's last answer was, where it is none
    knows_nobody: bool = False
    parts: tuple[str, ...] = ()


def told(ending: Ending) -> list[str]:
    """The lines: what is there, and what the user may want to know or do."""
    return [_what(ending), *_why(ending), *_beside(ending)]


def _what(ending: Ending) -> str:
    name = printable(ending.path)
    given = f"; {size(ending.given)} given" if ending.given else ""
    if ending.is_done and not ending.wanted and ending.came:
        return f"{name}: no file is wanted any more{given}"
    if ending.is_done and not ending.came:
        return f"{name}: all {size(ending.wanted)} were there{given}"
    peers = f"{ending.givers} peer{'' if ending.givers == 1 else 's'}"
    rate = f"{size(ending.came / max(ending.seconds, 0.001))}/s"
    if ending.is_done:
        return f"{name}: {size(ending.wanted)} in {duration(ending.seconds)} ({rate} from {peers}){given}"
    share = 100.0 * ending.done / ending.wanted if ending.wanted else 0.0
    return f"{name}: {share:.1f}% of {size(ending.wanted)} are there; the same command goes on with it{given}"


def _why(ending: Ending) -> list[str]:
    """Why not all came."""
    if ending.is_done:
        return []
    if ending.came:
        return [f"why peers went. {ending.reasons}"] if ending.reasons else []
    if ending.reasons:
        return [f"no peer brought anything. {ending.reasons}"]
    if ending.knows_nobody:
        return ["no peer is known: HOST:PORT behind OUT names one"]
    return [f"no peer was found. {printable(ending.note)}" if ending.note else "no peer was found"]


def _beside(ending: Ending) -> list[str]:
    """The files that were touched though nobody wants them."""
    if not ending.parts:
        return []
    names = ", ".join(printable(path) for path in ending.parts[:MOST_NAMES])
    more = f" and {len(ending.parts) - MOST_NAMES} more" if len(ending.parts) > MOST_NAMES else ""
    if len(ending.parts) == 1:
        return [f"1 file that isn't wanted has a part here, as files do that share a piece with a wanted one: {names}"]
    return [f"{len(ending.parts)} files that aren't wanted have parts here, as files do that share a piece with a wanted one: {names}{more}"]
