"""Where a torrent comes from: a file, an address of the web, or a magnet link."""

from __future__ import annotations

import re
from collections.abc import Callable
from contextlib import AbstractContextManager, closing
from dataclasses import dataclass, field
from typing import TYPE_CHECKING

from . import magnet
from .addresses import Origin
from .blame import Address
from .metainfo import MetainfoFault
from .options import Options
from .reach import Reach
from .signals import Loop
from .urls import is_address

if TYPE_CHECKING:
    from .seeking import Met

LARGEST_FILE = 1 << 28  # bytes of a metainfo file
LARGEST_BY_WEB = 1 << 25
WEB_SECONDS = 60.0

Guard = Callable[[Loop], AbstractContextManager[None]]


class NotFound(Exception):
    """Nobody gave the info dictionary of a magnet link; the text says why."""


@dataclass(frozen=True)
class Source:
    """A torrent, and the peers that were met on the way to it."""

    metainfo: bytes
    peers: list[tuple[Address, Origin]] = field(default_factory=list)
    met: list[Met] = field(default_factory=list)  # those of them that are connected

    def close(self) -> None:
        """Nobody goes on with the connections."""
        for met in self.met:
            met.connection.close()


def is_magnet(torrent: str) -> bool:
    """Whether it is a magnet link."""
    return torrent.lower().startswith(magnet.PREFIX)


def _no_file(torrent: str, error: OSError) -> Exception:
    """What to tell the user where there is no such file, and what the word may have meant."""
    if isinstance(error, IsADirectoryError):
        return ValueError(f"{torrent} is a folder: TORRENT is a metainfo file, its http or https address, or a magnet link")
    if "://" in torrent:
        return ValueError(f"{torrent}: addresses of http and https can be read, and no others")
    if re.fullmatch("[0-9a-fA-F]{40}|[a-zA-Z2-7]{32}", torrent):
        return ValueError(f"{torrent}: no such file. If it is an infohash, its link is {magnet.PREFIX}?xt={magnet.TOPIC}{torrent}")
    return error


def read(options: Options) -> Source:
    """The torrent of a file, or of an address of the web. Raises OSError, ValueError and MetainfoFault."""
    if is_address(options.torrent):
        from . import web

        try:
            metainfo = web.get(options.torrent, LARGEST_BY_WEB, WEB_SECONDS, options.bind)
        except web.WebFault as fault:
            raise MetainfoFault(f"{options.torrent}: {fault}") from fault
    else:
        try:
            with open(options.torrent, "rb") as file:
                metainfo = file.read(LARGEST_FILE)
        except OSError as error:
            raise _no_file(options.torrent, error) from error
    if not metainfo:
        raise MetainfoFault(f"{options.torrent}: the file is empty")
    return Source(metainfo)


def obtain(options: Options, reach: Reach, guard: Guard, tell: Callable[[str], None], load: Callable[[], None] = lambda: None) -> Source:
    """The torrent that the options name. Raises OSError, ValueError, MetainfoFault and NotFound, and what `load` raises.

    `guard` is entered with what can be stopped while a magnet link is followed, and `tell` gets a line now and then. `load` imports what is
    needed next. For a magnet link that is done while peers are waited for.
    """
    if not is_magnet(options.torrent):
        load()
        return read(options)
    from .following import Following  # here, so that all others start sooner
    from .loading import Loading

    with closing(Following(magnet.parse(options.torrent), options, reach)) as following, guard(following.seeker):
        loading = Loading(load, following.seeker.wake)
        while (source := following.turn()) is None:
            loading.check()
            tell(following.line)
        return source
