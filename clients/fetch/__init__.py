"""A downloader of torrents (BEP 3) over the piece picker: the library picks, and this speaks with disk, peers and trackers.

    from fetch import Download

    with Download("file.torrent", "folder/") as download:
        for progress in download:
            print(progress.done, progress.wanted, progress.peers)

The modules:

    download                    a download that another program runs
    main, command_line, options the program, its words, and what they come to
    running, several            one download of the program, or many
    ending, listing, faults     what is said at the end, the list of files, and what the user can mend
    signals, identity           interrupts, and who we are
    parts, transfer, levels     what one download is made of, what runs it, and which files come
    source, magnet, web, urls   where a torrent comes from: a file, a link, or an address of the web
    following, loading          the way from a link to its torrent, and what is imported on that way
    metainfo, spans, layout     the files that a metainfo file names, and which bytes of the content lie where
    place, lock                 where a download goes, and that nobody else writes there
    storage, checking, resume   the disk, the threads that hash what is on it, and the file that lets a killed download go on
    hashing                     four pieces at once, where the library is faster at it than hashlib
    content, blame              what is had, with the picker beside it, and who sent what was wrong
    suspects                    who works alone, since a piece of several peers was wrong
    wire                        messages as bytes
    extended, extensions        those of the extension protocol, and what is said by it
    metadata, asking, seeking   the info dictionary from peers and for them
    exchange                    peers that peers tell of
    peer, session               one connection, and what is said with peers
    uploads, choking            what peers get, and who gets it
    rate, limits                how fast it goes, and how fast it may
    swarm, lingering            the loop of sockets, and its end
    addresses, partings         where peers may be found, and why they went
    finding, reach              what finds peers for a download, and for all of them
    dht, local                  a node of the DHT, and the local network
    announcing, tracker*        trackers, by HTTP and by UDP
    ranges, webseed, webseeds   web servers that have the content
    reasons                     why one came to nothing
    progress, watch, serving    the progress line, the drawing in the terminal, and the files for a player
    choosing, keys              the files as a list on the screen, and the keys
    deadlines                   which peers are too slow for a player
    trace, recorder             what happened in a whole download
    picture, ticks              its drawing

Sockets are used by `swarm`, `seeking`, `serving`, `dht.node`, `local`, `ranges`, `webseed`, `web` and the trackers, and `parts` opens the one that
listens. Only `content`, `session`, `suspects`, `serving`, `levels`, `webseeds` and `transfer` tell the picker something.
"""

from __future__ import annotations

import importlib
import os
import sys
from typing import TYPE_CHECKING

# The package of this checkout, and the module that reads bencoded values.
CLIENTS = os.path.dirname(os.path.dirname(os.path.abspath(__file__)))
for folder in (os.path.join(CLIENTS, "python"), CLIENTS):
    if folder not in sys.path:
        sys.path.insert(0, folder)

if TYPE_CHECKING:
    from .download import Download, FileProgress
    from .metainfo import MetainfoFault
    from .progress import State
    from .source import NotFound
    from .storage import StorageFault

# What a program takes from here, and in which module it is. Help and lists need no library, so nothing is imported before it is used.
PLACES = {
    "Download": "download", "FileProgress": "download", "MetainfoFault": "metainfo", "NotFound": "source", "State": "progress",
    "StorageFault": "storage",
}  # fmt: skip
__all__ = ["Download", "FileProgress", "MetainfoFault", "NotFound", "State", "StorageFault"]


def __getattr__(name: str) -> object:
    if name not in PLACES:
        raise AttributeError(f"module {__name__!r} has no attribute {name!r}")
    return getattr(importlib.import_module(f".{PLACES[name]}", __name__), name)
