"""The parts of one download, each built over those that it stands on. Nothing runs yet."""

from __future__ import annotations

import errno
import secrets
import socket
from typing import TYPE_CHECKING, cast

from piecepick import Keeps, Picker, PiecepickError, Status

from .addresses import Addresses, Origin
from .announcing import Announcer
from .blame import Address
from .checking import Checker
from .content import Content
from .extensions import Extensions
from .identity import NO_PORT, new_peer_id
from .layout import File, Layout
from .limits import Bounds, bounds_of
from .lock import Lock
from .metainfo import MetainfoFault, files_of, info_of, is_folder, is_private, read, trackers_of
from .meter import Metered
from .options import Options
from .peer import FIRST_DEPTH, MOST_DEPTH
from .place import STATE_SUFFIX, root_of
from .session import Session
from .storage import Storage
from .swarm import Limits, Swarm
from .tracker import Announce, Event
from .uploads import Uploads

if TYPE_CHECKING:
    from .recorder import Recorder

PORTS = range(6881, 6890)
USUAL_LEVEL = 4


def open_picker(metainfo: bytes, options: Options) -> Picker:
    """The picker. Two numbers for each peer, since a number isn't given to another while it names a block's sender; and one for the disk."""
    try:
        return Picker(
            metainfo, keeps=Keeps.NOTHING, workers=2 * options.most_peers + 1, depth=FIRST_DEPTH, deepest=MOST_DEPTH, askers=options.askers
        )
    except PiecepickError as error:
        if error.status is Status.BENCODE:
            read(metainfo)  # what isn't even bencoded carelessly has a better word
        strict = "it isn't bencoded as strictly as BEP 3 has it"
        cause = strict if error.status is Status.BENCODE else error.status.name.lower().replace("_", " ")
        raise MetainfoFault(f"the library can't use the metainfo file: {cause}") from error


def layout_of(picker: Picker) -> Layout:
    """Where the files lie in the content."""
    return Layout(files_of(picker), picker.piece_length(0), picker.total)


def listener_of(options: Options) -> socket.socket | None:
    """The socket at which peers connect to us. Raises ValueError where the port that was told can't be had."""
    if not options.listens:
        if options.bind:
            _try_address(options.bind)
        return None
    ports = PORTS if options.port is None else [options.port]
    for port in ports:
        try:
            return _listen(options.bind, port)
        except OSError as error:
            if options.port is not None or error.errno == errno.EADDRNOTAVAIL:
                raise ValueError(why_not(error, port, "--port", options.bind)) from error
    return _listen(options.bind, 0)


def _listen(host: str, port: int) -> socket.socket:
    return socket.create_server((host, port), family=socket.AF_INET6 if ":" in host else socket.AF_INET)


def _try_address(host: str) -> None:
    """Raises ValueError where connections can't begin at this address."""
    try:
        _listen(host, 0).close()
    except OSError as error:
        raise ValueError(why_not(error, 0, "--bind", host)) from error


def why_not(error: OSError, port: int, option: str, host: str = "") -> str:
    """Why nobody can listen at a port, and the option that changes it."""
    if error.errno == errno.EADDRINUSE:
        return f"port {port} is in use: {option} chooses another one"
    if error.errno == errno.EACCES:
        return f"port {port} is for the system's programs: {option} chooses another one"
    if error.errno == errno.EADDRNOTAVAIL:
        return f"{host} is no address of this machine: --bind chooses another one"
    return f"port {port} can't be had ({error.strerror}): {option} chooses another one"


def file_levels(layout: Layout, options: Options) -> dict[int, int]:
    """The level of each file. Raises ValueError where a number has no file."""
    numbers = {file.number for file in layout.files}
    named = set(options.levels) | (options.only or set())
    if unknown := named - numbers:
        raise ValueError(f"there is no file {min(unknown)}: --list shows the numbers")
    levels = {number: USUAL_LEVEL if options.only is None or number in options.only else 0 for number in numbers} | options.levels
    if not any(levels.values()):
        raise ValueError("no file is wanted: --only and --level choose some")
    return levels


class Parts:
    """What a download is made of. `metered` is the picker itself where its calls are counted."""

    def __init__(self, options: Options, metainfo: bytes, bounds: Bounds | None = None) -> None:
        self.bounds = bounds or bounds_of(options.up_limit, options.down_limit)
        plain = open_picker(metainfo, options)
        self.options, self.metainfo, self.is_private = options, metainfo, is_private(metainfo)
        self.metered = Metered(plain) if options.meters else None
        self.picker = cast(Picker, self.metered or plain)
        self.layout, self.name = layout_of(plain), plain.name
        self.levels = file_levels(self.layout, options)
        self.root = root_of(options.out, plain.name, self.layout, is_folder(plain))
        self.lock = Lock(self.root)
        self.lock.take()
        try:
            self._build(is_folder(plain))
        except BaseException:
            self.lock.release()
            raise

    def _build(self, is_folder: bool) -> None:
        """All that stands on the picker and the layout, at a place that nobody else writes to."""
        options = self.options
        listener = listener_of(options)
        self.storage = Storage(self.root, self.layout, is_folder)
        self.checker = Checker(self.storage, lambda: self.swarm.wake())
        self.content = Content(self.picker, self.layout, self.storage, self.checker, self.root + STATE_SUFFIX)
        self.uploads = Uploads(self.content, self.bounds.up)
        self.recorder = self._new_recorder() if options.picture else None
        self.port = int(listener.getsockname()[1]) if listener else 0
        self.extensions = Extensions(info_of(self.metainfo), self.port, options.exchanges_peers and not self.is_private, self._hear_of)
        self.session = Session(self.content, self.uploads, self.recorder, self.extensions)
        limits = Limits(new_peer_id(), options.most_peers, options.slots, options.bind)
        self.swarm = Swarm(self.session, Addresses(), limits, listener, self.bounds.down)
        tiers = trackers_of(self.metainfo) if options.asks_trackers else []
        self.announcer = Announcer(tiers, self._announce, self.swarm.wake, options.bind)
        self._key = secrets.randbits(32)

    def _new_recorder(self) -> Recorder:
        """Keeps what the picture shows."""
        from .recorder import Recorder

        return Recorder(self.picker, self.layout)

    def _hear_of(self, peers: list[Address], teller: Address) -> None:
        """A peer tells of others."""
        self.swarm.addresses.hear(peers, Origin.EXCHANGE, teller)

    def _announce(self, event: Event) -> Announce:
        """What a tracker is told now."""
        return Announce(
            self.content.infohash, self.swarm.limits.peer_id, self.port or NO_PORT, self.uploads.total, self.session.figures.bytes, self.content.left,
            event, self._key,
        )  # fmt: skip

    @property
    def wanted_files(self) -> list[File]:
        """The files that are downloaded."""
        return [file for file in self.layout.files if self.levels[file.number] > 0]

    def stop(self) -> None:
        """Ends threads and connections. The disk stays, so that the state can be written."""
        self.checker.close()
        self.announcer.stop()
        self.swarm.close()
