"""A download that another program runs."""

from __future__ import annotations

from collections.abc import Iterator
from contextlib import closing
from dataclasses import dataclass
from types import TracebackType
from typing import Any

from . import magnet
from .options import FIRST_NODES, Options
from .progress import State
from .reach import Reach
from .source import Source, is_magnet, read
from .transfer import Interrupted, Transfer


@dataclass(frozen=True)
class FileProgress:
    """A file of the torrent: its number from 1 on, its path below the folder, its bytes, its level, and the share of it that is there."""

    number: int
    path: str
    length: int
    level: int
    share: float


class Download:
    """A download, which runs while it is iterated over.

        with Download("file.torrent", "folder/", only={1, 3}) as download:
            for progress in download:
                print(f"{progress.done} of {progress.wanted} bytes from {progress.peers} peers")
        print(download.is_complete)

    The torrent is a path, an address of the web, a magnet link, or the bytes of a metainfo file. `out` is the file or the folder, as OUT of the
    program is. The other choices have the names of the fields of `fetch.options.Options`: `peers`, `only`, `levels`, `in_order`, `port`, `bind`,
    `down_limit`, `seed_ratio`, `give_up`, .. The DHT is used with `uses_dht=True`.

    Each turn of the iteration is a State, some times a second: `done`, `wanted`, `down`, `up`, `peers`, `pieces_done`, `pieces`, `note`. The last
    one stands for the end. The iteration ends when all that is wanted is there and given as often as was chosen, after `stop`, or when nothing has
    come for `give_up` seconds. It raises MetainfoFault, StorageFault, NotFound, ValueError or OSError, as the program has a sentence for each.
    What it has done stays on the disk, and another Download with the same torrent and the same `out` goes on.

    All calls are for one thread, but `stop`. No signal is handled, and nothing is printed but warnings.
    """

    def __init__(self, torrent: str | bytes, out: str = "", **choices: Any) -> None:
        if choices.get("uses_dht"):
            choices.setdefault("dht_nodes", FIRST_NODES)
        self._metainfo = torrent if isinstance(torrent, bytes) else None
        self.options = Options("" if isinstance(torrent, bytes) else torrent, out, quiet=True, **choices)
        self._reach = Reach(self.options)
        self._transfer: Transfer | None = None
        self._is_stopping = self._is_closed = False

    def __enter__(self) -> Download:
        return self

    def __exit__(self, kind: type[BaseException] | None, error: BaseException | None, trace: TracebackType | None) -> None:
        self.close()

    def __iter__(self) -> Iterator[State]:
        """Runs the download."""
        if self._is_closed:
            raise ValueError("the download is closed")
        source: Source | None = Source(self._metainfo) if self._metainfo is not None else None
        if source is None and not is_magnet(self.options.torrent):
            source = read(self.options)
        if source is None:
            from .following import Following

            with closing(Following(magnet.parse(self.options.torrent), self.options, self._reach)) as following:
                while (source := following.turn()) is None:
                    following.seeker.is_stopping = self._is_stopping
                    yield State(0, 0, 0.0, 0.0, len(following.seeker.links), note=following.line)
        yield from self._run(source)

    def _run(self, source: Source) -> Iterator[State]:
        if self._transfer:
            source.close()
        self._transfer = transfer = self._transfer or Transfer.of(source, self.options, self._reach)
        try:
            transfer.prepare()
        except Interrupted:
            return
        told = transfer.latest
        while not self._is_stopping and transfer.turn():
            if transfer.latest is not told:
                told = transfer.latest
                yield told
        transfer.latest = transfer.state(transfer.parts.session.now)
        yield transfer.latest

    def stop(self) -> None:
        """Ends the iteration soon. Any thread may call it."""
        self._is_stopping = True
        if self._transfer:
            self._transfer.parts.swarm.is_stopping = True
            self._transfer.parts.swarm.wake()

    def close(self) -> None:
        """Ends all connections, and writes down what is there. It is called at the end of the `with` block."""
        if not self._is_closed:
            self._is_closed = True
            if self._transfer:
                self._transfer.close()
            self._reach.close()

    @property
    def is_complete(self) -> bool:
        """Whether all that is wanted is there."""
        return self._transfer is not None and self._transfer.parts.picker.has_wanted

    @property
    def path(self) -> str:
        """The file or the folder; empty before the torrent is known."""
        return self._transfer.parts.root if self._transfer else ""

    @property
    def files(self) -> list[FileProgress]:
        """The files, as they are now; none before the torrent is known."""
        rows = self._transfer.levels.rows() if self._transfer else []
        return [FileProgress(row.file.number, row.file.path, row.file.length, row.level, row.share) for row in rows]

    def choose(self, number: int, level: int) -> None:
        """A file gets another level, in the midst of the iteration: 0 is not downloaded, 4 is usual, 7 comes first. Raises ValueError."""
        if self._transfer is None or number not in self._transfer.parts.levels or not 0 <= level <= 7:
            raise ValueError(f"there is no file {number}, or no level {level}")
        self._transfer.levels.choose(number, level)

    def figures(self) -> dict[str, Any]:
        """What happened in numbers, by the names that the program prints with --figures; empty before the torrent is known."""
        return self._transfer.figures() if self._transfer else {}
