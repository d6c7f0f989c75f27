"""One download in a small network: its hosts, what is done meanwhile, and the figures that come of it."""

from __future__ import annotations

import base64
import contextlib
import hashlib
import http.server
import os
import random
import shutil
import signal
import statistics
import sys
import threading
import time
from collections.abc import Callable, Iterator
from dataclasses import dataclass, field
from pathlib import Path
from typing import Any

from daemon import PORT, Daemon
from network import Line, Network, inside
from spoiler import Spoiler

sys.path.insert(0, str(Path(__file__).resolve().parent.parent))

from bencode import Value, bencode  # noqa: E402
from fetch.tests.trackers import compact  # noqa: E402

MEGABYTE = 1e6
TRACKER = 6969  # its port
CHUNK = 1 << 20
LOOK = 0.1  # seconds between two looks at a leecher
SEEDING = 6  # a status of transmission: the content was hashed
SETTLE = 1.0  # seconds for what is still under way at the end
FIELDS = ("leftUntilDone", "haveValid", "haveUnchecked", "sizeWhenDone")


@dataclass(frozen=True)
class Content:
    """What is downloaded: one file, or several ones."""

    lengths: tuple[int, ...]
    piece_length: int = 1 << 18

    @property
    def total(self) -> int:
        """All bytes."""
        return sum(self.lengths)


@dataclass(frozen=True)
class Host:
    """A role, which is seed, leech or spoiler, and a line."""

    role: str
    line: Line = Line()


@dataclass(frozen=True)
class Scene:
    """A download, and what is done with it. `act` is given the trial once its leechers have started."""

    about: str
    hosts: tuple[Host, ...]
    content: Content
    packet: int = 9000
    longest: float = 240.0
    act: Callable[[Trial], None] | None = None
    settings: dict[str, Any] = field(default_factory=dict)
    by_link: bool = False  # the leechers have a magnet link alone
    programs: tuple[str, ...] = ("own", "ours")  # of the leechers; in "both" every other one has ours

    @property
    def leechers(self) -> int:
        """How many download."""
        return sum(host.role == "leech" for host in self.hosts)


@dataclass
class Figures:
    """What came of one download. Of several leechers they are the means."""

    is_well: bool = False
    seconds: float = 0.0
    megabytes: float = 0.0  # resident at most
    processor: float = 0.0
    twice: float = 0.0  # megabytes that were sent beyond what was needed
    seeded: float = 0.0  # contents that the seeders sent
    more: dict[str, float] = field(default_factory=dict)


class Store:
    """The content on the disk, with its torrent. It is made once for all downloads."""

    def __init__(self, content: Content, folder: Path, hosts: int) -> None:
        self.content, self.folder, self.tracker = content, folder, 1 + hosts
        self.announce = f"http://{Network.address(self.tracker)}:{TRACKER}/announce"
        self.path = folder / "content"
        self.torrent = folder / "content.torrent"
        self.sums: list[str] = []
        self.infohash = b""
        folder.mkdir(parents=True)
        self._make()

    def files(self, below: Path) -> list[Path]:
        """The files, of a client that has them below that folder."""
        if len(self.content.lengths) == 1:
            return [below / "content"]
        return [below / "content" / f"part-{number}" for number in range(len(self.content.lengths))]

    def _make(self) -> None:
        chance, digests, rest = random.Random(1), bytearray(), b""
        for path, length in zip(self.files(self.folder), self.content.lengths):
            path.parent.mkdir(exist_ok=True)
            whole = hashlib.sha1()
            with open(path, "wb") as file:
                for at in range(0, length, CHUNK):
                    data = chance.randbytes(min(CHUNK, length - at))
                    file.write(data)
                    whole.update(data)
                    rest = self._hash(rest + data, digests)
            self.sums.append(whole.hexdigest())
        if rest:
            digests += hashlib.sha1(rest).digest()
        self._write(bytes(digests))

    def _hash(self, data: bytes, digests: bytearray) -> bytes:
        at, length = 0, self.content.piece_length
        while len(data) - at >= length:
            digests += hashlib.sha1(data[at : at + length]).digest()
            at += length
        return data[at:]

    def _write(self, digests: bytes) -> None:
        lengths = self.content.lengths
        info: dict[bytes, Value] = {b"name": b"content", b"piece length": self.content.piece_length, b"pieces": digests}
        if len(lengths) == 1:
            info[b"length"] = lengths[0]
        else:
            info[b"files"] = [{b"length": length, b"path": [b"part-%d" % number]} for number, length in enumerate(lengths)]
        self.infohash = hashlib.sha1(bencode(info)).digest()
        self.torrent.write_bytes(bencode({b"announce": self.announce.encode(), b"info": info}))

    def link_text(self) -> str:
        """The magnet link."""
        return f"magnet:?xt=urn:btih:{self.infohash.hex()}&tr={self.announce}"

    def link(self, below: Path) -> None:
        """A client that seeds has the same files."""
        for path, own in zip(self.files(self.folder), self.files(below)):
            own.parent.mkdir(exist_ok=True)
            os.link(path, own)

    def is_right(self, below: Path) -> bool:
        """Whether a client has the content."""
        return [sum_of(path) for path in self.files(below)] == self.sums


def sum_of(path: Path) -> str:
    """The SHA-1 of a file; empty where it isn't there."""
    if not path.is_file():
        return ""
    with open(path, "rb") as file:
        return hashlib.file_digest(file, "sha1").hexdigest()


def tracker_of(address: tuple[str, int], peers: bytes, leechers: set[str]) -> http.server.ThreadingHTTPServer:
    """A tracker that names all hosts to the leechers. Seeders wait to be called, so that no two hosts call each other at once."""

    class Handler(http.server.BaseHTTPRequestHandler):
        """Answers one announce."""

        def do_GET(self) -> None:
            named = peers if self.client_address[0] in leechers else b""
            body = b"d8:intervali1800e12:min intervali60e5:peers%d:%se" % (len(named), named)
            self.send_response(200)
            self.send_header("Content-Length", str(len(body)))
            self.end_headers()
            self.wfile.write(body)

        def log_message(self, format: str, *arguments: object) -> None:
            """Nothing is logged."""

    server = http.server.ThreadingHTTPServer(address, Handler)
    threading.Thread(target=server.serve_forever, args=[0.05], daemon=True).start()
    return server


class Trial:
    """A download that runs."""

    def __init__(self, scene: Scene, store: Store, programs: dict[str, Path], who: str, folder: Path) -> None:
        self.scene, self.store, self.folder = scene, store, folder
        self.figures = Figures()
        self.network = Network([host.line for host in scene.hosts] + [Line()], scene.packet)
        self.seeds: list[Daemon] = []
        self.leechers: list[Daemon] = []
        self.spoilers: list[Spoiler] = []
        self.took: dict[int, float] = {}
        peers = [(self.network.address(number), PORT) for number in range(1, 1 + len(scene.hosts))]
        leechers = {host for (host, _), at in zip(peers, scene.hosts) if at.role == "leech"}
        with inside(self.network.names[-1]):
            self.tracker = tracker_of((self.network.address(store.tracker), TRACKER), compact(peers), leechers)
        for number, host in enumerate(scene.hosts, 1):
            self._host(number, host.role, programs, who)

    def _host(self, number: int, role: str, programs: dict[str, Path], who: str) -> None:
        room = self.folder / f"host-{number}"
        room.mkdir(parents=True)
        if role == "spoiler":
            pieces = -(-self.scene.content.total // self.scene.content.piece_length)
            with inside(self.network.names[number - 1]):
                self.spoilers.append(Spoiler((self.network.address(number), PORT), self.store.infohash, pieces))
        elif role == "seed":
            self.store.link(room)
            self.seeds.append(Daemon(self.network, number, programs["own"], room))
        else:
            has_ours = who == "ours" or (who == "both" and len(self.leechers) % 2 == 1)
            self.leechers.append(Daemon(self.network, number, programs["ours" if has_ours else "own"], room))

    def run(self) -> Figures:
        """Runs it to its end."""
        for daemon in self.seeds + self.leechers:
            daemon.start(self.scene.settings if daemon in self.leechers else {})
            if daemon in self.seeds:
                daemon.add(self.store.torrent)
        self.until(self._are_seeding, self.scene.longest)
        for daemon in self.leechers:
            if self.scene.by_link:
                daemon.call("torrent-add", filename=self.store.link_text())
            else:
                daemon.add(self.store.torrent)
        self.began = self.until(lambda: any(self.had(daemon) > 0 for daemon in self.leechers), 60.0)
        if self.scene.act:
            self.scene.act(self)
        self.until(self._are_done, self.scene.longest)
        self._count()
        return self.figures

    def _are_seeding(self) -> bool:
        return all(daemon.fields("status")["status"] == SEEDING for daemon in self.seeds)

    def until(self, is_so: Callable[[], bool], longest: float) -> float:
        """Waits for something, and tells when it was so."""
        end = time.monotonic() + longest
        while not is_so():
            if time.monotonic() > end:
                raise TimeoutError(f"{self.scene.about}: nothing in {longest:.0f} s")
            time.sleep(LOOK)
        return time.monotonic()

    def had(self, daemon: Daemon) -> int:
        """The bytes that a leecher has."""
        told = daemon.fields(*FIELDS)
        return int(told.get("haveValid", 0)) + int(told.get("haveUnchecked", 0))

    def waits_for(self, share: float) -> None:
        """Waits until the first leecher has so much."""
        self.until(lambda: self.had(self.leechers[0]) >= share * self.scene.content.total, self.scene.longest)

    def is_done(self, daemon: Daemon) -> bool:
        """Whether a leecher has all that it wants."""
        told = daemon.fields(*FIELDS)
        return told.get("leftUntilDone") == 0 and told.get("sizeWhenDone", 0) > 0 and self.had(daemon) > 0

    def _are_done(self) -> bool:
        for daemon in self.leechers:
            if daemon.number not in self.took and self.is_done(daemon):
                self.took[daemon.number] = time.monotonic() - self.began
        return len(self.took) == len(self.leechers)

    def uploaded(self) -> float:
        """All bytes of blocks that were sent."""
        return sum(daemon.uploaded() for daemon in self.seeds + self.leechers) + sum(spoiler.sent for spoiler in self.spoilers)

    def _count(self) -> None:
        figures, total = self.figures, self.scene.content.total
        figures.seconds = statistics.mean(self.took.values())
        figures.processor = statistics.mean(daemon.processor() for daemon in self.leechers)
        figures.megabytes = statistics.mean(daemon.most_memory() for daemon in self.leechers)
        time.sleep(SETTLE)
        figures.twice = (self.uploaded() - total * len(self.leechers)) / MEGABYTE
        figures.seeded = sum(daemon.uploaded() for daemon in self.seeds) / total
        for who, place in (("own", 0), ("ours", 1)):
            if len(self.leechers) > 2:
                figures.more[f"seconds of every other, {who}"] = statistics.mean(list(dict(sorted(self.took.items())).values())[place::2])
        for daemon in self.leechers:
            daemon.stop()
        figures.is_well = all(self.store.is_right(daemon.folder) for daemon in self.leechers)

    def pieces(self) -> list[bool]:
        """Which pieces the first leecher has."""
        flags = base64.b64decode(self.leechers[0].fields("pieces")["pieces"])
        count = -(-self.scene.content.total // self.scene.content.piece_length)
        return [bool(flags[piece // 8] >> (7 - piece % 8) & 1) for piece in range(count)]

    def close(self) -> None:
        """Ends all of it."""
        for daemon in self.seeds + self.leechers:
            daemon.stop(signal.SIGKILL)
        for spoiler in self.spoilers:
            spoiler.close()
        self.tracker.shutdown()
        self.tracker.server_close()
        self.network.close()
        shutil.rmtree(self.folder, ignore_errors=True)


@contextlib.contextmanager
def trial_of(scene: Scene, store: Store, programs: dict[str, Path], who: str, folder: Path) -> Iterator[Trial]:
    """A trial, of which nothing is left behind."""
    trial = Trial(scene, store, programs, who, folder)
    try:
        yield trial
    finally:
        trial.close()
