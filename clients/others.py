"""Starts BitTorrent clients of others for trials, each as a seeder or as a leecher, and the downloader of this folder beside them.

All meet at a small tracker, in a network of their own with an address for each. transmission refuses peers of the loopback network, and has
no two connections with one address.
"""

from __future__ import annotations

import atexit
import contextlib
import hashlib
import json
import os
import platform
import random
import shutil
import signal
import socket
import subprocess
import sys
import tempfile
import time
from collections.abc import Callable
from dataclasses import dataclass, field
from functools import cache
from pathlib import Path

from bencode import Value, bencode
from fetch.tests.trackers import HttpTracker
from fetch.wire import PROTOCOL

HERE = Path(__file__).resolve().parent
READY = 300.0  # seconds until a client answers, since a seeder may hash 4 GiB before, on a busy machine
CHUNK = 1 << 20
NETWORK = "10.77.0."
LOCAL = "127.0.0.1"
LIBRARY = "libpiecepick.so"
INSIDE = "PIECEPICK_NETWORK"  # in the environment: the network is there
PYTHON = "/usr/bin/python3"  # Debian's, which has libtorrent. Ours runs by it too: another one's own packages may make its start the longer one
SHORTEST = 5  # seconds between two announces of a client, for those that wait for the tracker to name others


def enter_network() -> None:
    """Starts this script again in a network of its own, in which each client has another address."""
    if os.environ.get(INSIDE):
        return
    set_up = "ip link set lo up; for number in $(seq 1 40); do ip address add %s$number/24 dev lo; done; exec \"$@\"" % NETWORK
    os.environ[INSIDE] = "yes"
    user = [] if os.getuid() == 0 else ["--map-root-user"]
    os.execvp("unshare", ["unshare", *user, "--net", "sh", "-ec", set_up, "sh", sys.executable, *sys.argv])


def free_port(host: str) -> int:
    """A port of an address that nobody has now."""
    with socket.socket() as listener:
        listener.bind((host, 0))
        return int(listener.getsockname()[1])


def sha1_of(path: Path) -> str:
    """The SHA-1 of a file."""
    hashed = hashlib.sha1()
    with open(path, "rb") as file:
        while data := file.read(CHUNK):
            hashed.update(data)
    return hashed.hexdigest()


@dataclass
class Content:
    """Files below a folder `content`, or one file of that name; and their torrent."""

    folder: Path
    lengths: dict[str, int]  # by path; "" is the single file
    piece_length: int
    digests: bytearray = field(default_factory=bytearray)
    right: dict[str, str] = field(default_factory=dict)  # the SHA-1 of each file

    @property
    def path(self) -> Path:
        """The file or the folder."""
        return self.folder / "content"

    @property
    def total(self) -> int:
        """All bytes."""
        return sum(self.lengths.values())

    def make(self, seed: str) -> None:
        """Writes random files, and keeps the digests of their pieces."""
        chance, rest = random.Random(seed), b""
        for name, length in self.lengths.items():
            path = self.path / name if name else self.path
            path.parent.mkdir(parents=True, exist_ok=True)
            with open(path, "wb") as file:
                while length > 0:
                    data = chance.randbytes(min(CHUNK, length))
                    file.write(data)
                    length -= len(data)
                    rest = self._hash(rest + data)
        if rest:
            self.digests += hashlib.sha1(rest).digest()
        self.right = self.sums(self.path)

    def _hash(self, data: bytes) -> bytes:
        """Takes whole pieces from the front of the data; what is left."""
        at = 0
        while len(data) - at >= self.piece_length:
            self.digests += hashlib.sha1(data[at : at + self.piece_length]).digest()
            at += self.piece_length
        return data[at:]

    def torrent(self, path: Path, announce: str = "", web_seed: str = "", is_private: bool = True) -> bytes:
        """Writes the metainfo file, and gives the infohash."""
        info: dict[bytes, Value] = {b"name": b"content", b"piece length": self.piece_length, b"pieces": bytes(self.digests)}
        if is_private:
            info[b"private"] = 1
        if "" in self.lengths:
            info[b"length"] = self.total
        else:
            info[b"files"] = [{b"length": length, b"path": list(name.encode().split(b"/"))} for name, length in self.lengths.items()]
        more: dict[bytes, Value] = {b"announce": announce.encode()} if announce else {}
        more |= {b"url-list": web_seed.encode()} if web_seed else {}
        path.write_bytes(bencode({b"info": info, **more}))
        return hashlib.sha1(bencode(info)).digest()

    def sums(self, at: Path) -> dict[str, str]:
        """The SHA-1 of each file, as it is at this place; empty where it isn't there."""
        paths = {name: at / name if name else at for name in self.lengths}
        return {name: sha1_of(path) if path.is_file() else "" for name, path in paths.items()}


@dataclass
class Client:
    """A client that was started. `out` is where it has the content."""

    name: str
    process: subprocess.Popen[bytes]
    host: str
    port: int
    out: Path
    began: float
    seconds: float = 0.0  # until it had all
    figures: dict[str, float] = field(default_factory=dict)

    @property
    def address(self) -> str:
        """Where it listens."""
        return f"{self.host}:{self.port}"

    def megabytes(self) -> float:
        """The most memory that it had until now."""
        with contextlib.suppress(OSError):
            for line in Path(f"/proc/{self.process.pid}/status").read_text(encoding="ascii").splitlines():
                if line.startswith("VmHWM"):
                    self.figures["megabytes"] = int(line.split()[1]) / 1000
        return self.figures.get("megabytes", 0.0)

    def stop(self, number: int = signal.SIGINT) -> None:
        """Ends it in order, or else at once."""
        if self.process.poll() is None:
            self.process.send_signal(number)
            try:
                self.process.wait(15)
            except subprocess.TimeoutExpired:
                self.process.kill()
        self.process.wait()


@dataclass
class Place:
    """A folder with a content, its torrent, a tracker, and the clients that were started in it."""

    folder: Path
    content: Content
    clients: list[Client] = field(default_factory=list)
    given: int = 0  # addresses

    def __post_init__(self) -> None:
        self.tracker = HttpTracker(host=f"{NETWORK}1", shortest=SHORTEST)
        self.torrent = self.folder / "content.torrent"
        self.infohash = self.content.torrent(self.torrent, self.tracker.url)

    def address(self) -> tuple[str, int]:
        """An address and a port for the next client."""
        self.given += 1
        host = f"{NETWORK}{1 + self.given}"
        return host, free_port(host)

    def start(self, name: str, command: list[str], host: str, port: int, out: Path, output: int | None = subprocess.DEVNULL) -> Client:
        """Starts a client."""
        process = subprocess.Popen(command, stdin=subprocess.DEVNULL, stdout=output, stderr=subprocess.DEVNULL)
        client = Client(name, process, host, port, out, time.monotonic())
        self.clients.append(client)
        return client

    def room(self, name: str, seeds: bool) -> Path:
        """A folder for a client, with the content in it where it seeds."""
        path = self.folder / f"{name}-{len(self.clients)}"
        path.mkdir()
        if seeds:
            if self.content.path.is_dir():
                shutil.copytree(self.content.path, path / "content", copy_function=os.link)
            else:
                os.link(self.content.path, path / "content")
        return path

    def wait_ready(self, client: Client) -> Client:
        """Waits until a seeder answers a handshake, and gives it."""
        end = time.monotonic() + READY
        while not self._answers(client):
            if time.monotonic() > end or client.process.poll() is not None:
                raise RuntimeError(f"{client.name} doesn't answer")
            time.sleep(0.3)
        time.sleep(1.0)
        return client

    def _answers(self, client: Client) -> bool:
        try:
            with socket.create_connection((client.host, client.port), 2.0) as connection:
                connection.settimeout(2.0)
                connection.sendall(PROTOCOL + bytes(8) + self.infohash + b"-PP0000-" + random.randbytes(12))
                return len(connection.recv(68)) > 0
        except OSError:
            return False

    def wait_ended(self, clients: list[Client], longest: float) -> bool:
        """Waits until each of these has ended by itself; whether that came in time and each content is right.

        transmission doesn't end. It has all once the file has its name.
        """
        end = time.monotonic() + longest
        left = list(clients)
        while left and time.monotonic() < end:
            time.sleep(0.02)
            for client in list(left):
                client.megabytes()
                if client.process.poll() is not None or (client.name == "transmission" and client.out.exists()):
                    client.seconds = time.monotonic() - client.began
                    left.remove(client)
        return not left and all(self.content.sums(client.out) == self.content.right for client in clients)

    def has_all(self, client: Client) -> bool:
        """Whether the client has told the tracker that it has all. rtorrent says that late, so that its files are looked at."""
        if client.name == "rtorrent":
            time.sleep(0.3)
            return self.content.sums(client.out) == self.content.right
        return any(told["port"] == str(client.port) and told.get("event") == "completed" for told in list(self.tracker.announces))

    def wait_all(self, clients: list[Client], longest: float) -> bool:
        """Waits until each of these has all; whether that came in time and each content is right."""
        end = time.monotonic() + longest
        left = list(clients)
        while left and time.monotonic() < end:
            time.sleep(0.05)
            if dead := [client.name for client in left if client.process.poll() is not None]:
                raise RuntimeError(f"ended before it had all: {dead}")
            for client in list(left):
                client.megabytes()
                if self.has_all(client):
                    client.seconds = time.monotonic() - client.began
                    left.remove(client)
        time.sleep(0.5)  # for the last names of files
        return not left and all(self.content.sums(client.out) == self.content.right for client in clients)

    def downloaded(self, clients: list[Client]) -> int | None:
        """The bytes that these clients told the tracker to have got, each at last; None where rtorrent is one, which goes without a word."""
        if any(client.name == "rtorrent" for client in clients):
            return None
        last = {told["port"]: int(told["downloaded"]) for told in self.tracker.announces}
        return sum(last.get(str(client.port), 0) for client in clients)

    def uploaded(self, client: Client) -> int:
        """The bytes that this client told the tracker to have sent."""
        return max(int(told["uploaded"]) for told in self.tracker.announces if told["port"] == str(client.port))

    def close(self) -> None:
        """Ends all that was started here."""
        for client in self.clients:
            client.stop()
        self.tracker.close()


def keep_pieces(path: Path, piece_length: int, keeps: Callable[[int], bool]) -> None:
    """A file loses the pieces that aren't to be kept. It is a copy then, since others have the same file by another name."""
    data = bytearray(path.read_bytes())
    for piece, at in enumerate(range(0, len(data), piece_length)):
        if not keeps(piece):
            end = min(at + piece_length, len(data))
            data[at:end] = bytes(end - at)
    path.unlink()
    path.write_bytes(data)


def aria2(
    place: Place, seeds: bool, kilobytes: int = 0, keeps: Callable[[int], bool] | None = None, words: tuple[str, ...] = (), torrent: str = ""
) -> Client:
    """aria2; it sends so many kilobytes a second at most, or as it can. Where it keeps some pieces alone, it downloads the others.

    Of its words the last one of an option counts, so that others may turn on what is off here.
    """
    (host, port), room = place.address(), place.room("aria2", seeds)
    if keeps:
        keep_pieces(room / "content", place.content.piece_length, keeps)
    command = [
        "aria2c", "--no-conf", f"--interface={host}", f"--listen-port={port}", "--enable-dht=false", "--enable-dht6=false",
        "--bt-enable-lpd=false", "--enable-peer-exchange=false", "--seed-ratio=0.0", "--allow-overwrite=true", "--file-allocation=falloc",
        f"--max-overall-upload-limit={kilobytes}K", f"--dir={room}", *words, torrent or str(place.torrent),
    ]  # fmt: skip
    return place.start("aria2", command + (["--check-integrity=true"] if seeds else []), host, port, room / "content")


def transmission(place: Place, seeds: bool, kilobytes: int = 0, exchanges: bool = False) -> Client:
    """transmission-daemon."""
    (host, port), room = place.address(), place.room("transmission", seeds)
    (room / "watched").mkdir()
    shutil.copy(place.torrent, room / "watched")
    settings = transmission_settings(room, host, port, kilobytes, {"pex-enabled": exchanges})
    command = ["transmission-daemon", "--foreground", "--config-dir", str(settings)]
    return place.start("transmission", command, host, port, room / "content")


def transmission_by_link(place: Place, link: str, node: str) -> Client:
    """transmission-cli by a magnet link. Its DHT begins at this node."""
    (host, port), room = place.address(), place.room("transmission", False)
    settings = transmission_settings(room, host, port, 0, {"dht-enabled": True})
    (settings / "dht.bootstrap").write_text(node.replace(":", " ") + "\n", encoding="ascii")
    command = ["transmission-cli", "--config-dir", str(settings), "--download-dir", str(room), "--port", str(port), link]
    return place.start("transmission", command, host, port, room / "content")


def transmission_settings(room: Path, host: str, port: int, kilobytes: int, more: dict[str, object]) -> Path:
    """A folder with the settings of transmission. A torrent in the folder `watched` beside it is taken."""
    (room / "settings").mkdir()
    chosen: dict[str, object] = {
        "bind-address-ipv4": host, "bind-address-ipv6": "::1", "peer-port": port, "rpc-enabled": False, "download-dir": str(room),
        "watch-dir": str(room / "watched"), "watch-dir-enabled": True, "dht-enabled": False, "lpd-enabled": False, "pex-enabled": False,
        "utp-enabled": False, "port-forwarding-enabled": False, "speed-limit-up": kilobytes, "speed-limit-up-enabled": kilobytes > 0,
    }  # fmt: skip
    (room / "settings" / "settings.json").write_text(json.dumps(chosen | more), encoding="ascii")
    return room / "settings"


def qbittorrent(place: Place, seeds: bool, kilobytes: int = 0) -> Client:
    """qbittorrent-nox, whose library is libtorrent-rasterbar."""
    (host, port), room = place.address(), place.room("qbittorrent", seeds)
    settings = room / "profile" / "qBittorrent" / "config"
    settings.mkdir(parents=True)
    (settings / "qBittorrent.conf").write_text(
        "[LegalNotice]\nAccepted=true\n[BitTorrent]\n"
        f"Session\\Port={port}\nSession\\InterfaceAddress={host}\nSession\\DHTEnabled=false\nSession\\LSDEnabled=false\n"
        f"Session\\PeXEnabled=false\nSession\\GlobalUPSpeedLimit={kilobytes}\n[Preferences]\nWebUI\\Address=127.0.0.1\n",
        encoding="ascii",
    )
    command = ["qbittorrent-nox", f"--profile={room / 'profile'}", f"--webui-port={free_port('127.0.0.1')}", f"--save-path={room}"]
    return place.start("qbittorrent", [*command, "--add-paused=false", "--skip-dialog=true", str(place.torrent)], host, port, room / "content")


def rtorrent(place: Place, seeds: bool, kilobytes: int = 0) -> Client:
    """rtorrent, whose library is libtorrent of rakshasa."""
    (host, port), room = place.address(), place.room("rtorrent", seeds)
    chosen = [
        "system.daemon.set=true", f"directory.default.set={room}", f"network.port_range.set={port}-{port}", f"network.bind_address.set={host}",
        "protocol.pex.set=no", "dht.mode.set=disable", f"throttle.global_up.max_rate.set_kb={kilobytes}",
    ]  # fmt: skip
    command = ["rtorrent", "-n", *(word for choice in chosen for word in ("-o", choice)), "-O", f"load.start={place.torrent}"]
    return place.start("rtorrent", command, host, port, room / "content")


def libtorrent(place: Place, rate: int, seconds: int, is_sequential: bool) -> Client:
    """libtorrent-rasterbar with deadlines for the next seconds of a player, who reads so many bytes a second at its output."""
    (host, port), room = place.address(), place.room("libtorrent", False)
    command = [PYTHON, str(HERE / "player_libtorrent.py"), str(place.torrent), str(room), host, str(port), str(rate), str(seconds)]
    command += ["--sequential"] if is_sequential else []
    return place.start("libtorrent", command, host, port, room / "content", subprocess.PIPE)


def libtorrent_peer(place: Place, seeds: bool, words: tuple[str, ...] = (), torrent: str = "", at: tuple[str, int] | None = None) -> Client:
    """libtorrent-rasterbar by its own settings, as a seeder, or as a leecher that ends when it has all."""
    (host, port), room = at or place.address(), place.room("libtorrent", seeds)
    script = str(HERE / "fetch" / "tests" / "libtorrent_peer.py")
    command = [PYTHON, script, torrent or str(place.torrent), str(room), host, str(port), *words, *(["--stays"] if seeds else [])]
    return place.start("libtorrent", command, host, port, room / "content")


def libtorrent_client(place: Place, seeds: bool, kilobytes: int = 0) -> Client:
    """The same, which stays when it has all, as the other clients do."""
    return libtorrent_peer(place, seeds, ("--stays", "--up", str(kilobytes)))


def opentracker(place: Place) -> int:
    """Starts opentracker for this torrent alone, as Debian builds it; its port, by HTTP and by UDP."""
    host, room = f"{NETWORK}1", place.room("opentracker", False)
    port = free_port(host)
    (room / "allowed").write_text(place.infohash.hex() + "\n", encoding="ascii")
    room.chmod(0o755)
    command = ["opentracker", "-i", host, "-p", str(port), "-P", str(port), "-d", str(room), "-w", "allowed"]
    place.start("opentracker", command, host, port, room)
    end = time.monotonic() + READY
    while time.monotonic() < end:
        with contextlib.suppress(OSError), socket.create_connection((host, port), 1.0):
            return port
        time.sleep(0.1)
    raise RuntimeError("opentracker doesn't answer")


@cache
def installed() -> Path:
    """The downloader as an installation has it: its modules are compiled already, as the other clients are, and nothing is written beside them."""
    folder = Path(tempfile.mkdtemp(prefix="piecepick-"))
    atexit.register(shutil.rmtree, folder, ignore_errors=True)
    for module in ("fetch.py", "bencode.py"):
        shutil.copy(HERE / module, folder)
    for package in ("fetch", "python/piecepick"):
        shutil.copytree(HERE / package, folder / package, ignore=shutil.ignore_patterns("tests", "__pycache__"))
    built, released = HERE / "out" / LIBRARY, HERE.parent / "release" / f"{platform.machine()}-linux" / "lib" / LIBRARY
    shutil.copy(built if built.exists() else released, folder / "python" / "piecepick")
    subprocess.run([PYTHON, "-m", "compileall", "-q", str(folder)], check=True)
    return folder / "fetch.py"


def fetch(
    place: Place, seeds: bool, kilobytes: int = 0, words: tuple[str, ...] = ("--seed-minutes", "10"), peers: tuple[str, ...] = (),
    torrent: str = "",
) -> Client:
    """The downloader of this folder. It has no DHT, unless its words say so."""
    (host, port), room = place.address(), place.room("fetch", seeds)
    command = [PYTHON, str(installed()), "--quiet", "--json", "--no-dht", "--bind", host, "--port", str(port), *words]
    command += ["--up", str(kilobytes)] if kilobytes else []
    command += [torrent or str(place.torrent), str(room / "content"), *peers]
    return place.start("fetch", command, host, port, room / "content", subprocess.PIPE)


START: dict[str, Callable[..., Client]] = {
    "aria2": aria2, "transmission": transmission, "qbittorrent": qbittorrent, "rtorrent": rtorrent, "fetch": fetch,
    "libtorrent": libtorrent_client,
}  # fmt: skip
