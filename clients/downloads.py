#!/usr/bin/env python3
"""Runs the downloader against real clients on this machine, and the same downloads by those clients.

usage: downloads.py [--rounds N] [NAME ..]        (--list names them; all of them where none is named)
       downloads.py --picture FILE.svg

It makes files and torrents in a directory of its own, and starts a small tracker, the seeders and the leechers. The content of each leecher is
compared by SHA-1, file by file. Where others download the same, the medians of all rounds are compared.

The status is 0 where each download was well and ours had at most 60 MB, and let a player wait no longer than beside libtorrent. From three rounds
on ours must have taken at most 1.05 of the time of the best other client. In some trials libtorrent's time is printed, and ours is judged by the
others alone: see SHORT.

A line says who downloaded, how long it took until all was there, the most memory, and the bytes that came beyond one copy, as the leecher tells
its tracker. Beside a player it says the seconds until the player was at the end, and how long the player stood still.

It needs Debian's packages aria2, transmission-daemon, transmission-cli, qbittorrent-nox, rtorrent, opentracker and python3-libtorrent, and
`unshare` for a network of its own.
"""

from __future__ import annotations

import contextlib
import hashlib
import http.client
import json
import signal
import statistics
import sys
import tempfile
import threading
import time
from collections.abc import Callable
from dataclasses import dataclass, field
from pathlib import Path
from typing import IO

from fetch.dht.node import Node
from fetch.tests.webservers import WebServer
from others import (
    LOCAL, NETWORK, READY, START, Client, Content, Place, aria2, enter_network, fetch, free_port, installed, libtorrent, libtorrent_peer,
    opentracker, transmission, transmission_by_link,
)  # fmt: skip

LONGEST = 600.0  # seconds of one download, since 4 GiB take long on a busy machine
MOST_MEMORY = 60.0  # megabytes of ours
MOST_TIME = 1.05  # of the best other client's seconds
LEAST_ROUNDS = 3  # from which on times are judged: single ones differ by a tenth, and more, by chance
BEST_OF = ("aria2", "transmission", "libtorrent")
# Where ours isn't judged by libtorrent, which is C++ in many threads: nothing limits the line, or three seconds are all, and Python's start counts.
SHORT = ("aria2", "giving", "folder", "large", "magnet given")
NODES = 9  # of the DHT beside the clients: transmission takes a smaller one for a broken one
PIECE_LENGTH = 1 << 18
MEGABYTE = 1000000
LEECHERS = ("fetch", "aria2", "transmission", "libtorrent")

# The trial `player`.
RATE = MEGABYTE  # bytes a second that the player takes, as a film of 8 Mbit/s has them
FAST, SLOW = 1500, 125  # kilobytes a second of the seeders
# libtorrent's seconds with deadlines, and whether all else comes from the front. In single runs 2 to 6 seconds were best, and 4 is their middle.
PLAYERS = {"libtorrent": (4, False), "sequential": (4, True)}
READ = 1 << 16  # bytes
FRAME = 0.04  # seconds; what is late by less than a frame isn't seen
TOLERANCE = 0.25  # seconds by which two waits may differ by chance


@dataclass
class Outcome:
    """How a download went."""

    who: str
    is_well: bool
    seconds: list[float]
    megabytes: float
    twice: int | None  # bytes that came beyond one copy, where that is known
    more: str = ""
    waited: float = 0.0  # seconds of a player

    def line(self, name: str) -> str:
        """The line that is printed."""
        times = " ".join(f"{seconds:.1f}" for seconds in sorted(self.seconds))
        twice = "unknown" if self.twice is None else f"{self.twice / MEGABYTE:.2f} MB"
        verdict = "well" if self.is_well else "WRONG"
        told = f"{name:<13} {self.who:<13} {verdict}  {times} s  {self.megabytes:.0f} MB  twice {twice}"
        return f"{told}  {self.more}".rstrip()


def figures_of(client: Client) -> str:
    """What the downloader of this folder printed at its end."""
    assert client.process.stdout
    told = json.loads(client.process.stdout.read() or b"{}")
    names = ("seconds", "blocks", "twice", "requests", "endgame_requests", "late_bitfields", "failed", "lost", "uploaded")
    return " ".join(f"{name}={told[name]}" for name in names if name in told)


def memory_of(leechers: list[Client]) -> float:
    """The most memory of the leechers that are of the first one's kind."""
    return max(client.megabytes() for client in leechers if client.name == leechers[0].name)


def finish(place: Place, leechers: list[Client]) -> Outcome:
    """Waits for the leechers, ends all, and counts what came."""
    is_well = place.wait_all(leechers, LONGEST)
    for client in leechers + [client for client in place.clients if client not in leechers]:
        client.stop()
    came = place.downloaded(leechers)
    return Outcome(
        leechers[0].name, is_well, [client.seconds for client in leechers], memory_of(leechers),
        None if came is None else came - len(leechers) * place.content.total,
        " | ".join(figures_of(client) for client in leechers if client.name == "fetch"),
    )  # fmt: skip


def one_seeder(seeder: str) -> Callable[[Place, str], Outcome]:
    """A download from one client."""

    def run(place: Place, who: str) -> Outcome:
        place.wait_ready(START[seeder](place, True))
        return finish(place, [START[who](place, False)])

    return run


def three(place: Place, who: str) -> Outcome:
    """Three seeders: one as quick as it can, two of 8 MB a second. Of these one has no more than each second piece, and downloads the rest."""
    place.wait_ready(transmission(place, True))
    place.wait_ready(aria2(place, True, 8000))
    place.wait_ready(aria2(place, True, 8000, keeps=lambda piece: piece % 2 == 0))
    return finish(place, [START[who](place, False)])


def killed(place: Place, who: str) -> Outcome:
    """Two seeders of 4 MB a second, of which the first is killed after four seconds."""
    first = place.wait_ready(aria2(place, True, 4000))
    place.wait_ready(transmission(place, True, 4000))
    leecher = START[who](place, False)
    time.sleep(4.0)
    first.process.kill()
    return finish(place, [leecher])


def slow(place: Place, who: str) -> Outcome:
    """A quick seeder, and one of 100 KB a second: its last blocks are asked of the other too."""
    place.wait_ready(transmission(place, True))
    place.wait_ready(aria2(place, True, 100))
    return finish(place, [START[who](place, False)])


def folder(place: Place, who: str) -> Outcome:
    """Many files from two clients."""
    place.wait_ready(START["qbittorrent"](place, True))
    place.wait_ready(START["rtorrent"](place, True))
    return finish(place, [START[who](place, False)])


def resumed(place: Place, who: str) -> Outcome:
    """The downloader is killed three times, and goes on each time."""
    seeder = place.wait_ready(aria2(place, True, 20000))
    leecher = fetch(place, False)
    began = leecher.began
    for _ in range(3):
        time.sleep(4.0)
        leecher.process.kill()
        leecher.process.wait()
        assert leecher.process.stdout
        leecher.process.stdout.close()
        command, out = [str(word) for word in leecher.process.args], leecher.out  # type: ignore[union-attr]  # a list, as it was given
        place.clients.remove(leecher)
        leecher = place.start("fetch", command, leecher.host, leecher.port, out, -1)
    leecher.began = began
    outcome = finish(place, [leecher])
    outcome.twice = place.uploaded(seeder) - place.content.total
    return outcome


def by_opentracker(scheme: str) -> Callable[[Place, str], Outcome]:
    """One gives to another, and they know each other by opentracker alone."""

    def run(place: Place, who: str) -> Outcome:
        port = opentracker(place)
        place.content.torrent(place.torrent, f"{scheme}://{NETWORK}1:{port}/announce")
        place.wait_ready(fetch(place, True))
        leecher = fetch(place, False, words=())
        while leecher.process.poll() is None and time.monotonic() - leecher.began < LONGEST:
            leecher.megabytes()
            time.sleep(0.05)
        is_well = leecher.process.poll() == 0 and place.content.sums(leecher.out) == place.content.right
        return Outcome(who, is_well, [time.monotonic() - leecher.began], leecher.megabytes(), 0, figures_of(leecher))

    return run


def swarm(place: Place, who: str) -> Outcome:
    """Four leechers of one kind, and one seeder of 1 MB a second."""
    place.wait_ready(transmission(place, True, 1000))
    return finish(place, [START[who](place, False) for _ in range(4)])


def mixed(place: Place, who: str) -> Outcome:
    """Leechers of all kinds, and one seeder of 1 MB a second. aria2 tells its pieces by bitfields, late and again."""
    place.wait_ready(transmission(place, True, 1000))
    return finish(place, [START[name](place, False) for name in (who, who, "aria2", "transmission", "qbittorrent")])


@dataclass
class Player:
    """Takes a stream at the content's rate. A byte is due by its place in the stream, and later by all that was waited before."""

    due: float  # when the first byte is
    waits: list[float] = field(default_factory=list)  # the first one is the start-up
    hashed: hashlib._Hash = field(default_factory=hashlib.sha1)

    def play(self, stream: IO[bytes]) -> None:
        """Reads to the end."""
        while data := stream.read(READ):
            self.hashed.update(data)
            now = time.monotonic()
            if now - self.due > FRAME or not self.waits:
                self.waits.append(now - self.due)
                self.due = now
            self.due += len(data) / RATE
            time.sleep(max(0.0, self.due - time.monotonic()))

    def told(self) -> str:
        """The waits, for the line of the trial."""
        start, *stalls = self.waits or [0.0]
        return f"start-up {start:.2f} s  stalls {sum(stalls):.2f} s in {len(stalls)}  longest {max(stalls, default=0.0):.2f} s"


def open_stream(leecher: Client, port: int) -> IO[bytes]:
    """The file of a downloader that serves, as soon as it does."""
    while leecher.process.poll() is None:
        connection = http.client.HTTPConnection(LOCAL, port)
        with contextlib.suppress(ConnectionRefusedError):
            connection.request("GET", "/1")
            return connection.getresponse()
        time.sleep(0.01)
    raise RuntimeError("the downloader ended before it served")


def start_player(place: Place, who: str) -> tuple[Client, IO[bytes]]:
    """A leecher, and what a player reads of it."""
    if who == "fetch":
        port = free_port(LOCAL)
        leecher = fetch(place, False, words=("--serve", str(port)))
        return leecher, open_stream(leecher, port)
    leecher = libtorrent(place, RATE, *PLAYERS[who])
    assert leecher.process.stdout
    return leecher, leecher.process.stdout


def played(place: Place, who: str) -> Outcome:
    """A player reads at the content's rate beside one quick seeder and three slow ones. The seconds are those until it is at the end."""
    seeders = [aria2(place, True, rate) for rate in (FAST, SLOW, SLOW, SLOW)]
    for seeder in seeders:
        place.wait_ready(seeder)
    leecher, stream = start_player(place, who)
    ending = threading.Timer(LONGEST, leecher.process.kill)
    ending.start()
    player = Player(leecher.began)
    try:
        player.play(stream)
    finally:
        ending.cancel()
    leecher.seconds = time.monotonic() - leecher.began
    megabytes = leecher.megabytes()
    leecher.stop()
    for seeder in seeders:
        seeder.process.kill()  # aria2 takes seconds to end in order
    came, is_well = place.downloaded([leecher]), player.hashed.hexdigest() == place.content.right[""]
    more = player.told() + ("  " + figures_of(leecher) if who == "fetch" else "")
    return Outcome(who, is_well, [leecher.seconds], megabytes, (came or 0) - place.content.total, more, sum(player.waits))


def waits_least(outcomes: list[Outcome]) -> bool:
    """Whether our player waits at most as long as beside libtorrent, with whichever setting is the better one there. The medians count."""
    def median(who: str) -> float:
        return statistics.median(outcome.waited for outcome in outcomes if outcome.who == who)

    waits = {who: median(who) for who in ("fetch", *PLAYERS)}
    print("waits, the medians: " + "  ".join(f"{who} {seconds:.2f} s" for who, seconds in waits.items()), flush=True)
    return waits["fetch"] <= min(waits[who] for who in PLAYERS) + TOLERANCE


def wait_announced(place: Place, first: str, seeders: int) -> None:
    """Waits until so many peers are found by the DHT, which begins at this node."""
    host, _ = place.address()
    found: set[tuple[str, int]] = set()
    came = threading.Event()

    def hear(peers: list[tuple[str, int]]) -> None:
        found.update(peers)
        if len(found) >= seeders:
            came.set()

    node = Node(host, 0, [(first.partition(":")[0], int(first.partition(":")[2]))])
    node.start()
    node.search(place.infohash, 0, hear)
    try:
        if not came.wait(READY):
            raise RuntimeError(f"of {seeders} seeders {len(found)} are found by the DHT")
    finally:
        node.close()


def ended(place: Place, leechers: list[Client]) -> Outcome:
    """Waits until each leecher has ended by itself, as it does when it has all. How much came twice only ours tells."""
    is_well = place.wait_ended(leechers, LONGEST)
    for client in place.clients:
        client.process.kill()
    told = [figures_of(client) for client in leechers if client.name == "fetch"]
    twice = [int(word[6:]) << 14 for figures in told for word in figures.split() if word.startswith("twice=")]
    return Outcome(
        leechers[0].name, is_well, [client.seconds for client in leechers], memory_of(leechers),
        sum(twice) if len(twice) == len(leechers) else None, " | ".join(told),
    )  # fmt: skip


def by_link(place: Place, who: str, first: str) -> Client:
    """A leecher by a magnet link with nothing but the infohash, whose DHT begins at this node. It ends when it has all."""
    link = f"magnet:?xt=urn:btih:{place.infohash.hex()}"
    if who == "fetch":
        return fetch(place, False, words=("--dht", "--dht-node", first), torrent=link)
    if who == "aria2":
        words = ("--enable-dht=true", f"--dht-entry-point={first}", "--seed-time=0", f"--dht-file-path={place.folder / 'aria2.dat'}")
        return aria2(place, False, words=words, torrent=link)
    if who == "transmission":
        return transmission_by_link(place, link, first)
    return libtorrent_peer(place, False, ("--node", first), torrent=link)


def by_magnet(place: Place, who: str) -> Outcome:
    """Three libtorrent clients of 4 MB a second have the content. No tracker is there, and the first one is the first node of the DHT."""
    place.infohash = place.content.torrent(place.torrent, is_private=False)
    at = place.address()
    first = f"{at[0]}:{at[1]}"
    for number in range(3):
        words = ("--node", first, "--up", "4000", "--nodes", str(NODES if number == 0 else 0))
        libtorrent_peer(place, True, words, at=at if number == 0 else None)
    wait_announced(place, first, 3)
    return ended(place, [by_link(place, who, first)])


def magnet_given(place: Place, who: str) -> Outcome:
    """The downloader of this folder gives info and content, of 12 MB a second, and is the first node of the DHT."""
    place.infohash = place.content.torrent(place.torrent, is_private=False)
    nobody = f"{NETWORK}1:9"  # else the public nodes would be asked for, which this network hasn't
    seeder = place.wait_ready(fetch(place, True, 12000, words=("--dht", "--dht-node", nobody, "--seed-minutes", "10")))
    return ended(place, [by_link(place, who, seeder.address)])


def exchanged(place: Place, who: str) -> Outcome:
    """Five leechers of one kind. The tracker names none but the seeder, which gives 1 MB a second: the others are known by peer exchange alone."""
    place.infohash = place.content.torrent(place.torrent, place.tracker.url, is_private=False)
    seeder = libtorrent_peer(place, True, ("--up", "1000", "--exchange"))
    place.tracker.only = (seeder.host, seeder.port)
    place.wait_ready(seeder)
    return finish(place, [exchanging(place, who) for _ in range(5)])


def exchanging(place: Place, who: str) -> Client:
    """A leecher that tells others of its peers."""
    if who == "aria2":
        return aria2(place, False, words=("--enable-peer-exchange=true",))
    if who == "transmission":
        return transmission(place, False, exchanges=True)
    return START[who](place, False)  # ours and libtorrent do so by themselves


def by_web(place: Place, who: str) -> Outcome:
    """A web server with ranges is the only seed, of some 20 MB a second for all connections, and there is no tracker."""
    server = WebServer({"/content": place.content.path.read_bytes()}, host=f"{NETWORK}1", rate=20.0 * MEGABYTE)
    place.infohash = place.content.torrent(place.torrent, web_seed=server.url, is_private=False)
    try:
        if who == "fetch":
            leecher = fetch(place, False, words=())
        elif who == "aria2":
            leecher = aria2(place, False, words=("--seed-time=0",))
        elif who == "transmission":
            leecher = transmission(place, False)
        else:
            leecher = libtorrent_peer(place, False)
        outcome = ended(place, [leecher])
        outcome.more += f" ranges={len(server.requests)}"
        return outcome
    finally:
        server.close()


FOLDER = {f"{number % 7}/file {number}": 1 + number * number * 37 for number in range(200)} | {"large": 20 * MEGABYTE}
ONE = ("fetch",)
TRIALS: dict[str, tuple[Callable[[Place, str], Outcome], tuple[str, ...], dict[str, int], int]] = {  # who downloads; files; piece length
    "transmission": (one_seeder("transmission"), ONE, {"": 24 * MEGABYTE}, PIECE_LENGTH),
    "qbittorrent": (one_seeder("qbittorrent"), ONE, {"": 200 * MEGABYTE}, PIECE_LENGTH),
    "rtorrent": (one_seeder("rtorrent"), ONE, {"": 200 * MEGABYTE}, PIECE_LENGTH),
    "aria2": (one_seeder("aria2"), LEECHERS, {"": 200 * MEGABYTE}, PIECE_LENGTH),
    "giving": (one_seeder("fetch"), (*LEECHERS, "qbittorrent", "rtorrent"), {"": 200 * MEGABYTE}, PIECE_LENGTH),
    "three": (three, ONE, {"": 48 * MEGABYTE}, PIECE_LENGTH),
    "killed": (killed, ONE, {"": 32 * MEGABYTE}, PIECE_LENGTH),
    "slow": (slow, LEECHERS, {"": 24 * MEGABYTE}, PIECE_LENGTH),
    "folder": (folder, LEECHERS, FOLDER, PIECE_LENGTH),
    "resumed": (resumed, ONE, {"": 300 * MEGABYTE}, PIECE_LENGTH),
    "by udp": (by_opentracker("udp"), ONE, {"": 24 * MEGABYTE}, PIECE_LENGTH),
    "by http": (by_opentracker("http"), ONE, {"": 24 * MEGABYTE}, PIECE_LENGTH),
    "swarm": (swarm, LEECHERS, {"": 30 * MEGABYTE}, PIECE_LENGTH),
    "mixed": (mixed, ONE, {"": 30 * MEGABYTE}, PIECE_LENGTH),
    "magnet": (by_magnet, LEECHERS, {"": 48 * MEGABYTE}, PIECE_LENGTH),
    "magnet given": (magnet_given, ("fetch", "aria2", "libtorrent"), {"": 48 * MEGABYTE}, PIECE_LENGTH),
    "exchange": (exchanged, LEECHERS, {"": 30 * MEGABYTE}, PIECE_LENGTH),
    "web": (by_web, LEECHERS, {"": 200 * MEGABYTE}, PIECE_LENGTH),
    "player": (played, ("fetch", *PLAYERS), {"": 24 * MEGABYTE}, PIECE_LENGTH),
    "large": (one_seeder("aria2"), LEECHERS, {"": 1 << 32}, 1 << 20),
}


def run(name: str, rounds: int) -> bool:
    """The downloads of one name, each with a line; whether all were well, and ours good enough."""
    trial, leechers, lengths, piece_length = TRIALS[name]
    rounds = max(rounds, LEAST_ROUNDS) if trial is played else rounds  # its waits are judged in any case
    outcomes = []
    with tempfile.TemporaryDirectory() as directory:
        content = Content(Path(directory), lengths, piece_length)
        content.make(name)
        for who in leechers * rounds:
            try:
                outcomes.append(run_one(trial, who, content))
            except RuntimeError as error:
                print(f"{name:<13} {who:<13} FAILED {error}", flush=True)
                return False  # and the other trials go on
            print(outcomes[-1].line(name), flush=True)
    is_well = all(outcome.is_well and (outcome.who != "fetch" or outcome.megabytes <= MOST_MEMORY) for outcome in outcomes)
    return all([is_well, trial is not played or waits_least(outcomes), len(set(leechers)) == 1 or is_quick(name, outcomes)])


def is_quick(name: str, outcomes: list[Outcome]) -> bool:
    """Whether ours took at most so much of the best other client's time. The medians count, of several leechers those of the last one."""
    seconds: dict[str, list[float]] = {}
    for outcome in outcomes:
        seconds.setdefault(outcome.who, []).append(max(outcome.seconds))
    medians = {who: statistics.median(times) for who, times in seconds.items()}
    told = "  ".join(f"{who} {median:.1f} s" for who, median in medians.items())
    # The player's settings of libtorrent are two of its clients.
    ratios = {who: medians["fetch"] / median for who, median in medians.items() if who in (*BEST_OF, *PLAYERS)}
    judged = max(ratio for who, ratio in ratios.items() if who != "libtorrent" or name not in SHORT)
    is_judged = min(len(times) for times in seconds.values()) >= LEAST_ROUNDS
    print(f"{name:<13} medians  {told}  ours {judged:.2f} of the best" + beside_libtorrent(name, ratios), flush=True)
    return judged <= MOST_TIME or not is_judged


def beside_libtorrent(name: str, ratios: dict[str, float]) -> str:
    """What is said of libtorrent where ours isn't judged by it."""
    return f", and {ratios['libtorrent']:.2f} of libtorrent" if name in SHORT else ""


def run_one(trial: Callable[[Place, str], Outcome], who: str, content: Content) -> Outcome:
    """A download by one client, in a folder of its own on the disk of the content."""
    with tempfile.TemporaryDirectory(dir=content.folder) as directory:
        place = Place(Path(directory), content)
        try:
            return trial(place, who)
        finally:
            place.close()


def picture(path: str) -> None:
    """Draws a download from four peers, of which three have a part of the pieces. None of them knows another one, nor gets anything."""
    with tempfile.TemporaryDirectory() as directory:
        content = Content(Path(directory), {"": 40 * MEGABYTE}, PIECE_LENGTH)
        content.make("picture")
        place = Place(Path(directory), content)
        content.torrent(place.torrent, "http://127.0.0.1:9/announce")
        count = len(content.digests) // 20
        shares: list[list[tuple[float, float]]] = [[(0, 1)], [(0, 0.45), (0.6, 1)], [(0, 0.3), (0.45, 0.8)], [(0.8, 1)]]
        try:
            for share in shares:
                kept = {piece for first, last in share for piece in range(int(first * count), int(last * count))}
                place.wait_ready(aria2(place, True, 700, keeps=kept.__contains__))
            addresses = [client.address for client in place.clients]
            words = ("--no-tracker", "--slots", "0", "--picture", path)
            leecher = fetch(place, False, words=words, peers=tuple(addresses))
            leecher.process.wait(LONGEST)
            print(figures_of(leecher))
        finally:
            place.close()


def main() -> int:
    """Runs the downloads that are named, or all."""
    names, rounds = sys.argv[1:], 1
    if names == ["--list"]:
        print("\n".join(TRIALS))
        return 0
    if names[:1] == ["--rounds"]:
        rounds, names = int(names[1]), names[2:]
    names = names or list(TRIALS)
    enter_network()
    for number in (signal.SIGINT, signal.SIGTERM):
        signal.signal(number, signal.default_int_handler)  # so that what was started is ended
    installed()  # before anything is measured
    if names[0] == "--picture":
        picture(names[1])
        return 0
    return 0 if all([run(name, rounds) for name in names]) else 1


if __name__ == "__main__":
    sys.exit(main())
