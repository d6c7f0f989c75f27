"""The command line."""

from __future__ import annotations

import argparse
import ipaddress
import re
from collections.abc import Callable
from contextlib import suppress
from typing import Any, TypeVar

from . import addresses
from .blame import Address
from .magnet import PREFIX
from .options import FIRST_NODES, Options
from .urls import is_address

MOST_FILES = 1 << 20
SINGLE = {
    "peers": "HOST:PORT", "only": "--only", "levels": "--level", "serve": "--serve", "port": "--port", "picture": "--picture",
    "watches": "--watch", "as_json": "--json", "with_figures": "--figures",
}  # fmt: skip
LIKE_ADDRESS = re.compile(r"[^/]+:[0-9]+")
USAGE = "fetch.py [options] TORRENT [TORRENT ..] [OUT] [HOST:PORT ..]"
DESCRIPTION = "Downloads torrents (BEP 3), and shows how the piece picker chooses."
ENDING = """\
examples:
  fetch.py FILE.torrent                       into this folder
  fetch.py FILE.torrent OUT 192.0.2.7:6881    to OUT, and from this peer too
  fetch.py 'magnet:?xt=urn:btih:..' FOLDER/   by a magnet link
  fetch.py A.torrent B.torrent FOLDER         two torrents in one run
  fetch.py --only 1,3-5 FILE.torrent          some of the files (--list)

OUT is the file, or the folder of a torrent of many files. Without it the
torrent's own name in this folder is taken. In a folder that is there the
torrent's own name is taken too, unless an earlier run has begun the torrent's
files in it. Of several torrents OUT is a folder. A download that was ended goes
on where it was when the same command is given again.

status:
  0  all that is wanted is there
  1  it isn't: the program was interrupted, or gave up (--give-up), or nobody
     gave the info of a magnet link
  2  the command line is wrong, a file or a port can't be opened, or the library
     isn't there
  3  the metainfo file can't be used
  4  the disk can't do it: it is full, another file is in the way, or another
     run downloads to the same place
"""


T = TypeVar("T")


def _told(parse: Callable[[str], T]) -> Callable[[str], T]:
    """The same parser, whose fault the user is told in its own words."""

    def parse_or_tell(text: str) -> T:
        try:
            return parse(text)
        except ValueError as fault:
            raise argparse.ArgumentTypeError(str(fault)) from fault

    return parse_or_tell


def _whole(text: str) -> int:
    """A number in decimal digits."""
    if not text.isascii() or not text.isdigit() or len(text) > 18:
        raise ValueError(f"{text!r} is no whole number")
    return int(text)


def _between(least: int, most: int) -> Callable[[str], int]:
    """A number in these bounds."""

    def parse(text: str) -> int:
        if not least <= (number := _whole(text)) <= most:
            raise ValueError(f"{number} isn't {least} to {most}")
        return number

    return _told(parse)


@_told
def _numbers(text: str) -> set[int]:
    """Files by number: 1,3-5."""
    numbers: set[int] = set()
    for part in text.split(","):
        first, dash, last = part.partition("-")
        begin, end = _whole(first), _whole(last if dash else first)
        if not begin <= end < MOST_FILES:
            raise ValueError(f"{part!r} names no files")
        numbers.update(range(begin, end + 1))
    return numbers


@_told
def _level(text: str) -> tuple[int, int]:
    """A file's number and its level: 2=7."""
    number, sign, level = text.partition("=")
    if not sign:
        raise ValueError(f"{text!r} is no N=L: 2=7 gives file 2 the level 7")
    if _whole(level) > 7:
        raise ValueError(f"{level} is no level: 0 to 7 are")
    return _whole(number), _whole(level)


@_told
def _amount(text: str) -> float:
    """A number that isn't negative, perhaps with a fraction."""
    if not re.fullmatch(r"[0-9]{1,12}(\.[0-9]*)?|\.[0-9]+", text, re.ASCII):
        raise ValueError(f"{text!r} is no number, such as 1.5")
    return float(text)


def _is_number(host: str) -> bool:
    """Whether it is an address of IPv4 or IPv6, and not a name."""
    with suppress(ValueError):
        return bool(ipaddress.ip_address(host))
    return False


@_told
def _own(text: str) -> str:
    """An address of this machine, in numbers; empty for any."""
    if text and not _is_number(text):
        raise ValueError(f"{text!r} is no address in numbers, such as 192.0.2.7 or ::1")
    return text


_port, _count = _between(0, 65535), _between(0, 1 << 30)
# The library has room for 1,024 workers, and each peer may need two numbers.
_peers = _between(1, 500)
_slowest = _between(16, 1 << 30)  # a block a second


def _add_choice(parser: argparse.ArgumentParser) -> None:
    """What is downloaded."""
    what = parser.add_argument_group("what is downloaded")
    what.add_argument("--list", action="store_true", dest="lists", help="list the files with their numbers, and end")
    what.add_argument("--only", type=_numbers, metavar="1,3-5", help="download these files alone")
    level = "file N has level L: 0 is not downloaded, 7 comes first, 4 is usual"
    what.add_argument("--level", type=_level, action="append", default=[], metavar="N=L", help=level)
    what.add_argument("--in-order", action="store_true", help="from the front to the end, and not the rarest first")
    what.add_argument("--ends-first", action="store_true", help="the first and the last piece of each file before its others, for players")
    what.add_argument("--at-once", type=_between(1, 50), default=5, metavar="N", help="of several torrents so many at a time, 5 by default")
    what.add_argument("--replace", action="store_true", dest="replaces", help="overwrite files that have another content")


def _add_swarm(parser: argparse.ArgumentParser) -> None:
    """With whom."""
    swarm = parser.add_argument_group("the swarm")
    swarm.add_argument("--port", type=_port, help="listen at this port; without it at 6881 to 6889, or at any")
    swarm.add_argument("--bind", type=_own, default="", metavar="ADDRESS", help="use this address of ours alone")
    swarm.add_argument("--no-listen", action="store_false", dest="listens", help="take no connections")
    swarm.add_argument("--peers", type=_peers, dest="most_peers", default=50, metavar="N", help="connections at most, 50 by default")
    swarm.add_argument("--slots", type=_count, default=4, metavar="N", help="peers that are uploaded to at a time, 4 by default; 0 uploads nothing")
    swarm.add_argument("--up", type=_count, dest="up_limit", metavar="KB", help="upload so many kilobytes a second at most")
    swarm.add_argument("--down", type=_slowest, dest="down_limit", metavar="KB", help="download so many kilobytes a second at most, 16 or more")
    swarm.add_argument("--no-tracker", action="store_false", dest="asks_trackers", help="ask no tracker")
    swarm.add_argument("--dht", action=argparse.BooleanOptionalAction, dest="uses_dht", default=True, help="find peers by the DHT (default)")
    node = "begin the way into the DHT at this node, and not at the public ones; may come several times"
    swarm.add_argument("--dht-node", type=_told(addresses.parse), action="append", default=[], dest="dht_nodes", metavar="HOST:PORT", help=node)
    swarm.add_argument("--local", action="store_true", dest="uses_local", help="find peers of the local network by packets to all of it")
    swarm.add_argument("--no-exchange", action="store_false", dest="exchanges_peers", help="tell peers of no others, and hear of none by them")
    swarm.add_argument("--no-web", action="store_false", dest="uses_web_seeds", help="take nothing from web servers")
    swarm.add_argument("--askers", type=_peers, default=2, metavar="N", help="of so many peers a block is asked at most in endgame, 2 by default")


def _add_ends(parser: argparse.ArgumentParser) -> None:
    """When it ends."""
    ends = parser.add_argument_group("when it ends")
    ends.add_argument("--seed", type=_amount, dest="seed_ratio", metavar="RATIO", help="then upload until so many times the content is given")
    ends.add_argument("--seed-minutes", type=_amount, metavar="N", help="then upload for so many minutes")
    ends.add_argument("--give-up", type=_amount, metavar="SECONDS", help="end when nothing has come for so long")


def _add_shown(parser: argparse.ArgumentParser) -> None:
    """What is shown."""
    shown = parser.add_argument_group("what is shown")
    watch = "draw the pieces and the peers in the terminal; there f lists the files, and q ends"
    shown.add_argument("--watch", action="store_true", dest="watches", help=watch)
    shown.add_argument("--picture", metavar="FILE.svg", help="draw the download: time across, pieces up, a colour for each peer")
    shown.add_argument("--by-rarity", action="store_true", help="in the picture the pieces at the bottom that fewest peers show")
    serve = "give the files to players on this machine by HTTP while they come, until it is interrupted"
    shown.add_argument("--serve", type=_port, metavar="PORT", help=serve)
    shown.add_argument("--figures", action="store_true", dest="with_figures", help="print all figures at the end, a line each")
    shown.add_argument("--json", action="store_true", dest="as_json", help="print the figures at the end for programs")
    shown.add_argument("--verbose", action="store_true", dest="is_verbose", help="say of each peer why it went")
    shown.add_argument("--meter", action="store_true", dest="meters", help="measure the time in the library, too")
    shown.add_argument("--quiet", action="store_true", help="no progress line, and no line at the end")


def _parser() -> argparse.ArgumentParser:
    raw = argparse.RawDescriptionHelpFormatter
    parser = argparse.ArgumentParser(prog="fetch.py", usage=USAGE, description=DESCRIPTION, epilog=ENDING, formatter_class=raw)
    parser.add_argument("torrent", metavar="TORRENT", nargs="?", help="a metainfo file, its http or https address, or a magnet link")
    parser.add_argument("words", metavar="OUT, HOST:PORT", nargs="*", help="where the content goes, peers that are known, and other torrents")
    parser.add_argument("--out", help="OUT by an option, for a name that looks like something else")
    _add_choice(parser)
    _add_swarm(parser)
    _add_ends(parser)
    _add_shown(parser)
    return parser


def _is_torrent(word: str) -> bool:
    """Whether a word behind the first one can be no more than another torrent."""
    return word.endswith(".torrent") or is_address(word) or word.lower().startswith(PREFIX)


def _sort(given: dict[str, Any]) -> None:
    """Tells OUT, other torrents and peers apart. Raises ValueError."""
    more: list[str] = []
    peers: list[Address] = []
    for word in given.pop("words"):
        if _is_torrent(word):
            more.append(word)
        elif LIKE_ADDRESS.fullmatch(word):
            peers.append(addresses.parse(word))
        elif _is_number(word):
            raise ValueError(f"{word} has no port: HOST:PORT names a peer, and --out takes a name like this one")
        elif given["out"] is None:
            given["out"] = word
        else:
            raise ValueError(f"{word!r} is neither a torrent nor a peer (HOST:PORT), and OUT is {given['out']!r} already")
    given |= {"out": given["out"] or "", "more": tuple(more), "peers": peers}
    if more:
        _refuse_single(given)


def _refuse_single(given: dict[str, Any]) -> None:
    """What is for one torrent alone can't stand beside several ones."""
    for name, option in SINGLE.items():
        if given[name]:
            raise ValueError(f"{option} is for one torrent, and there are {1 + len(given['more'])}")


def read(words: list[str]) -> Options:
    """The options of these words. A wrong one ends the program with status 2."""
    parser = _parser()
    given = vars(parser.parse_intermixed_args(words))
    if given["torrent"] is None:
        parser.error("TORRENT is missing: a metainfo file, its address, or a magnet link. --help lists all options")
    given["levels"] = dict(given.pop("level"))
    given["dht_nodes"] = tuple(given["dht_nodes"]) or FIRST_NODES
    try:
        _sort(given)
    except ValueError as fault:
        parser.error(str(fault))
    return Options(**given)
