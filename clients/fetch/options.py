"""What the user has chosen."""

from __future__ import annotations

from dataclasses import dataclass, field, replace

from .blame import Address

# Where the public DHT begins, as other clients have it.
FIRST_NODES: tuple[Address, ...] = (("router.bittorrent.com", 6881), ("dht.transmissionbt.com", 6881), ("dht.libtorrent.org", 25401))


@dataclass(frozen=True)
class Options:
    """What the user has chosen."""

    torrent: str
    out: str = ""  # the torrent's own name where it is empty
    peers: list[Address] = field(default_factory=list)
    more: tuple[str, ...] = ()  # other torrents
    at_once: int = 5  # torrents
    lists: bool = False
    only: set[int] | None = None
    levels: dict[int, int] = field(default_factory=dict)
    in_order: bool = False
    ends_first: bool = False
    serve: int | None = None
    port: int | None = None
    bind: str = ""
    listens: bool = True
    most_peers: int = 50
    slots: int = 4
    up_limit: int | None = None  # kilobytes a second
    down_limit: int | None = None
    asks_trackers: bool = True
    uses_dht: bool = False
    dht_nodes: tuple[Address, ...] = ()  # where the way into the DHT begins
    uses_local: bool = False
    exchanges_peers: bool = True
    uses_web_seeds: bool = True
    seed_ratio: float | None = None
    seed_minutes: float | None = None
    give_up: float | None = None
    replaces: bool = False
    picture: str | None = None
    by_rarity: bool = False
    watches: bool = False
    as_json: bool = False
    with_figures: bool = False
    is_verbose: bool = False
    quiet: bool = False
    meters: bool = False
    askers: int = 2

    def of(self, torrent: str) -> Options:
        """The same choices for another torrent."""
        return replace(self, torrent=torrent, more=())
