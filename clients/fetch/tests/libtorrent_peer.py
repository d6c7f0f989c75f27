#!/usr/bin/python3
"""A client of libtorrent-rasterbar for trials: it gives a torrent, or downloads one and ends.

usage: libtorrent_peer.py TORRENT FOLDER HOST PORT [--node HOST:PORT] [--up KILOBYTES] [--exchange] [--stays] [--nodes N]

TORRENT is a file or a magnet link. With a node its DHT begins there, and without one it has none. All of it stays on its own address. Neither
uTP nor encryption is tried, and nothing else finds peers. With --stays it runs until it is ended. With --nodes there are so many nodes of the
DHT beside it, at the ports behind its own. It needs Debian's package python3-libtorrent, so it runs by Debian's Python.
"""

from __future__ import annotations

import argparse
import sys
import time
from typing import Any

import libtorrent  # type: ignore[import]  # Debian has no types of it

LOOK = 0.02  # seconds between two looks at how far it is
ANNOUNCE = 5.0  # seconds between two announces to the DHT, which had no nodes at first
PLAIN = 2  # of the settings of encryption: none


def settings_of(options: argparse.Namespace, port: int) -> dict[str, Any]:
    """One address, and as little else as is chosen."""
    return {
        "listen_interfaces": f"{options.host}:{port}", "outgoing_interfaces": options.host, "enable_lsd": False,
        "enable_upnp": False, "enable_natpmp": False, "enable_outgoing_utp": False, "enable_incoming_utp": False,
        "out_enc_policy": PLAIN, "in_enc_policy": PLAIN, "upload_rate_limit": 1000 * options.up, "enable_dht": options.node is not None,
        "dht_bootstrap_nodes": options.node or "", "dht_restrict_routing_ips": False, "dht_restrict_search_ips": False,
        "dht_prefer_verified_node_ids": False, "allow_multiple_connections_per_ip": True, "report_true_downloaded": True,
    }  # fmt: skip


def start(options: argparse.Namespace) -> tuple[Any, Any]:
    """The session and its torrent."""
    session = libtorrent.session(settings_of(options, options.port))
    usual = libtorrent.ip_filter()
    usual.add_rule("0.0.0.0", "255.255.255.255", 1)  # all peers in the first class: else no limit holds for those of local networks
    session.set_peer_class_filter(usual)
    if options.exchange:
        session.add_extension("ut_pex")
    if options.torrent.startswith("magnet:"):
        parameters = libtorrent.parse_magnet_uri(options.torrent)
    else:
        parameters = libtorrent.add_torrent_params()
        parameters.ti = libtorrent.torrent_info(options.torrent)
    parameters.save_path = options.folder
    parameters.flags &= ~libtorrent.torrent_flags.auto_managed & ~libtorrent.torrent_flags.paused
    return session, session.add_torrent(parameters)


def main() -> int:
    """Runs until all is there, or until it is ended where it seeds."""
    parser = argparse.ArgumentParser()
    parser.add_argument("torrent")
    parser.add_argument("folder")
    parser.add_argument("host")
    parser.add_argument("port", type=int)
    parser.add_argument("--node")
    parser.add_argument("--up", type=int, default=0)
    parser.add_argument("--exchange", action="store_true")
    parser.add_argument("--stays", action="store_true")
    parser.add_argument("--nodes", type=int, default=0)
    options = parser.parse_args()
    session, handle = start(options)
    nodes = [libtorrent.session(settings_of(options, options.port + number)) for number in range(1, options.nodes + 1)]
    announced = 0.0
    while options.stays or not handle.status().is_seeding:
        time.sleep(LOOK)
        if options.node and time.monotonic() - announced > ANNOUNCE:
            announced = time.monotonic()
            handle.force_dht_announce()
    del session, nodes
    return 0


if __name__ == "__main__":
    sys.exit(main())
