"""HTTPS: a torrent, a tracker and a web seed by it, with a certificate that is trusted and with one that isn't."""

from __future__ import annotations

import os
import tempfile
import unittest
from pathlib import Path
from typing import Any, cast
from unittest.mock import patch

from fetch import web
from fetch.web import WebFault

from .certificates import G, ORDER, PRIME, secured, times
from .support import CONTENT, Downloading, single_torrent
from .test_web import with_seeds
from .trackers import HttpTracker, compact
from .webservers import WebServer

TWICE = (  # 2G, of the point multiplication vectors of NIST for P-256
    0x7CF27B188D034F7E8A52380304B51AC3C08969E277F21B35A60B48FC47669978, 0x07775510DB8ED040293D9AC69F7430DBBA7DADE63CE982299E04B79D227873D1,
)  # fmt: skip


class Curve(unittest.TestCase):
    """The arithmetic of the certificate."""

    def test_times(self) -> None:
        self.assertEqual(times(2, G), TWICE)
        self.assertEqual(times(ORDER - 1, G), (G[0], PRIME - G[1]))


class Secured(Downloading):
    """The program with servers of HTTPS."""

    def setUp(self) -> None:
        super().setUp()
        folder = tempfile.TemporaryDirectory()
        self.addCleanup(folder.cleanup)
        self.context, self.trusted = secured(Path(folder.name))
        self.trust(str(self.trusted))

    def trust(self, path: str) -> None:
        """Who vouches for servers."""
        changed = patch.dict(os.environ, SSL_CERT_FILE=path)
        changed.start()
        self.addCleanup(changed.stop)

    def server(self) -> WebServer:
        """It has the content and the torrent."""
        server = WebServer({"/content": CONTENT, "/t": single_torrent()}, context=self.context)
        self.addCleanup(server.close)
        self.assertTrue(server.url.startswith("https://"))
        return server

    def tracker(self) -> HttpTracker:
        """It names a seeder, which nobody else does."""
        host, _, port = self.seeder().address.rpartition(":")
        named = compact([(host, int(port))])
        tracker = HttpTracker(b"d8:intervali1800e5:peers%d:%se" % (len(named), named), context=self.context)
        self.addCleanup(tracker.close)
        url = tracker.url.encode()
        self.torrent_path.write_bytes(single_torrent().replace(b"27:http://127.0.0.1:9/announce", b"%d:%s" % (len(url), url)))
        return tracker

    def test_torrent(self) -> None:
        self.torrent_path = cast(Any, f"{self.server().url}t")
        self.fetch(self.seeder())
        self.assertEqual(self.out.read_bytes(), CONTENT)

    def test_tracker(self) -> None:
        tracker = self.tracker()
        self.fetch()
        self.assert_same()
        self.assertEqual([told.get("event") for told in tracker.announces], ["started", "completed", "stopped"])

    def test_web_seed(self) -> None:
        server = self.server()
        self.torrent_path.write_bytes(with_seeds(single_torrent(), [server.url]))
        self.fetch()
        self.assert_same()
        self.assertEqual({path for path, _ in server.requests}, {"/content"})

    def test_not_trusted(self) -> None:
        """Nothing is taken of a server for which nobody vouches, and each time it is said why, and what changes that."""
        self.trust(os.devnull)
        server, why = self.server(), r"the certificate isn't trusted \(self.signed certificate\): .*SSL_CERT_FILE"
        tracker = self.tracker()
        self.fetch(status=1)
        self.assertRegex(self.errors, "the tracker doesn't answer: " + why)
        self.torrent_path.write_bytes(with_seeds(single_torrent(), [server.url]))
        self.fetch(status=1)
        self.assertRegex(self.errors, "the web server gives nothing: " + why)
        self.torrent_path = cast(Any, f"{server.url}t")
        self.fetch(status=3)
        self.assertRegex(self.errors, why)
        self.assertEqual((server.requests, tracker.announces), ([], []))

    def test_other_host(self) -> None:
        """A trusted certificate is for its own host alone."""
        with self.assertRaisesRegex(WebFault, "the certificate isn't trusted .*'localhost'"):
            web.get(f"{self.server().url.replace('127.0.0.1', 'localhost')}t", 1 << 20, 10.0)

    def test_not_https(self) -> None:
        plain = WebServer({"/t": single_torrent()})
        self.addCleanup(plain.close)
        with self.assertRaisesRegex(WebFault, "no HTTPS is spoken there"):
            web.get(f"{plain.url.replace('http', 'https')}t", 1 << 20, 10.0)


if __name__ == "__main__":
    unittest.main()
