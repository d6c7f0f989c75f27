"""What trackers are told, and what is made of their answers."""

from __future__ import annotations

import random
import threading
import time
import unittest
from collections.abc import Sized

from bencode import Value, bencode
from fetch import announcing, tracker_http, tracker_udp
from fetch.announcing import Announcer
from fetch.tracker import Announce, Event, TrackerFault, compact_peers

from .support import CONTENT, Downloading, single_torrent
from .trackers import HttpTracker, UdpTracker

INFOHASH = bytes(range(200, 220))
PEER_ID = b"-PP0000-%&+ =/?#\x00\xff~x"


def request(event: Event = Event.STARTED) -> Announce:
    """What is announced in these tests."""
    return Announce(INFOHASH, PEER_ID, 6881, 11, 22, 33, event, 0xABCD)


class Http(unittest.TestCase):
    """Trackers by HTTP."""

    def tracker(self, reply: bytes = b"", status: int = 200) -> HttpTracker:
        """A tracker that is closed at the end of the test."""
        tracker = HttpTracker(reply, status)
        self.addCleanup(tracker.close)
        return tracker

    def test_parameters(self) -> None:
        tracker = self.tracker()
        tracker_http.announce(tracker.url, request())
        told = tracker.announces[0]
        self.assertEqual(told["info_hash"].encode("latin-1"), INFOHASH)
        self.assertEqual(told["peer_id"].encode("latin-1"), PEER_ID)
        numbers = {name: told[name] for name in ("port", "uploaded", "downloaded", "left", "compact", "event")}
        self.assertEqual(numbers, {"port": "6881", "uploaded": "11", "downloaded": "22", "left": "33", "compact": "1", "event": "started"})
        tracker_http.announce(tracker.url + "?pass=1", request(Event.NONE))
        self.assertNotIn("event", tracker.announces[1])
        self.assertEqual(tracker.announces[1]["pass"], "1")

    def test_stopped_wants_nobody(self) -> None:
        tracker = self.tracker()
        tracker_http.announce(tracker.url, request(Event.STOPPED))
        self.assertEqual(tracker.announces[0]["numwant"], "0")

    def test_compact(self) -> None:
        # 10.0.0.1:6881 and 192.168.1.2:80, in network byte order.
        tracker = self.tracker(b"d8:intervali900e5:peers12:\x0a\x00\x00\x01\x1a\xe1\xc0\xa8\x01\x02\x00\x50e")
        told = tracker_http.announce(tracker.url, request())
        self.assertEqual((told.interval, told.peers), (900.0, [("10.0.0.1", 6881), ("192.168.1.2", 80)]))

    def test_dictionaries(self) -> None:
        peers: list[Value] = [{b"ip": b"10.0.0.1", b"port": 6881}, {b"ip": b"no address", b"port": 1}, {b"ip": b"::1", b"port": 2}, {b"port": 1}, 7]
        told = tracker_http.read(bencode({b"interval": 60, b"peers": peers}))
        self.assertEqual(told.peers, [("10.0.0.1", 6881), ("::1", 2)])

    def test_six(self) -> None:
        self.assertEqual(compact_peers(bytes(15) + b"\x01\x00\x50", 16), [("::1", 80)])

    def test_failures(self) -> None:
        for reply, text in (
            (b"d14:failure reason9:not todaye", "not today"), (b"<html>", "no bencoded value"), (b"le", "no dictionary"),
            (b"d5:peers6:abce", "no bencoded value"),
        ):  # fmt: skip
            with self.subTest(reply), self.assertRaisesRegex(TrackerFault, text):
                tracker_http.announce(self.tracker(reply).url, request())
        with self.assertRaisesRegex(TrackerFault, "status 503"):
            tracker_http.announce(self.tracker(b"le", 503).url, request())
        with self.assertRaisesRegex(TrackerFault, "doesn't answer"):
            tracker_http.announce("http://127.0.0.1:9/announce", request())

    def test_nonsense(self) -> None:
        """Whatever bytes come, they are an answer or a fault by its name."""
        whole = bencode({
            b"interval": 900, b"min interval": 60, b"complete": 3, b"incomplete": 4, b"tracker id": b"x", b"warning message": b"w",
            b"peers": [{b"ip": b"10.0.0.1", b"port": 6881, b"peer id": bytes(20)}], b"peers6": bytes(18),
        })  # fmt: skip
        outcomes = {True: 0, False: 0}
        for seed in range(5000):
            chance, data = random.Random(seed), bytearray(whole)
            for _ in range(chance.randint(1, 3)):
                place = chance.randrange(len(data))
                data[place : place + chance.randint(0, 2)] = bytes(chance.choice(b"deil:0129-\0\xff") for _ in range(chance.randint(0, 2)))
            try:
                tracker_http.read(bytes(data))
                outcomes[True] += 1
            except TrackerFault:
                outcomes[False] += 1
        self.assertGreater(min(outcomes.values()), 100)

    def test_intervals(self) -> None:
        """Whatever a tracker says, it isn't asked again and again, nor never."""
        cases: list[tuple[Value, float]] = [(-1, 1800.0), (0, 1800.0), (1, 30.0), (1 << 40, 7200.0), (b"x", 1800.0), (600, 600.0)]
        for said, seconds in cases:
            self.assertEqual(tracker_http.read(bencode({b"interval": said})).interval, seconds)

    def test_shortest(self) -> None:
        """Without `min interval` the interval holds for all announces but events."""
        self.assertEqual(tracker_http.read(bencode({b"interval": 600})).shortest, 600.0)
        for said, seconds in ((100, 100.0), (900, 600.0), (1, 30.0)):
            self.assertEqual(tracker_http.read(bencode({b"interval": 600, b"min interval": said})).shortest, seconds)

    def test_other_schemes(self) -> None:
        for url in ("file:///etc/hostname", "ftp://127.0.0.1/", "nonsense", ""):
            with self.subTest(url), self.assertRaises(TrackerFault):
                announcing.announce(url, request())
            with self.subTest(url), self.assertRaises(TrackerFault):
                tracker_http.announce(url, request())


class Udp(unittest.TestCase):
    """Trackers by UDP."""

    def tracker(self, drops: int = 0, error: bytes = b"") -> UdpTracker:
        """A tracker that is closed at the end of the test."""
        tracker = UdpTracker([("10.0.0.1", 6881)], drops, error)
        self.addCleanup(tracker.close)
        return tracker

    def test_announce(self) -> None:
        tracker = self.tracker()
        told = tracker_udp.announce(tracker.url, request())
        self.assertEqual((told.peers, told.interval, told.shortest), ([("10.0.0.1", 6881)], 1800.0, 1800.0))
        self.assertEqual((told.seeders, told.leechers), (1, 2))
        self.assertEqual(tracker.infohashes, [INFOHASH])
        downloaded, left, uploaded, event, address, key, _, port = tracker.announces[0]
        self.assertEqual((downloaded, left, uploaded, event, address, key, port), (22, 33, 11, 2, 0, 0xABCD, 6881))

    def test_lost_packets(self) -> None:
        tracker = self.tracker(drops=1)
        self.assertEqual(tracker_udp.announce(tracker.url, request(), 0.1, 3).peers, [("10.0.0.1", 6881)])

    def test_failures(self) -> None:
        with self.assertRaisesRegex(TrackerFault, "not today"):
            tracker_udp.announce(self.tracker(error=b"not today").url, request())
        with self.assertRaisesRegex(TrackerFault, "doesn't answer"):
            tracker_udp.announce(self.tracker(drops=99).url, request(), 0.05, 2)
        for url in ("udp://127.0.0.1/announce", "udp://:80", "udp://127.0.0.1:9/announce"):
            with self.subTest(url), self.assertRaises(TrackerFault):
                tracker_udp.announce(url, request(), 0.05, 1)


class Tiers(unittest.TestCase):
    """Which tracker is told what, and when."""

    def announcer(self, tiers: list[list[str]]) -> Announcer:
        """Trackers that are told the numbers of these tests."""
        self.woken = threading.Event()
        return Announcer(tiers, request, self.woken.set)

    def outcome(self, announcer: Announcer, now: float) -> list[tuple[str, int]]:
        """Announces, waits for the outcome, and takes it."""
        self.woken.clear()
        announcer.tick(now, 0)
        self.assertTrue(self.woken.wait(10))
        return announcer.tick(now, 99)

    def test_next_tier(self) -> None:
        """Where no tracker of a tier answers, the next tier is asked; a tracker that answers comes first in its tier."""
        good, dead = HttpTracker(), "http://127.0.0.1:9/announce"
        self.addCleanup(good.close)
        announcer = self.announcer([[dead], [dead, good.url]])
        self.outcome(announcer, 100.0)
        self.assertEqual(announcer.current, good.url)
        self.assertEqual(announcer.tiers[1][0], good.url)

    def test_events(self) -> None:
        tracker = HttpTracker()
        self.addCleanup(tracker.close)
        announcer = self.announcer([[tracker.url]])
        self.outcome(announcer, 100.0)
        announcer.tick(101.0, 99)
        self.assertFalse(announcer.is_busy)
        announcer.complete()
        self.outcome(announcer, 102.0)
        self.outcome(announcer, 102.0 + 1800.0)
        announcer.complete()
        announcer.stop()
        self.assertEqual([told.get("event") for told in tracker.announces], ["started", "completed", None, "completed", "stopped"])

    def test_shortest_interval(self) -> None:
        """With few peers it is asked early, but not before `min interval`, which is 60 seconds here."""
        tracker = HttpTracker()
        self.addCleanup(tracker.close)
        announcer = self.announcer([[tracker.url]])
        self.outcome(announcer, 100.0)
        announcer.tick(159.0, 0)
        self.assertFalse(announcer.is_busy)
        announcer.tick(161.0, 0)
        self.assertTrue(announcer.is_busy)

    def test_failures_wait(self) -> None:
        announcer = self.announcer([["http://127.0.0.1:9/announce"]])
        self.outcome(announcer, 100.0)
        self.assertIn("doesn't answer", announcer.note)
        announcer.tick(114.0, 0)
        self.assertFalse(announcer.is_busy)
        self.outcome(announcer, 116.0)
        announcer.tick(145.0, 0)
        self.assertFalse(announcer.is_busy)


class Swarms(Downloading):
    """Programs that find each other by a tracker."""

    def meet(self, url: str, announces: Sized) -> None:
        """One has the content and gives it to the other, once its announce is there."""
        torrent = single_torrent().replace(b"27:http://127.0.0.1:9/announce", b"%d:%s" % (len(url), url.encode()))
        self.torrent_path.write_bytes(torrent)
        (self.folder / "full").write_bytes(CONTENT)
        out, self.out = self.out, self.folder / "full"
        giver = self.start("--seed-minutes", "1", "--bind", "127.0.0.1")
        self.out = out
        self.addCleanup(giver.communicate)
        self.addCleanup(giver.kill)
        deadline = time.monotonic() + 60
        while not len(announces) and time.monotonic() < deadline:
            time.sleep(0.02)
        figures = self.fetch()
        for name in ("full", "full.piecepick.lock"):
            (self.folder / name).unlink()
        self.assert_same()
        self.assertEqual(figures["announces"], "1")

    listens = True

    def test_http(self) -> None:
        tracker = HttpTracker()
        self.addCleanup(tracker.close)
        self.meet(tracker.url, tracker.announces)
        events = [told.get("event") for told in tracker.announces]
        self.assertEqual(events[-3:], ["started", "completed", "stopped"])
        self.assertEqual(tracker.announces[0]["left"], "0")
        self.assertEqual([told["left"] for told in tracker.announces[1:]], [str(len(CONTENT)), "0", "0"])


if __name__ == "__main__":
    unittest.main()
