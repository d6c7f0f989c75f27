"""Whom is uploaded to, who is tried when, who is blamed, and how rates are counted."""

from __future__ import annotations

import random
import unittest
from collections import Counter
from collections.abc import Hashable

from fetch.addresses import Addresses, Origin, delay, parse
from fetch.blame import Blame
from fetch.choking import OPTIMISTIC_ROUNDS, Candidate, Choker
from fetch.rate import Rate

HERE, THERE = ("10.0.0.1", 1), ("10.0.0.2", 2)


class Choking(unittest.TestCase):
    """The slots."""

    def test_quickest(self) -> None:
        candidates = [Candidate(name, rate, 100.0) for name, rate in (("a", 5.0), ("b", 9.0), ("c", 1.0), ("d", 7.0), ("e", 8.0), ("f", 0.0))]
        chosen = Choker(4, random.Random(1)).choose(candidates)
        self.assertEqual(len(chosen), 4)
        self.assertLessEqual({"b", "d", "e"}, chosen)

    def test_few(self) -> None:
        choker = Choker(4)
        self.assertEqual(choker.choose([Candidate("a", 0.0, 0.0), Candidate("b", 0.0, 0.0)]), {"a", "b"})
        self.assertEqual(choker.choose([]), set())
        self.assertEqual(Choker(0).choose([Candidate("a", 1.0, 0.0)]), set())

    def test_chance(self) -> None:
        """The last slot stays for three rounds, and everybody has it at some time."""
        choker = Choker(2, random.Random(1))
        candidates = [Candidate("quick", 9.0, 100.0)] + [Candidate(number, 0.0, 100.0) for number in range(5)]
        had = []
        for _ in range(100):
            for turn in range(OPTIMISTIC_ROUNDS):
                (by_chance,) = choker.choose(candidates) - {"quick"}
                if turn == 0:
                    had.append(by_chance)
                self.assertEqual(by_chance, had[-1])
        self.assertEqual(set(had), set(range(5)))

    def test_new_ones(self) -> None:
        """A new connection is drawn three times as often as an old one."""
        counts: Counter[Hashable] = Counter()
        chance = random.Random(1)
        for _ in range(2000):
            (drawn,) = Choker(1, chance).choose([Candidate("old", 0.0, 61.0), Candidate("new", 0.0, 1.0)])
            counts[drawn] += 1
        self.assertAlmostEqual(counts["new"] / 2000, 0.75, delta=0.04)


class Known(unittest.TestCase):
    """Addresses."""

    def test_back_off(self) -> None:
        self.assertEqual([delay(failures) for failures in (1, 2, 3, 4, 9, 1000)], [2.0, 4.0, 8.0, 16.0, 512.0, 600.0])
        addresses = Addresses()
        addresses.add(HERE)
        known = addresses.due(0.0)
        assert known
        known.is_in_use = True
        self.assertIsNone(addresses.due(1000.0))
        addresses.failed(HERE, 100.0)
        self.assertIsNone(addresses.due(101.5))
        self.assertIsNotNone(addresses.due(102.5))

    def test_fresh_ones_first(self) -> None:
        addresses = Addresses()
        addresses.add(HERE)
        addresses.failed(HERE, 0.0)
        addresses.add(THERE)
        self.assertEqual(addresses.due(100.0), addresses.known[THERE])

    def test_bans(self) -> None:
        addresses = Addresses()
        addresses.add(HERE)
        addresses.ban(HERE)
        addresses.add(HERE)
        addresses.add(("10.0.0.1", 99))
        self.assertIsNone(addresses.due(0.0))
        # Of our own machine only the one address is banned.
        addresses.ban(("127.0.0.1", 1))
        self.assertFalse(addresses.is_banned(("127.0.0.1", 2)))

    def test_flood(self) -> None:
        """A tracker can't fill the memory, nor push out what the user has named."""
        addresses = Addresses()
        for number in range(100000):
            addresses.add((f"10.{number >> 16}.{number >> 8 & 255}.{number & 255}", 1 + number % 60000))
        addresses.add(("192.168.0.1", 1), Origin.USER)
        self.assertLessEqual(len(addresses.known), 2001)
        self.assertIn(("192.168.0.1", 1), addresses.known)

    def test_parsed(self) -> None:
        self.assertEqual([parse("a.example:80"), parse("[::1]:9"), parse("1.2.3.4:65535")], [("a.example", 80), ("::1", 9), ("1.2.3.4", 65535)])
        for text in ("a", "a:", ":1", "a:0", "a:65536", "a:x", "", "a:-1", "a:１"):
            with self.subTest(text), self.assertRaises(ValueError):
                parse(text)


class Blamed(unittest.TestCase):
    """Who sent what was wrong."""

    def test_alone(self) -> None:
        self.assertEqual(Blame().failed(3, [HERE, HERE], [b"a", b"b"]), {HERE})
        self.assertEqual(Blame().failed(3, [None, None], [b"a", b"b"]), set())

    def test_later(self) -> None:
        blame = Blame()
        self.assertEqual(blame.failed(3, [HERE, THERE, None], [b"a", b"bad", b"c"]), set())
        self.assertEqual(blame.failed(3, [None, HERE, THERE], [b"worse", b"b", b"c"]), set())
        self.assertEqual(blame.cleared(3, [b"a", b"b", b"c"]), {THERE})
        self.assertEqual(blame.cleared(3, [b"a", b"b", b"c"]), set())


class Rates(unittest.TestCase):
    """Bytes a second."""

    def test_steady(self) -> None:
        rate = Rate(100.0)
        for tenth in range(200):
            rate.add(50, 100.0 + tenth / 10)
        self.assertAlmostEqual(rate.per_second(120.0), 500.0, delta=75.0)
        self.assertEqual(rate.total, 10000)

    def test_young(self) -> None:
        rate = Rate(100.5)
        rate.add(3000, 103.0)
        self.assertAlmostEqual(rate.per_second(103.5), 1000.0)

    def test_several(self) -> None:
        rate = Rate(100.0)
        for at, count in ((101.2, 4000), (103.4, 200), (104.1, 400)):
            rate.add(count, at)
        self.assertAlmostEqual(rate.per_second(104.5), 4600 / 4.5)

    def test_over(self) -> None:
        rate = Rate(100.0)
        rate.add(5000, 100.0)
        self.assertEqual(rate.per_second(109.0), 0.0)


if __name__ == "__main__":
    unittest.main()
