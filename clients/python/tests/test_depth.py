"""Depth by rate, by the table that the tests of all languages read. It needs no library."""

from __future__ import annotations

import runpy
import unittest
from pathlib import Path
from typing import TYPE_CHECKING

HERE = Path(__file__).resolve().parent
TABLE = HERE.parents[1] / "depths.txt"
if TYPE_CHECKING:
    from piecepick import DepthByRate
else:
    # By its own file, since the package loads the library.
    DepthByRate = runpy.run_path(str(HERE.parent / "piecepick" / "depth.py"))["DepthByRate"]


def play(peer: DepthByRate, event: str, numbers: list[int]) -> tuple[DepthByRate, int]:
    """Makes the call of an event. Gives the depth that it answers, if it answers one, and else the one that is so then."""
    match event, numbers:
        case "begin", [now, depth, deepest]:
            peer = DepthByRate(now, depth=depth, deepest=deepest)
        case "came", [now, count]:
            peer.came(count, now)
        case "timed_out", []:
            peer.timed_out()
        case "endgame", [flag]:
            peer.set_in_endgame(bool(flag))
        case "follow", [now]:
            return peer, peer.follow(now)
        case _:
            raise ValueError(f"no event: {event} {numbers}")
    return peer, peer.depth


class Depths(unittest.TestCase):
    """The depths of one peer after the other."""

    def test_table(self) -> None:
        peer = DepthByRate(0)
        for number, line in enumerate(TABLE.read_text().splitlines(), 1):
            if line and not line.startswith("#"):
                event, _, wanted = line.partition(" = ")
                name, *numbers = event.split()
                with self.subTest(line=number, event=event):
                    peer, depth = play(peer, name, [int(word) for word in numbers])
                    self.assertEqual((depth, peer.depth), (int(wanted), int(wanted)))

    def test_usual(self) -> None:
        peer = DepthByRate(0)
        self.assertEqual(peer.depth, 16)
        peer.came(2**40, 0)
        self.assertEqual(peer.follow(0), 500)

    def test_numbers(self) -> None:
        """No number is taken modulo anything, and what isn't taken changes nothing."""
        peer = DepthByRate(5000)
        for wrong in (-1, 2**64):
            self.assertRaises(ValueError, DepthByRate, wrong)
            self.assertRaises(ValueError, peer.came, 1, wrong)
            self.assertRaises(ValueError, peer.came, wrong, 6000)
            self.assertRaises(ValueError, peer.follow, wrong)
        for wrong in (-1, 2**32):
            self.assertRaises(ValueError, lambda choice: DepthByRate(0, depth=choice), wrong)
            self.assertRaises(ValueError, lambda choice: DepthByRate(0, deepest=choice), wrong)
        self.assertRaises(TypeError, peer.follow, 1.5)
        self.assertRaises(TypeError, peer.came, 1.5, 6000)
        self.assertEqual(peer.follow(6000), 16)


if __name__ == "__main__":
    unittest.main()
