"""Who is too slow for a reader. Nothing here needs the library, a socket or a clock."""

from __future__ import annotations

import math
import unittest

from fetch.deadlines import BACK, LATE, MEASURED, TIMES, Deadlines, Line, Pace

FIRST, SECOND, BOTH = 0b10, 0b01, 0b11  # two pieces


class Paces(unittest.TestCase):
    """How fast a peer is."""

    def test_unknown(self) -> None:
        """Nothing is told before the line was full for some time."""
        pace = Pace()
        pace.follow(10.0)
        self.assertIsNone(pace.seconds(1000))
        pace.fill(True, 10.0)
        pace.came(5000, 11.0)
        pace.follow(10.0 + MEASURED - 0.1)
        self.assertIsNone(pace.seconds(1000))

    def test_measured(self) -> None:
        pace = Pace()
        pace.fill(True, 10.0)
        for second in range(3):
            pace.fill(True, 10.0 + second)
            pace.came(5000, 10.5 + second)
        pace.follow(13.0)
        self.assertEqual((pace.rate, pace.seconds(20000)), (5000.0, 4.0))

    def test_not_full(self) -> None:
        """A peer that is asked for little isn't slow by that: the rate stays as it was measured, and what comes now doesn't count."""
        pace = Pace()
        pace.fill(True, 10.0)
        pace.came(15000, 11.0)
        pace.follow(13.0)
        pace.fill(False, 13.0)
        pace.came(1, 14.0)
        pace.follow(30.0)
        self.assertEqual(pace.rate, 5000.0)
        pace.fill(True, 30.0)
        pace.came(300, 31.0)
        pace.follow(32.0)
        self.assertEqual(pace.rate, 5000.0)
        pace.follow(33.0)
        self.assertEqual(pace.rate, 100.0)

    def test_silent(self) -> None:
        """It was asked and brought nothing, so its next block never comes."""
        pace = Pace()
        pace.fill(True, 0.0)
        pace.follow(MEASURED)
        self.assertEqual(pace.seconds(1), math.inf)


class Judged(unittest.TestCase):
    """Who gets nothing urgent."""

    def setUp(self) -> None:
        self.deadlines = Deadlines()

    def judge(self, urgent: int = BOTH, shows: dict[str, int] | None = None, **seconds: float | None) -> set[object]:
        """The verdict on peers with these lines, which show both pieces where nothing else is said."""
        lines = [Line(name, taken, (shows or {}).get(name, BOTH)) for name, taken in seconds.items()]
        return set(self.deadlines.judge(lines, urgent))

    def test_nobody(self) -> None:
        self.assertEqual(self.judge(), set())

    def test_slow(self) -> None:
        """One with too long a line gets nothing urgent; a peer of which nothing is known may have all."""
        self.assertEqual(self.judge(quick=1.0, fair=LATE, slow=LATE + 0.1, silent=math.inf, new=None), {"slow", "silent"})

    def test_hysteresis(self) -> None:
        """Between the two bounds it stays as it was."""
        between = (1 + BACK) / 2 * LATE
        for seconds, is_late in ((between, False), (LATE + 0.1, True), (between, True), (BACK * LATE, False), (between, False)):
            self.assertEqual(self.judge(quick=1.0, other=seconds), {"other"} if is_late else set())

    def test_all_slow(self) -> None:
        """Where all are slow, those of half the speed may have urgent blocks too."""
        self.assertEqual(self.judge(a=10.0, b=10.0 * TIMES, c=10.0 * TIMES + 0.1), {"c"})
        self.assertEqual(self.judge(a=math.inf, b=math.inf), set())

    def test_quickest_is_open(self) -> None:
        """One that chokes us isn't the quickest, however quick it was."""
        self.assertEqual(self.judge(shows={"choking": 0}, choking=1.0, slow=10.0, other=11.0), set())

    def test_spared(self) -> None:
        """The quickest of the slow ones gets a piece that nobody quick has."""
        shows = {"quick": FIRST}
        self.assertEqual(self.judge(shows=shows, quick=1.0, slow=9.0, slower=10.0), {"slower"})
        # A piece that is had, or isn't urgent, is no matter.
        self.assertEqual(Deadlines().judge([Line("quick", 1.0, FIRST), Line("slow", 9.0, SECOND)], FIRST), {"slow"})

    def test_each_piece(self) -> None:
        """Each piece has somebody who brings it."""
        shows = {"quick": 0b100, "slow": FIRST, "slower": SECOND, "slowest": BOTH}
        self.assertEqual(self.judge(0b111, shows, quick=1.0, slow=9.0, slower=10.0, slowest=11.0), {"slowest"})

    def test_unproven(self) -> None:
        """A new peer may be mute, so it alone isn't relied on; and one that chokes us brings nothing."""
        self.assertEqual(self.judge(shows={"quick": FIRST}, quick=1.0, new=None, slow=9.0), set())
        self.assertEqual(self.judge(shows={"quick": FIRST, "choking": 0}, quick=1.0, choking=1.0, slow=9.0), set())
        self.assertEqual(self.judge(shows={"quick": FIRST, "slow": 0}, quick=1.0, slow=9.0, slower=10.0), {"slow"})

    def test_spared_stays(self) -> None:
        """Of two that are slow alike nobody goes to and fro."""
        shows = {"quick": FIRST}
        self.assertEqual(self.judge(shows=shows, quick=1.0, a=9.0, b=9.1), {"b"})
        for a, b in ((9.2, 9.1), (9.0, 9.1), (9.2, 9.1)):
            self.assertEqual(self.judge(shows=shows, quick=1.0, a=a, b=b), set())
        self.assertEqual(self.judge(quick=1.0, a=9.0, b=9.1), {"a", "b"})

    def test_gone(self) -> None:
        """Of a peer that went nothing is kept."""
        self.judge(quick=1.0, other=9.0)
        self.judge(quick=1.0)
        self.assertEqual((self.deadlines.late, self.judge(quick=1.0, other=0.9 * LATE)), (set(), set()))


if __name__ == "__main__":
    unittest.main()
