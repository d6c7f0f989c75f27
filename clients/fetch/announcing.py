"""When which tracker is told what: tiers (BEP 12), intervals, and the events of a download. The talk itself is a thread's."""

from __future__ import annotations

import queue
import random
import threading
from collections.abc import Callable
from dataclasses import dataclass

from .tracker import Announce, Event, Told, TrackerFault

FIRST_RETRY = 15.0  # seconds after all trackers failed; it doubles each time
LONGEST_RETRY = 1800.0
STOP_SECONDS = 3.0  # that the end of the program waits for the last announce
LONGEST_TALK = 300.0  # seconds that an announce may take, before another one is made
FEW_PEERS = 5  # fewer than these, and the tracker is asked as early as it allows


@dataclass(frozen=True)
class Outcome:
    """How an announce went."""

    event: Event
    url: str = ""
    told: Told | None = None
    faults: tuple[str, ...] = ()


def announce(url: str, request: Announce, tracker_id: bytes = b"", source: str = "", hurries: bool = False) -> Told:
    """Tells one tracker, by the way that its address names, from one of our own addresses."""
    if url.lower().startswith("udp://"):
        from . import tracker_udp  # here, as the other one

        wait, tries = (STOP_SECONDS / 2, 1) if hurries else (tracker_udp.FIRST_WAIT, tracker_udp.TRIES)
        return tracker_udp.announce(url, request, wait, tries, source)
    if url.lower().startswith(("http://", "https://")):
        from . import tracker_http  # here, since it takes a while, and this is a thread of its own

        return tracker_http.announce(url, request, STOP_SECONDS if hurries else tracker_http.TIMEOUT, tracker_id, source)
    raise TrackerFault("no tracker of this kind is known")


class Announcer:
    """The trackers of a download. `fill` gives an announce of an event, with the numbers of the moment."""

    def __init__(self, tiers: list[list[str]], fill: Callable[[Event], Announce], wake: Callable[[], None], source: str = "") -> None:
        self.tiers = [random.sample(tier, len(tier)) for tier in tiers]
        self.fill, self.wake, self.source = fill, wake, source
        self.outcomes: queue.SimpleQueue[Outcome] = queue.SimpleQueue()
        self.is_busy = False
        self.current = ""  # the tracker that took the last announce
        self.last: Told | None = None
        self.announces = 0
        self.note = ""
        self._events = [Event.STARTED]
        self._next = self._earliest = self._began = 0.0
        self._failures = 0
        self._ids: dict[str, bytes] = {}

    def complete(self) -> None:
        """All that there is was downloaded."""
        self._events.append(Event.COMPLETED)
        self._next = 0.0

    def tick(self, now: float, peers: int) -> list[tuple[str, int]]:
        """Announces, if it is time for it; the addresses that trackers have told since the last call."""
        addresses: list[tuple[str, int]] = []
        while True:
            try:
                outcome = self.outcomes.get_nowait()
            except queue.Empty:
                break
            self.is_busy = False
            addresses += self._take(outcome, now)
        if self.is_busy and now - self._began > LONGEST_TALK:
            self.is_busy = False
        is_time = now >= self._next or (peers < FEW_PEERS and now >= self._earliest)
        if self.tiers and not self.is_busy and is_time:
            self._began = now
            self._start(self._events[0] if self._events else Event.NONE)
        return addresses

    def _take(self, outcome: Outcome, now: float) -> list[tuple[str, int]]:
        """What is to be done with an outcome."""
        if outcome.told is None:
            self._failures += 1
            wait = min(LONGEST_RETRY, FIRST_RETRY * 2.0 ** min(self._failures - 1, 10))
            self._next = self._earliest = now + wait
            self.note = outcome.faults[-1] if outcome.faults else ""
            return []
        self._failures = 0
        self.current, self.last, self.note = outcome.url, outcome.told, outcome.told.warning
        if outcome.told.tracker_id:
            self._ids[outcome.url] = outcome.told.tracker_id
        if self._events and self._events[0] is outcome.event:
            self._events.pop(0)
        self._next, self._earliest = now + outcome.told.interval, now + outcome.told.shortest
        if self._events:
            self._next = 0.0
        return outcome.told.peers

    def _start(self, event: Event) -> None:
        self.is_busy = True
        self.announces += 1
        request = self.fill(event)
        threading.Thread(target=self._run, args=[request], name="announce", daemon=True).start()

    def _run(self, request: Announce) -> None:
        self.outcomes.put(self._announce_any(request))
        self.wake()

    def _announce_any(self, request: Announce) -> Outcome:
        """Goes through the tiers until a tracker answers, which comes first in its tier from then on."""
        faults = []
        for tier in self.tiers:
            for place, url in enumerate(tier):
                try:
                    told = announce(url, request, self._ids.get(url, b""), self.source)
                except TrackerFault as fault:
                    faults.append(f"{url}: {fault}")
                    continue
                tier.insert(0, tier.pop(place))
                return Outcome(request.event, url, told)
        return Outcome(request.event, faults=tuple(faults))

    def stop(self, waits: bool = True) -> None:
        """Tells the tracker that knows us what it doesn't know yet and that we go, and doesn't wait for long, or not at all."""
        if not self.current:
            return
        requests = [self.fill(event) for event in (*self._events, Event.STOPPED)]
        last = threading.Thread(target=self._say_last, args=[self.current, requests], name="announce", daemon=True)
        last.start()
        if waits:
            last.join(STOP_SECONDS)

    def _say_last(self, url: str, requests: list[Announce]) -> None:
        try:
            for request in requests:
                announce(url, request, self._ids.get(url, b""), self.source, hurries=True)
        except TrackerFault as fault:
            self.note = f"{url}: {fault}"
