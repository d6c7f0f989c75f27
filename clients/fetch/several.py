"""Several torrents in one run, so many at a time, each in a thread of its own."""

from __future__ import annotations

import os
import sys
import threading
import time
from collections.abc import Iterator
from contextlib import contextmanager
from dataclasses import dataclass, replace

from .transfer import Interrupted, Transfer
from .ending import told
from .faults import Ended, Fault, fault_of, named
from .layout import printable
from .limits import Bounds, bounds_of
from .options import Options
from .progress import Progress, State
from .reach import Reach
from .signals import Loop
from .source import obtain

LOOK = 0.2  # seconds


@dataclass(eq=False)
class Job:
    """One torrent. `loop` is what can be stopped now."""

    options: Options
    loop: Loop | None = None
    download: Transfer | None = None
    is_begun: bool = False
    ended: Ended | None = None

    @contextmanager
    def guard(self, loop: Loop) -> Iterator[None]:
        """This loop is to be stopped where all is to end."""
        self.loop = loop
        try:
            yield
        finally:
            self.loop = None


class Several:
    """All torrents of one run. They share the limits and the node of the DHT."""

    is_stopping = False

    def __init__(self, options: Options, reach: Reach) -> None:
        self.options, self.reach = options, reach
        self.bounds: Bounds = bounds_of(options.up_limit, options.down_limit)
        # A slash at its end makes the folder one for many, be it there or not.
        out = os.path.join(options.out, "") if options.out else ""
        self.jobs = [Job(replace(options, torrent=torrent, more=(), out=out, quiet=True)) for torrent in (options.torrent, *options.more)]
        self.progress = Progress(options.quiet)
        self._lock = threading.Lock()

    @property
    def wake_handle(self) -> int:
        """Nothing waits for long here."""
        return -1

    def run(self) -> Ended:
        """Runs them; the status of the first one that failed."""
        threads = [threading.Thread(target=self._work, name="torrent", daemon=True) for _ in range(min(self.options.at_once, len(self.jobs)))]
        for thread in threads:
            thread.start()
        while any(thread.is_alive() for thread in threads):
            time.sleep(LOOK)
            if self.is_stopping:
                self._stop()
            if self.progress.is_due(time.monotonic()):
                self.progress.show(self._state(), time.monotonic())
        self.progress.end()
        return next((job.ended for job in self.jobs if job.ended), Ended.DONE)

    def _work(self) -> None:
        """Takes one after the other, until none is left."""
        while True:
            with self._lock:
                job = next((job for job in self.jobs if not job.is_begun), None)
                if job is None:
                    return
                job.is_begun = True
            if self.is_stopping:
                job.ended = Ended.NOT_DONE
                continue
            try:
                job.ended = self._run(job)
            except Interrupted:
                job.ended = Ended.NOT_DONE
            except Exception as error:
                job.ended = self._say(job, error)

    def _say(self, job: Job, error: Exception) -> Ended:
        """Why a torrent failed. An error that isn't the user's to mend isn't hidden, and ends this one alone."""
        fault = fault_of(error) or Fault(Ended.NOT_DONE, f"this is a mistake in the program: {error!r}")
        self._print(f"fetch.py: {printable(named(job.options.torrent, fault.text))}", is_wrong=True)
        return fault.status

    def _run(self, job: Job) -> Ended:
        source = obtain(job.options, self.reach, job.guard, lambda text: None)
        download = job.download = Transfer.of(source, job.options, self.reach, self.bounds)
        try:
            with job.guard(download.parts.swarm):
                download.prepare()
                is_done = download.run()
        finally:
            download.close()
        for text in told(download.ending()):
            self._print(text, is_wrong=not is_done)
        return Ended.DONE if is_done else Ended.NOT_DONE

    def _print(self, text: str, is_wrong: bool) -> None:
        with self._lock:
            self.progress.end()
            if is_wrong or not self.options.quiet:
                print(text, file=sys.stderr if is_wrong else sys.stdout, flush=True)

    def _stop(self) -> None:
        """Ends the loops that run now."""
        for job in self.jobs:
            if (loop := job.loop) is not None:
                loop.is_stopping = True

    def _state(self) -> State:
        """The sum of those that run, or have run."""
        states = [job.download.latest for job in self.jobs if job.download]
        return State(
            done=sum(state.done for state in states), wanted=sum(state.wanted for state in states),
            down=sum(state.down for state in states), up=sum(state.up for state in states), peers=sum(state.peers for state in states),
            pieces_done=sum(state.pieces_done for state in states), pieces=sum(state.pieces for state in states),
            note=f"{sum(job.ended is not None for job in self.jobs)} of {len(self.jobs)} torrents ended",
        )  # fmt: skip
