"""One download from its metainfo file to its end: prepares its parts, and runs the loop."""

from __future__ import annotations

import os
import time
from collections.abc import Iterable
from typing import TYPE_CHECKING, Any

from .addresses import Origin, looked_up
from .choosing import Chooser
from .ending import Ending
from .finding import Finding
from .layout import printable
from .levels import Levels
from .limits import Bounds
from .options import Options
from .parts import Parts, why_not
from .place import PART_SUFFIX
from .progress import Progress, State, line, size
from .reach import Reach
from .source import Source

if TYPE_CHECKING:  # who uses none of them starts sooner
    from .keys import Keyboard
    from .recorder import Recorder
    from .seeking import Met
    from .serving import Server
    from .watch import Watch

SAVE_SECONDS = 2.0
STATE_SECONDS = 0.25  # between two looks at how far it is


class Interrupted(Exception):
    """The user has ended the program while it looked at what is there."""


class Transfer:
    """Runs the parts. `prepare` comes first, then `run`, and `close` in any case."""

    def __init__(self, options: Options, metainfo: bytes, reach: Reach | None = None, bounds: Bounds | None = None) -> None:
        self.options, self.parts = options, Parts(options, metainfo, bounds)
        self.finding = Finding(self.parts, reach)
        self.progress = Progress(options.quiet or options.watches)
        self.watch: Watch | None = None
        self.keyboard: Keyboard | None = None
        if options.watches:
            self._open_screen()
        if options.is_verbose and not options.watches:
            self.parts.swarm.partings.tell = self.progress.say
        self.server: Server | None = None
        self.levels = Levels(self.parts)
        self.chooser = Chooser(self.parts.layout.files, self.levels.choose)
        self.began = time.monotonic()
        self.finished: float | None = None
        self.restored_count = 0
        self.latest = State(0, 0, 0.0, 0.0, 0)
        self._saved = self._stated = 0.0
        self._has_told = False  # that the state can't be written
        self._newest = self.began  # when a block came last
        self._met: list[Met] = []

    def _open_screen(self) -> None:
        """The drawing, and the keys that are hit meanwhile."""
        from .keys import Keyboard
        from .watch import Watch

        self.watch, self.keyboard = Watch(), Keyboard()

    @classmethod
    def of(cls, source: Source, options: Options, reach: Reach, bounds: Bounds | None = None) -> Transfer:
        """The download of this torrent, which goes on with the peers that were met on the way to it."""
        try:
            transfer = cls(options, source.metainfo, reach, bounds)
        except BaseException:
            source.close()
            raise
        for address, origin in source.peers:
            transfer.parts.swarm.addresses.add(address, origin)
        transfer._met = source.met
        return transfer

    def prepare(self) -> None:
        """Looks at what is on the disk, takes the room for the rest, and tells the picker what is wanted."""
        parts = self.parts
        parts.content.restore(self._tell_check, self.options.replaces)
        self.progress.end()
        self.restored_count = parts.content.had_count
        self.levels.set()
        parts.picker.set_in_order(self.options.in_order)
        if self.options.serve is not None:
            self._serve(self.options.serve)
        for address in self.options.peers:
            parts.swarm.addresses.add(looked_up(address), Origin.USER)
        self.finding.start()
        self.began = self._newest = parts.session.now = time.monotonic()
        if self.restored_count == 0:  # else the peers are to hear it in the first message, which is over
            while self._met:
                met = self._met.pop()
                parts.swarm.take_over(met.connection, met.address, met.heard, met.is_interested)
        self.finding.tick(self.began)  # at once, and not behind the first wait of the loop
        parts.swarm.connect()

    def _tell_check(self, done: int, pieces: int) -> None:
        """Shows how far the check at the start is. Raises Interrupted where the user ends it."""
        self.progress.check(done, pieces)
        if self.parts.swarm.is_stopping:
            raise Interrupted

    def _serve(self, port: int) -> None:
        """Lets players read. Raises ValueError where the port can't be had."""
        from .serving import Gate, Server, Urgent  # here, so that all others start sooner

        gate = Gate(self.parts.content, self.parts.swarm.wake)
        try:
            self.server = Server(port, gate)
        except OSError as error:
            raise ValueError(why_not(error, port, "--serve")) from error
        self.levels.urgent = Urgent(gate, self.parts.session, self.levels.pieces, self.options.in_order)
        self.parts.swarm.on_verdict = lambda verdict: gate.came()
        self.server.start()
        self.progress.say(f"players find the files at {self.server.url}")

    def run(self) -> bool:
        """Downloads, and uploads as long as is wanted; whether all that is wanted is there."""
        while self.turn():
            pass
        return self.parts.picker.has_wanted

    def turn(self) -> bool:
        """One turn of the loop; whether there is more to do."""
        parts, session = self.parts, self.parts.session
        if parts.swarm.is_stopping or self._is_over():
            return False
        parts.swarm.turn()
        now = session.now
        if now - self._saved >= SAVE_SECONDS:
            self._saved = now
            self._save()
        self.finding.tick(now)
        if self.levels.urgent:
            self.levels.urgent.tick()
        self._look_at_keys()
        if now - self._stated >= STATE_SECONDS:
            self._stated, self.latest = now, self.state(now)
        if self.watch and self.watch.is_due(now):
            self.watch.draw(session, line(self.latest), self.chooser, self.levels.rows)
        if self.progress.is_due(now):
            self.progress.show(self.latest, now)
        return True

    def _look_at_keys(self) -> None:
        """The user may choose files while the drawing is shown."""
        if self.keyboard and self.watch and self.chooser.hit(self.keyboard.hit(), self.parts.levels):
            self.watch.draw_soon()
        if self.chooser.is_over:
            self.parts.swarm.is_stopping = True

    @property
    def is_part(self) -> bool:
        """Whether some pieces aren't wanted."""
        return len(self.levels.wanted) < self.parts.layout.pieces

    def _bytes_of(self, pieces: Iterable[int]) -> int:
        """The bytes of these pieces."""
        return sum(map(self.parts.layout.length_of, pieces))

    def _is_over(self) -> bool:
        """Whether there is nothing more to do."""
        now = time.monotonic()
        if self.parts.picker.has_wanted:
            if self.finished is None:
                self._finish(now)
            return not self._seeds_on(now) and not self.chooser.is_open
        self.finished = None
        self._newest = max([self._newest, *(peer.block_came for peer in self.parts.session.peers.values())])
        return self.options.give_up is not None and now - self._newest > self.options.give_up

    def _finish(self, now: float) -> None:
        """All that is wanted is there."""
        self.finished = now
        self._save()
        if self.parts.content.had_count == self.parts.layout.pieces > self.restored_count:
            self.parts.announcer.complete()

    def _seeds_on(self, now: float) -> bool:
        """Whether more is to be uploaded after all is there."""
        options = self.options
        if self.server:
            return True
        sent = self.parts.uploads.total - self.parts.swarm.unsent
        if options.seed_ratio is not None and sent < options.seed_ratio * self.parts.layout.total:
            return True
        return options.seed_minutes is not None and self.finished is not None and now - self.finished < 60.0 * options.seed_minutes

    def _save(self) -> None:
        """Writes the state file. It is a hint alone, so a full disk is no reason to end."""
        try:
            self.parts.content.save()
        except OSError as error:
            if not self._has_told:
                self._has_told = True
                self.progress.say(f"the state can't be written: {error.strerror}")

    def state(self, now: float) -> State:
        """What the progress line tells."""
        content, peers = self.parts.content, self.parts.session.peers.values()
        return State(
            done=self._bytes_of(filter(content.has, self.levels.wanted)) if self.is_part else content.had_bytes,
            wanted=self._bytes_of(self.levels.wanted) if self.is_part else self.parts.layout.total,
            down=sum(peer.down.per_second(now) for peer in peers),
            up=sum(peer.up.per_second(now) for peer in peers),
            peers=len(peers),
            pieces_done=sum(map(content.has, self.levels.wanted)) if self.is_part else content.had_count,
            pieces=len(self.levels.wanted),
            note=self.parts.announcer.note,
        )

    def close(self) -> None:
        """Ends all, and writes the state."""
        for opened in (self.keyboard, self.watch, self.server, self.finding, *(met.connection for met in self._met)):
            if opened:
                opened.close()
        self.parts.stop()
        self._save()
        self.parts.storage.close()
        self.parts.lock.release()
        self.progress.end()
        if self.parts.recorder and self.options.picture:
            self._draw(self.parts.recorder, self.options.picture)

    def _draw(self, recorder: Recorder, path: str) -> None:
        """Writes the picture."""
        from .picture import draw

        name = os.path.basename(self.parts.root) or "a download"
        title = f"{name}: {size(self.parts.layout.total)} in {recorder.trace.end:.1f} s"
        try:
            with open(path, "w", encoding="utf-8") as file:
                file.write(draw(recorder.trace, printable(title), self.options.by_rarity))
        except OSError as error:
            self.progress.say(f"the picture can't be written: {error.strerror}")

    def ending(self) -> Ending:
        """What a person is told at the end."""
        parts = self.parts
        state = self.state(time.monotonic())
        unwanted = [file for file in parts.layout.files if parts.levels[file.number] == 0]
        return Ending(
            path=parts.root,
            is_done=parts.picker.has_wanted,
            done=state.done,
            wanted=state.wanted,
            restored=parts.content.restored_bytes,
            came=parts.session.figures.bytes,
            given=parts.uploads.total,
            seconds=(self.finished or time.monotonic()) - self.began,
            givers=len(parts.swarm.partings.givers),
            reasons=parts.swarm.partings.line(),
            note=parts.announcer.note,
            knows_nobody=self.finding.knows_nobody,
            parts=tuple(path for path in map(parts.storage.path_of, unwanted) if path.endswith(PART_SUFFIX) and os.path.exists(path)),
        )

    def figures(self) -> dict[str, Any]:
        """What happened, in numbers."""
        parts, figures = self.parts, self.parts.session.figures
        end = self.finished or time.monotonic()
        told: dict[str, Any] = {
            "complete": parts.picker.has_wanted,
            "seconds": round(end - self.began, 3),
            "bytes": parts.layout.total,
            "had": parts.content.had_bytes,
            "restored": parts.content.restored_bytes,
            "uploaded": parts.uploads.total,
            "downloaded": figures.bytes,
            "blocks": figures.blocks,
            "twice": figures.twice,
            "unasked": figures.unasked,
            "requests": figures.requests,
            "endgame_requests": figures.endgame_requests,
            "cancels": figures.cancels,
            "rejects": figures.rejects,
            "late_bitfields": figures.late_bitfields,
            "timeouts": figures.timeouts,
            "failed": parts.content.failed,
            "discarded": parts.content.discarded,
            "connections": parts.swarm.connections,
            "lost": parts.swarm.lost,
            "banned": parts.swarm.banned,
            "alone": parts.session.suspects.told,
            "announces": parts.announcer.announces,
            "refusals": parts.swarm.partings.counted(),
        }
        if parts.metered:
            told |= {"calls": parts.metered.calls, "library": round(parts.metered.seconds, 3)}
        return told
