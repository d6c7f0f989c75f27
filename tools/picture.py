#!/usr/bin/env python3
"""Draws a journal that the program `piecepick` has printed: calls across, pieces up, a colour for each worker.

    ./piecepick serial --journal META STREAM.. > JOURNAL
    tools/picture.py [--by-rarity] [--title TEXT] JOURNAL > FILE.svg

A line of a journal is a worker, a call, and behind " = " the reply. Other lines are passed over. Time is the number of the line.
"""

from __future__ import annotations

import argparse
import sys
from collections import Counter
from collections.abc import Iterable
from pathlib import Path

sys.path.insert(0, str(Path(__file__).resolve().parent.parent / "clients"))
from fetch.picture import draw  # noqa: E402
from fetch.trace import Trace  # noqa: E402

BLOCK = 1 << 14


def entries(lines: Iterable[str]) -> list[tuple[str, list[str], list[str]]]:
    """The worker, the words of the call and the words of the reply, of each line of the journal."""
    found = []
    for line in lines:
        call, equals, reply = line.strip().partition(" = ")
        words = call.split()
        if equals and len(words) > 1 and words[0].isdigit() and reply:
            found.append((words[0], words[1:], reply.split()))
    return found


def blocks_of(journal: list[tuple[str, list[str], list[str]]]) -> set[tuple[int, int]]:
    """Each block that was requested or came: its piece and its number in it."""
    found = set()
    for _, call, reply in journal:
        for words in (call, reply):
            if words[0] in ("block", "request"):
                found.add((int(words[1]), int(words[2]) // BLOCK))
    return found


class Shown:
    """How many workers show each piece, at each point of the journal."""

    def __init__(self) -> None:
        self.pieces: dict[str, set[int]] = {}
        self.counts: Counter[int] = Counter()

    def hear(self, worker: str, call: list[str], reply: list[str]) -> None:
        """A call that may show pieces, or end it."""
        if call[0] == "leave":
            self.counts.subtract(self.pieces.pop(worker, set()))
            return
        if reply[0] != "noted":
            return
        if call[0] == "have":
            told = {int(call[1])}
        elif call[0] in ("bits", "haves"):
            flags = bytes.fromhex(call[1]) if len(call) > 1 else b""
            told = {place for place in range(8 * len(flags)) if flags[place // 8] & 0x80 >> place % 8}
        else:
            return
        known = self.pieces.setdefault(worker, set())
        self.counts.update(told - known)
        known |= told


class Asked:
    """Of which workers each block is asked, at each point of the journal."""

    def __init__(self) -> None:
        self.workers: dict[tuple[int, int], set[str]] = {}

    def ask(self, worker: str, block: tuple[int, int]) -> bool:
        """A request; whether another worker was asked for the block too."""
        workers = self.workers.setdefault(block, set())
        workers.add(worker)
        return len(workers) > 1

    def hear(self, worker: str, call: list[str]) -> None:
        """A call that may end requests of its worker."""
        if call[0] in ("choke", "leave"):
            for workers in self.workers.values():
                workers.discard(worker)
        elif call[0] in ("block", "release"):
            self.workers.get((int(call[1]), int(call[2]) // BLOCK), set()).discard(worker)


def trace_of(lines: Iterable[str]) -> Trace:
    """What happened by a journal. Raises ValueError where it is none."""
    journal = entries(lines)
    blocks = blocks_of(journal)
    if not blocks:
        raise ValueError("no block is requested or comes: is it a journal?")
    last = max(piece for piece, _ in blocks)
    each = max(block for _, block in blocks) + 1
    in_last = max(block for piece, block in blocks if piece == last) + 1
    trace = Trace(last + 1, each, last * each + in_last, unit="calls")
    shown, asked = Shown(), Asked()
    for at, (worker, call, reply) in enumerate(journal):
        shown.hear(worker, call, reply)
        if reply[0] == "request":
            piece, block = int(reply[1]), int(reply[2]) // BLOCK
            trace.requested(piece, shown.counts[piece])
            if asked.ask(worker, (piece, block)):
                trace.requested_again(at, piece, block)
        elif call[0] == "block" and reply[0] in ("stored", "completed"):
            trace.came(at, int(call[1]), int(call[2]) // BLOCK, f"worker {worker}")
        asked.hear(worker, call)
        trace.twice += reply[0] == "dropped"
        trace.failed += reply[0] == "failed"
    return trace


def main() -> int:
    """Reads the command line, and prints the drawing."""
    parser = argparse.ArgumentParser(description="Draws a journal of the program piecepick.")
    parser.add_argument("journal", metavar="JOURNAL", help="- is standard input")
    parser.add_argument("--by-rarity", action="store_true", help="the pieces that fewest show at the bottom, and not the first ones")
    parser.add_argument("--title", default="A journal of piecepick")
    given = parser.parse_args()
    text = sys.stdin.read() if given.journal == "-" else Path(given.journal).read_text(encoding="ascii")
    try:
        trace = trace_of(text.splitlines())
    except ValueError as fault:
        print(f"picture.py: {fault}", file=sys.stderr)
        return 1
    sys.stdout.write(draw(trace, given.title, given.by_rarity))
    return 0


if __name__ == "__main__":
    sys.exit(main())
