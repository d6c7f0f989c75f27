"""Random scripts of small torrents, each reply of which is judged by the plain model (tools/model.py). `tools/fuzz.py picks` plays them."""

from __future__ import annotations

import concurrent.futures
import hashlib
import os
import random
import subprocess
import tempfile
import time
from collections import Counter
from typing import Callable, NamedTuple

from model import (
    BLOCK_SIZE, MOST_DEPTH, MOST_LEVEL, MOST_OPEN, MOST_TOLD_DEPTH, MOST_WORKERS, Block, Model, NotALine, Rules, Torrent, open_model,
)  # fmt: skip

LONG_PIECES = [BLOCK_SIZE + 1, BLOCK_SIZE + 1, 2 * BLOCK_SIZE + 1, 3 * BLOCK_SIZE + 1]
PIECE_LENGTHS = [1, 1, 1, 2, 3, BLOCK_SIZE, *LONG_PIECES]
WORD_EDGES = [2**64 - 1, 2**64 - 2, 2**63, 2**32, 2**32 - 1]
MOST_STEPS = 90


class Mood(NamedTuple):
    """How often a script does what, by weights."""

    next: int
    block: int
    settle: int
    have: int
    lack: int
    choke: int
    unchoke: int
    rejoin: int
    release: int
    late: int
    depth: int
    level: int
    want: int
    order: int
    reach: int
    alone: int
    stray: int
    loss: int = 0
    flight: int = 0


MOODS = [
    # a download with all calls, one that completes nothing, two in which much is given up, two in which much is late, one in which
    # peers often work alone, one of levels, orders and reaches, and one that is quick
    Mood(40, 14, 6, 4, 3, 2, 5, 2, 8, 6, 2, 3, 1, 1, 2, 2, 4),
    Mood(60, 5, 0, 3, 2, 2, 5, 2, 6, 4, 2, 1, 1, 0, 1, 2, 1),
    Mood(45, 4, 1, 3, 2, 2, 5, 2, 35, 0, 3, 0, 0, 0, 0, 0, 1),
    Mood(45, 4, 1, 6, 8, 6, 9, 5, 20, 4, 3, 2, 1, 1, 2, 4, 1),
    Mood(45, 4, 1, 2, 1, 1, 3, 1, 3, 35, 3, 1, 0, 0, 0, 0, 1),
    Mood(40, 9, 4, 3, 1, 1, 3, 1, 5, 25, 4, 3, 1, 2, 2, 4, 1),
    Mood(45, 9, 4, 3, 2, 3, 6, 2, 9, 7, 2, 2, 1, 2, 2, 20, 1),
    Mood(40, 8, 3, 3, 2, 1, 4, 1, 14, 8, 2, 12, 2, 6, 6, 2, 1),
    Mood(45, 25, 12, 2, 0, 0, 2, 1, 4, 3, 1, 0, 0, 0, 0, 0, 0),
]

# Of pickers that may lose pieces: of these the first has whole pieces to lose, the second has blocks to discard, and in the third many requests
# are in flight that the picker didn't choose.
LOSSES = [
    Mood(45, 25, 12, 2, 1, 1, 3, 1, 5, 4, 1, 2, 1, 1, 2, 3, 1, 14, 3),
    Mood(45, 16, 2, 3, 2, 2, 4, 1, 5, 6, 2, 2, 1, 1, 2, 8, 1, 14, 8),
    Mood(30, 12, 3, 3, 2, 2, 5, 2, 5, 8, 4, 3, 1, 2, 3, 8, 1, 2, 35),
]


def line_of(rules: Rules) -> str:
    """The line that sets the rules. From the end what is as usual is left out."""
    words = [(str(rules.open), "0"), (str(rules.rush), str(MOST_TOLD_DEPTH)), ("yes" if rules.shown else "no", "no")]
    while words and words[-1][0] == words[-1][1]:
        words.pop()
    return " ".join(["rules", str(rules.depth), str(rules.random), *(word for word, _ in words)])


class Script:
    """A random script, written beside the model, with the reply that each of its lines has to have."""

    def __init__(self, rng: random.Random, with_bounds: bool = False, with_open: bool = False, with_losses: bool = False) -> None:
        self.rng = rng
        self.mood = rng.choice(LOSSES if with_losses else MOODS)
        # Whose a piece is matters where it has several blocks.
        self.torrent = self.made_torrent(LONG_PIECES if max(self.mood.alone, self.mood.loss) > self.mood.release else PIECE_LENGTHS)
        workers = rng.randrange(1, 6)
        askers = rng.choice([1, 1, 2, 2, 3, 4, MOST_WORKERS]) if with_bounds else MOST_WORKERS
        deepest = rng.choice([1, 2, 8, 64, 500]) if with_bounds else MOST_DEPTH
        depth, at_random = rng.choice([1, 2, 3, 5, 5, 8, 64]), rng.randrange(len(self.torrent.hashes) + 1)
        # Which pieces are rare matters once none begins at random.
        if (with_open or max(self.mood.late, self.mood.alone) > self.mood.release) and rng.randrange(2):
            at_random = 0
        most_open = rng.choice([0, 1, 1, 1, 2, 2, 3, MOST_OPEN]) if with_open else 0
        rush = rng.choice([0, 1, 1, 2, 2, 3, 4, 16, MOST_TOLD_DEPTH, MOST_TOLD_DEPTH]) if with_open else MOST_TOLD_DEPTH
        self.rules = Rules(depth, at_random, askers, deepest, most_open, rush, shown=with_open and rng.randrange(3) > 0)
        # A piece that bitfields leave out, so that mostly nobody has it.
        self.nowhere = rng.randrange(len(self.torrent.hashes)) if with_open and rng.randrange(2) else None
        self.model = Model(self.torrent, workers, self.rules, with_losses)
        digests = " ".join(digest.hex() for digest in self.torrent.hashes)
        self.lines = [f"torrent {self.torrent.piece_length} {self.torrent.total} {workers} {digests}"]
        self.lines.append(line_of(self.rules))
        self.replies: list[str] = []
        self.first_steps()
        for _ in range(rng.randrange(15, MOST_STEPS)):
            self.step()

    def picks(self) -> int:
        """How many calls of Next it makes."""
        return sum(" next " in line[:8] for line in self.lines)

    def made_torrent(self, lengths: list[int]) -> Torrent:
        """A torrent of 1 to 12 pieces of one of these lengths, each of one byte over and over."""
        pieces = self.rng.choice([*range(1, 13), 7, 8, 9, 10, 11, 12])
        length = self.rng.choice(lengths)
        total = length * (pieces - 1) + self.rng.randrange(1, length + 1)
        sizes = [min(length, total - piece * length) for piece in range(pieces)]
        return Torrent(length, total, tuple(hashlib.sha1(bytes([piece]) * size).digest() for piece, size in enumerate(sizes)))

    def say(self, worker: int, words: str) -> None:
        """Adds a line, with the reply that it has to have."""
        self.lines.append(f"{worker} {words}")
        self.replies.append(self.model.play(self.lines[-1]))

    def first_steps(self) -> None:
        """Most peers join, show pieces and unchoke us."""
        for worker in range(len(self.model.peers)):
            if self.rng.randrange(12):
                self.say(worker, "join")
                if self.rng.randrange(12):
                    self.say(worker, f"bits {self.flags(self.nowhere)}")
                if self.rng.randrange(12):
                    self.say(worker, "unchoke")

    def step(self) -> None:
        """Adds a line or two of any kind."""
        kind = self.rng.choices(Mood._fields, self.mood)[0]
        getattr(self, f"say_{kind}")(self.rng.randrange(len(self.model.peers)))

    # ---- parts of lines

    def flags(self, nowhere: int | None = None) -> str:
        """A bitfield: of some pieces, of most or of all, but for one that may be told."""
        pieces = self.model.pieces
        kept = self.rng.choice([1, 2, 3, 3, 4, 4, 4])
        bits = "".join("1" if self.rng.randrange(4) < kept and piece != nowhere else "0" for piece in range(pieces))
        size = (pieces + 7) // 8
        return f"{int(bits.ljust(8 * size, '0'), 2):0{2 * size}x}"

    def word(self) -> int:
        """A random number of Next, small or large."""
        if self.rng.randrange(3):
            return self.rng.randrange(2 * self.model.pieces + 1)
        return self.rng.choice([self.rng.randrange(2**64), self.rng.choice(WORD_EDGES)])

    def piece(self) -> int:
        """A piece, or now and then one that there isn't."""
        return self.rng.randrange(self.model.pieces + (not self.rng.randrange(20)))

    def some_block(self) -> Block:
        """Any block of the torrent."""
        return self.rng.choice(self.rng.choice(self.model.blocks))

    def data(self, block: Block) -> str:
        """The bytes of the block, or now and then others."""
        byte = block.piece if self.rng.randrange(12) else 255
        return f"{byte:02x}" * block.length

    # ---- lines of each kind

    def ask_two(self, worker: int) -> None:
        """Often asks what is said to the peer next, and then to any other one."""
        for number in [worker, self.rng.randrange(len(self.model.peers))][:self.rng.randrange(3)]:
            self.say(number, f"next {self.word()}")

    def say_next(self, worker: int) -> None:
        ready = [number for number, peer in enumerate(self.model.peers) if peer.opened]
        if ready and self.rng.randrange(12):
            worker = self.rng.choice(ready)
        for _ in range(self.rng.choice([1, 2, 3, 5])):
            self.say(worker, f"next {self.word()}")
            if self.replies[-1] in ("nothing", "idle", "choked", "pipefull"):
                break

    def say_block(self, worker: int) -> None:
        asked = self.model.peers[worker].asked
        block = self.rng.choice(asked) if asked and self.rng.randrange(10) else self.some_block()
        self.say(worker, f"block {block.piece} {block.begin} {self.data(block)}")

    def say_settle(self, worker: int) -> None:
        waiting = [piece for piece in range(self.model.pieces) if self.model.waits(piece)]
        self.say(worker, f"settle {self.rng.choice(waiting) if waiting and self.rng.randrange(10) else self.piece()}")

    def say_have(self, worker: int) -> None:
        words: list[Callable[[], str]] = [
            lambda: f"have {self.piece()}", lambda: f"haves {self.flags(self.nowhere)}", lambda: f"bits {self.flags(self.nowhere)}",
        ]  # fmt: skip
        self.say(worker, self.rng.choices(words, [6, 3, 1])[0]())

    def say_lack(self, worker: int) -> None:
        peer = self.model.peers[worker]
        requested = {block.piece for block in peer.asked}
        some = sorted(requested if requested and self.rng.randrange(3) else peer.shows)
        self.say(worker, f"lack {self.rng.choice(some) if some and self.rng.randrange(10) else self.piece()}")

    def say_choke(self, worker: int) -> None:
        self.say(worker, "choke")

    def say_unchoke(self, worker: int) -> None:
        self.say(worker, "unchoke")

    def say_rejoin(self, worker: int) -> None:
        self.say(worker, "leave")
        self.say(worker, "join")
        self.say(worker, f"bits {self.flags(self.nowhere)}")
        if self.rng.randrange(4):
            self.say(worker, "unchoke")

    def say_release(self, worker: int) -> None:
        asked = list(self.model.peers[worker].asked)
        self.rng.shuffle(asked)
        some = asked[:self.rng.choice([1, 1, 2, len(asked)])] if asked and self.rng.randrange(10) else [self.some_block()]
        for block in some:
            self.say(worker, f"release {block.piece} {block.begin}")

    def say_late(self, worker: int) -> None:
        peers = self.model.peers
        busy = [number for number, peer in enumerate(peers) if len(peer.overdue) < len(peer.asked)]
        if busy and self.rng.randrange(8):
            worker = self.rng.choice(busy)
        asked = list(peers[worker].asked)
        self.rng.shuffle(asked)
        some = asked[:self.rng.choice([1, 1, 2, len(asked), len(asked)])] if asked and self.rng.randrange(10) else [self.some_block()]
        for block in some:
            begin = block.begin if self.rng.randrange(20) else self.rng.choice([block.begin + 1, BLOCK_SIZE, 2**32 - 1])
            self.say(worker, f"late {block.piece} {begin}")
        # Its own peer isn't asked for a late block again, and another one may be.
        self.ask_two(worker)

    def say_depth(self, worker: int) -> None:
        self.say(worker, f"depth {self.rng.choice([0, 1, 1, 2, 2, 3, 4, 8, 64, 65, 500])}")

    def say_level(self, worker: int) -> None:
        if self.rng.randrange(4):
            self.say(worker, f"level {self.piece()} {self.rng.choice([0, 1, 2, 3, 4, 4, 4, 5, 6, 7, 7, 8])}")
        else:
            top = self.rng.choice([2, 5, MOST_LEVEL, MOST_LEVEL, 8])
            count = self.model.pieces + self.rng.choice([0] * 20 + [1])
            self.say(worker, f"levels {''.join(str(self.rng.randrange(top + 1)) for _ in range(count))}")

    def say_want(self, worker: int) -> None:
        self.say(worker, f"want {self.flags()}")

    def say_order(self, worker: int) -> None:
        if self.rng.randrange(3):
            self.say(worker, f"inorderfrom {self.rng.choice([0, 1, 2, 3, 4, 4, 5, 5, 5, 6, 7, 8, 8, 9])}")
        else:
            self.say(worker, f"inorder {self.rng.choice(['yes', 'no'])}")

    def say_reach(self, worker: int) -> None:
        self.say(worker, f"reach {self.rng.choice([0, 1, 2, 3, 3, 4, 4, 4, 5, 5, 6, 7, 7, 7, 8])}")

    def say_alone(self, worker: int) -> None:
        self.say(worker, f"alone {self.rng.choice(['yes', 'yes', 'no'])}")
        # It goes on with pieces of its own alone, and others pass these by.
        self.ask_two(worker)

    def say_loss(self, worker: int) -> None:
        complete, held = sorted(self.model.had), sorted(self.model.held)
        if complete and self.rng.randrange(3):
            self.say(worker, f"lose {self.rng.choice(complete)}")
        elif held and self.rng.randrange(6):
            block = self.rng.choice(held)
            self.say(worker, f"discard {block.piece} {block.begin}")
        else:
            block = self.some_block()
            words = [f"lose {self.piece()}", f"discard {self.piece()} {block.begin}", f"discard {block.piece} {block.begin + 1}"]
            self.say(worker, self.rng.choice(words))
        # What was complete or held may be asked of anybody again.
        self.ask_two(worker)

    def say_flight(self, worker: int) -> None:
        ready = [number for number, peer in enumerate(self.model.peers) if peer.opened]
        if ready and self.rng.randrange(8):
            worker = self.rng.choice(ready)
        for _ in range(self.rng.choice([1, 1, 2, 3])):
            fitting = sorted(self.model.fitting(self.model.peers[worker], self.model.expected()))
            block = self.rng.choice(fitting) if fitting and self.rng.randrange(4) else self.some_block()
            piece = block.piece if self.rng.randrange(20) else self.piece()
            begin = block.begin if self.rng.randrange(20) else self.rng.choice([block.begin + 1, BLOCK_SIZE, 2**32 - 1])
            self.say(worker, f"requested {piece} {begin}")
        # Nobody else gets what counts now, and the line may be full.
        self.ask_two(worker)

    def say_stray(self, worker: int) -> None:
        words: list[Callable[[], str]] = [
            lambda: "join", lambda: "leave", lambda: f"block {self.piece()} {self.rng.choice([0, 1, BLOCK_SIZE])} 00",
            lambda: f"release {self.piece()} {self.rng.choice([0, 1, BLOCK_SIZE])}",
            lambda: f"late {self.piece()} {self.rng.choice([0, 1, BLOCK_SIZE])}", lambda: f"settle {self.piece()}",
        ]
        self.say(worker, self.rng.choice(words)())


class Wrong(NamedTuple):
    """A line whose reply isn't that of the model."""

    line: str
    wanted: str
    given: str


def expected(text: bytes) -> tuple[list[str], int]:
    """The replies that a script has to have, and its status."""
    lines = text.decode("latin-1").split("\n")
    replies: list[str] = []
    try:
        model, at = open_model(lines)
        for line in filter(None, lines[at:]):
            replies.append(model.play(line))
    except NotALine:
        return replies, 2
    return replies, 0


def differences(lines: list[str], given: list[str]) -> list[Wrong]:
    """The lines whose replies aren't those of the model, which goes on from what was given."""
    model, at = open_model(lines)
    found = []
    for line, reply in zip((line for line in lines[at:] if line), given):
        wanted = model.play(line, reply)
        if wanted != reply:
            found.append(Wrong(line, wanted, reply))
    return found


class Played(NamedTuple):
    """What came of one script."""

    number: int
    picks: int
    replies: Counter[str]
    wrong: list[Wrong]
    fault: str | None


def play(program: str, seed: str, index: int, with_open: bool = False) -> Played:
    """Writes the script of this number, plays it and judges its replies."""
    script = Script(random.Random(f"{seed} picks {index}"), with_open=with_open)
    text = "\n".join(script.lines) + "\n"
    done = subprocess.run([program, "script"], input=text.encode(), capture_output=True, timeout=300, check=False)
    given = done.stdout.decode("latin-1").split("\n")[:-1]
    fault = None if done.returncode == 0 and len(given) == len(script.replies) else f"status {done.returncode}, {len(given)} replies"
    wrong = [] if given == script.replies else differences(script.lines, given)
    if wrong or fault:
        path = os.path.join(tempfile.mkdtemp(prefix="picks-"), "script")
        with open(path, "w", encoding="ascii") as file:
            file.write(text)
        fault = f"{fault or 'wrong replies'}: {path}"
    return Played(index, script.picks(), Counter(reply.split(" ")[0] for reply in given), wrong, fault)


def judge_picks(play_one: Callable[[str, int], Played], wanted: int, seed: str) -> bool:
    """Plays scripts until so many calls of Next were judged. Tells what was wrong, and gives whether nothing was."""
    begun, done, scripts, wrong, faults = time.time(), 0, 0, 0, 0
    replies: Counter[str] = Counter()
    at_once = os.cpu_count() or 1
    with concurrent.futures.ProcessPoolExecutor(at_once) as pool:
        while done < wanted:
            batch = range(scripts, scripts + 64 * at_once)
            for played in pool.map(play_one, [seed] * len(batch), batch, chunksize=8):
                scripts, done, replies = scripts + 1, done + played.picks, replies + played.replies
                wrong, faults = wrong + len(played.wrong), faults + (played.fault is not None)
                if played.fault and faults <= 20:
                    print(f"script {played.number}: {played.fault}")
                    for line, should, reply in played.wrong[:3]:
                        print(f"    {line[:60]}: {reply}, and not {should}")
    seconds = time.time() - begun
    print(", ".join(f"{word} {count:,}" for word, count in sorted(replies.items())))
    print(f"{done:,} picks in {scripts:,} scripts in {seconds:.0f} s, {wrong} replies wrong in {faults} scripts")
    return faults == 0
