"""Random scripts at the library (clients/build.sh), each reply of which is judged by the plain model. `tools/fuzz.py picks --library` plays them.

Their rules also bound the askers of a block in endgame, and let greater depths be told: no script of the program says these. Every second
picker keeps no journal. It loses pieces, discards blocks, and hears of requests that it didn't choose. Of each request the rule that the library
tells is judged too.
"""

from __future__ import annotations

import hashlib
import os
import random
import sys
from collections import Counter
from collections.abc import Callable

sys.path.insert(0, os.path.join(os.path.dirname(os.path.dirname(os.path.abspath(__file__))), "clients/python"))

from model import BLOCK_SIZE, NO_SUCH_PIECE, NOT_WAITING, Block, Model  # noqa: E402
from picks import Played, Script, Wrong  # noqa: E402
from piecepick import Answer, Keeps, Kind, Picker, PiecepickError, Status  # noqa: E402

# Replies to which a script gives other words than the library.
OTHER_WORDS = {Kind.PIPE_FULL: "pipefull", Kind.NOTHING_LEFT: "nothing", Kind.FULL: "completed", Kind.COMPLETE: "had", Kind.IN_FLIGHT: "inflight"}
# Causes that the library tells by a status, and the program as a refusal.
STATUSES = {Status.PIECE: NO_SUCH_PIECE, Status.NOT_WAITING: NOT_WAITING}
WITH_PIECE = ("have", "lack", "block", "settle", "release", "late", "level", "lose", "discard", "requested")


def words_of(answer: Answer) -> str:
    """The answer as the program prints it."""
    if answer.kind is Kind.NOTED:
        return "noted yes" if answer.interesting else "noted no"
    if answer.kind is Kind.REFUSED:
        return f"refused {int(answer.reason)}"
    word = OTHER_WORDS.get(answer.kind, answer.kind.name.lower())
    return " ".join([word, *map(str, answer.block)]) if answer.kind in (Kind.REQUEST, Kind.CANCEL, Kind.IN_FLIGHT) else word


def settled(picker: Picker, model: Model, keeps: Keeps, piece: int) -> Answer:
    """Has the piece checked, by what the picker keeps. Where that is nothing, the model has what was stored."""
    if keeps is Keeps.JOURNAL:
        return picker.settle_now(piece)
    if keeps is Keeps.NOTHING:
        blocks = model.blocks[piece] if piece < model.pieces else []
        return picker.settle(piece, hashlib.sha1(b"".join(model.held.get(block, b"") for block in blocks)).digest())
    with picker.job_take(piece) as job:
        job.hash()
        return job.settle()


def answer_to(picker: Picker, model: Model, keeps: Keeps, line: str) -> Answer:
    """Makes the call that the line says."""
    worker, word, arguments = model.parse(line)
    if word == "settle":
        return settled(picker, model, keeps, *arguments)
    if word in ("bits", "haves"):
        shows: Callable[..., Answer] = getattr(picker, word)
        return shows(worker, bytes.fromhex(line.split(" ")[2]))
    if word == "want":
        return picker.want(bytes.fromhex(line.split(" ")[2]))
    if word == "levels":
        return picker.set_levels(bytes(arguments[0]))
    if word == "block":
        return picker.arrived(worker, *arguments)
    without_worker: dict[str, Callable[..., Answer]] = {
        "level": picker.set_level, "inorder": picker.set_in_order, "inorderfrom": picker.set_in_order_from,
        "lose": picker.lose, "discard": picker.discard,
    }  # fmt: skip
    if word in without_worker:
        return without_worker[word](*arguments)
    call: Callable[..., Answer] = getattr(picker, word)
    return call(worker, *arguments)


def reply_to(picker: Picker, model: Model, keeps: Keeps, line: str) -> str:
    """What the library says to the line."""
    try:
        return words_of(answer_to(picker, model, keeps, line))
    except PiecepickError as error:
        return f"refused {STATUSES[error.status]}" if error.status in STATUSES else f"status {error.status.name}"


def with_rule(picker: Picker, model: Model, reply: str) -> tuple[str, str]:
    """A right reply with the rule that it has by the model, and with that which the library tells: a request has one."""
    if not reply.startswith("request "):
        return reply, reply
    block = Block(*map(int, reply.split(" ")[1:]))
    return f"{reply} by {model.rule_of(block)}", f"{reply} by {int(picker.rule(block.piece, block.begin // BLOCK_SIZE))}"


def names_no_piece(model: Model, line: str) -> bool:
    """Whether the line names a piece that there isn't: the library tells that before other causes."""
    _, word, arguments = model.parse(line)
    return word in WITH_PIECE and arguments[0] >= model.pieces


def play(seed: str, index: int, with_open: bool = False) -> Played:
    """Plays the script of this number, and judges each reply. The model goes on from what was given."""
    keeps = (Keeps.JOURNAL, Keeps.NOTHING, Keeps.JOURNAL, Keeps.BEGUN)[index % 4]
    with_losses = keeps is not Keeps.JOURNAL
    script = Script(random.Random(f"{seed} library {index}"), with_bounds=True, with_open=with_open, with_losses=with_losses)
    rules, workers = script.rules, len(script.model.peers)
    model = Model(script.torrent, workers, rules, with_losses)
    numbers = {name: getattr(rules, name) for name in ("depth", "deepest", "random", "askers", "open", "rush")}
    digests = b"".join(script.torrent.hashes)
    replies: Counter[str] = Counter()
    wrong = []
    with Picker.open_parts(
        script.torrent.piece_length, script.torrent.total, digests, keeps=keeps, workers=workers, shown=rules.shown, **numbers
    ) as picker:
        for line in script.lines[2:]:
            given = reply_to(picker, model, keeps, line)
            wanted = f"refused {NO_SUCH_PIECE}" if names_no_piece(model, line) else model.play(line, given)
            replies[given.split(" ")[0]] += 1
            if given == wanted:
                wanted, given = with_rule(picker, model, given)
            if given != wanted:
                wrong.append(Wrong(line, wanted, given))
        if keeps is Keeps.JOURNAL:
            picker.audit()
    return Played(index, script.picks(), replies, wrong, f"seed {seed}" if wrong else None)
