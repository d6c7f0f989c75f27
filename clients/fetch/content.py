"""What is had of the content: the picker knows it, the disk has it, and a file by the side says what is held of begun pieces."""

from __future__ import annotations

import hashlib
from collections.abc import Callable, Iterator
from dataclasses import dataclass, field
from functools import cache

from piecepick import Kind, Picker

from . import resume
from .blame import Address, Blame, Sender
from .checking import Check, Checker
from .layout import BLOCK, File, Layout
from .storage import Storage, StorageFault


@dataclass(frozen=True)
class Verdict:
    """A piece was checked. `senders` brought its blocks. Of `liars` it is known now that they sent something wrong for it."""

    piece: int
    is_had: bool
    senders: set[Sender] = field(default_factory=set)
    liars: set[Address] = field(default_factory=set)


@cache
def zeros_digest(length: int) -> bytes:
    """The SHA-1 of so many zeros."""
    return hashlib.sha1(bytes(length)).digest()


class Content:
    """The content of one download. The last worker of the picker stands for the disk, and for no peer."""

    def __init__(self, picker: Picker, layout: Layout, storage: Storage, checker: Checker, state_path: str) -> None:
        self.picker, self.layout, self.storage, self.checker = picker, layout, storage, checker
        self.state_path = state_path
        self.infohash = picker.infohash
        self.disk = picker.workers - 1
        self.had = bytearray((layout.pieces + 7) // 8)  # as in a `bitfield` message
        self.had_count = self.had_bytes = self.restored_bytes = self.failed = self.discarded = 0
        self.held: dict[int, bytearray] = {}  # of each begun piece a byte a block
        self.missing = {file.number: len(layout.pieces_of(file)) for file in layout.files}  # pieces of a file that aren't had
        self.blame = Blame()
        self.owners: dict[int, Sender] = {}  # of each worker the peer that has it, or had it last
        self.is_saved = True
        self.lost: list[int] = []  # pieces, since somebody looked

    def has(self, piece: int) -> bool:
        """Whether the piece is had."""
        return bool(self.had[piece >> 3] & 0x80 >> (piece & 7))

    # What is there from an earlier run.

    def restore(self, tell: Callable[[int, int], None], replaces: bool = False) -> None:
        """Tells the picker what is on the disk. `tell` is called with the pieces that were looked at and those to be looked at.

        Raises StorageFault where a file has another content, and nothing says that it is from this download.
        """
        hints = resume.load(self.state_path, self.infohash, self.layout)
        self.picker.join(self.disk)
        self._restore_pieces(tell)
        for piece, blocks in (hints or {}).items():
            if not self.has(piece) and len(blocks) < self.layout.blocks_of(piece) and self._is_begun(piece):
                for block in blocks:
                    self._restore_block(piece, block)
        self.picker.leave(self.disk)
        self.restored_bytes = self.had_bytes
        for file in self.layout.files:
            if file.number in self.storage.whole and self.missing[file.number]:
                self._take_up(file, replaces or hints is not None)

    def _restore_pieces(self, tell: Callable[[int, int], None]) -> None:
        """Checks each piece of which data is there."""
        there = [piece for piece in range(self.layout.pieces) if self.storage.is_there(piece) or self._is_zeros(piece)]
        for number, (piece, digest) in enumerate(self.checker.all_of(there), 1):
            if digest == self.picker.piece_hash(piece):
                # The digest is vouched for to be that of these bytes. The library reads none of them.
                with self.storage.lent(piece * self.layout.piece_length, self.layout.length_of(piece)) as data:
                    self.picker.restore(self.disk, piece, data, digest)
                self._note(piece)
            tell(number, len(there))

    def _is_begun(self, piece: int) -> bool:
        """Whether the files of the piece were there."""
        return all(file.number in self.storage.was_there for file in self.layout.files_of(piece))

    def _is_zeros(self, piece: int) -> bool:
        """Whether it is a piece of zeros, which a sparse file may have as a hole."""
        return self._is_begun(piece) and self.picker.piece_hash(piece) == zeros_digest(self.layout.length_of(piece))

    def _restore_block(self, piece: int, block: int) -> None:
        """A block that the state file names is on the disk, if it can be read. The digest of its piece will tell whether it is right."""
        length = self.layout.block_length(piece, block)
        try:
            data = self.storage.read(piece * self.layout.piece_length + block * BLOCK, length)
        except OSError:
            return
        if self.picker.arrived(self.disk, piece, block * BLOCK, data).kind is Kind.STORED:
            self._hold(piece, block)

    def _take_up(self, file: File, is_ours: bool) -> None:
        """A file has the name of a whole one, and isn't."""
        if not is_ours and not any(self.has(piece) for piece in self.layout.pieces_of(file)):
            path = self.storage.path_of(file)
            raise StorageFault(f"{path} is there and has another content: move it away, or say --replace")
        self.storage.reopen(file)

    # What comes from peers.

    def arrived(self, worker: int, piece: int, begin: int, block: memoryview) -> Kind:
        """A block came: tells the picker, writes it, and has a full piece checked. Raises StorageFault where it can't be written."""
        kind = self.picker.arrived(worker, piece, begin, block).kind
        if kind in (Kind.STORED, Kind.FULL):
            self.storage.write(piece * self.layout.piece_length + begin, block)
            self._hold(piece, begin // BLOCK)
        if kind is Kind.FULL:
            self.checker.start(piece, self.picker.piece_hash(piece), with_blocks=piece in self.blame.suspects)
        return kind

    def _hold(self, piece: int, block: int) -> None:
        if piece not in self.held:
            self.held[piece] = bytearray(self.layout.blocks_of(piece))
        self.held[piece][block] = 1
        self.is_saved = False

    def verdicts(self) -> Iterator[Verdict]:
        """What the checks found since the last call, each settled at the picker. Raises StorageFault where a piece can't be read."""
        for check in self.checker.done():
            if check.error is not None:
                raise StorageFault(f"piece {check.piece} can't be read: {check.error.strerror}")
            yield self._settle(check)

    def _settle(self, check: Check) -> Verdict:
        piece = check.piece
        # Who brought the blocks is known until the picker is told that they are wrong.
        senders = [self.owners.get(self.picker.sender(piece, block)) for block in range(self.layout.blocks_of(piece))]
        is_had = self.picker.settle(piece, check.digest).kind is Kind.COMPLETE
        self.held.pop(piece, None)
        self.is_saved = False
        if is_had:
            self._note(piece)
            liars = self.blame.cleared(piece, check.blocks)
        else:
            self.failed += 1
            liars = self.blame.failed(piece, senders, check.blocks)
        if liars:
            self._discard_from(liars)
        return Verdict(piece, is_had, set(senders), liars)

    def _discard_from(self, liars: set[Address]) -> None:
        """What these peers sent of begun pieces is asked for again. A piece that is full is left to its check."""
        for piece, flags in list(self.held.items()):
            if all(flags):
                continue
            for block, flag in enumerate(flags):
                if flag and self.owners.get(self.picker.sender(piece, block)) in liars:
                    self.picker.discard(piece, block * BLOCK)
                    flags[block] = 0
                    self.discarded += 1
            if not any(flags):
                del self.held[piece]

    def _note(self, piece: int) -> None:
        """The piece is had: files that are whole get their names."""
        self.had[piece >> 3] |= 0x80 >> (piece & 7)
        self.had_count += 1
        self.had_bytes += self.layout.length_of(piece)
        for file in self.layout.files_of(piece):
            self.missing[file.number] -= 1
            if self.missing[file.number] == 0:
                self.storage.finish(file)

    def lose(self, piece: int) -> None:
        """A piece that was had can't be read any more: it is downloaded again. Raises StorageFault where its file is gone."""
        self.picker.lose(piece)
        self.had[piece >> 3] &= ~(0x80 >> (piece & 7))
        self.had_count -= 1
        self.had_bytes -= self.layout.length_of(piece)
        for file in self.layout.files_of(piece):
            self.missing[file.number] += 1
            self.storage.reopen(file)
        self.is_saved = False
        self.lost.append(piece)

    def names_a_sender(self, worker: int) -> bool:
        """Whether a block of a piece that isn't had is from this worker's peer, so that another peer can't have its number yet."""
        return any(
            flag and self.picker.sender(piece, block) == worker for piece, flags in self.held.items() for block, flag in enumerate(flags)
        )

    # Beside the files.

    def save(self) -> None:
        """Writes the state file, or takes it away where all that is wanted is had. Raises OSError."""
        if self.picker.has_wanted:
            resume.forget(self.state_path)
        elif not self.is_saved:
            resume.save(self.state_path, self.infohash, self.held)
        self.is_saved = True

    @property
    def left(self) -> int:
        """The bytes of the content that aren't had, as a tracker is told them."""
        return self.layout.total - self.had_bytes
