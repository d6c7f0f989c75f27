"""The files on the disk: room is taken first, blocks are written as they come, and a file has `.part` behind its name until it is whole."""

from __future__ import annotations

import errno
import hashlib
import mmap
import os
import threading
from collections import OrderedDict
from collections.abc import Iterator
from contextlib import contextmanager

from .layout import BLOCK, File, Layout
from .place import PART_SUFFIX

MOST_OPEN = 64  # files that are held open for writing
CHUNK = 1 << 18  # bytes that are read at a time to be hashed


class StorageFault(Exception):
    """The disk can't do what is asked of it; the text is for the user."""


def _fill(handle: int, inside: int, room: memoryview) -> None:
    """Reads a part of a file that is as long as the room. Raises OSError where the file ends before."""
    while room:
        got = os.preadv(handle, [room], inside)
        if got == 0:
            raise OSError(errno.ENODATA, "the file is too short")
        room, inside = room[got:], inside + got


def told(path: str, error: OSError) -> StorageFault:
    """What to tell the user of an error of the system."""
    where = error.filename or path
    if error.errno in (errno.ENOSPC, errno.EDQUOT):
        return StorageFault(f"the disk is full: {path}. Make room, and the same command goes on; or name an OUT on another disk")
    if error.errno == errno.EFBIG:
        return StorageFault(f"the file is larger than the system allows: {path}")
    if error.errno in (errno.ENOTDIR, errno.EEXIST):
        return StorageFault(f"{where}: a file is there, where a folder has to be. Move it away, or name another OUT")
    if error.errno in (errno.EACCES, errno.EPERM, errno.EROFS):
        return StorageFault(f"{where}: {error.strerror}. Name another OUT")
    return StorageFault(f"{where}: {error.strerror or error}")


class Storage:
    """The files of one download below `root`, which is the file itself where there is one. One thread writes; any thread may read."""

    def __init__(self, root: str, layout: Layout, is_folder: bool) -> None:
        self.root, self.layout = root, layout
        self.whole_paths = {file.number: os.path.join(root, file.path) if is_folder else root for file in layout.files}
        self.suffix = self._suffix()
        self.was_there: set[int] = set()
        self.whole: set[int] = set()
        self._paths: dict[int, str] = {}
        self._lock = threading.Lock()  # for _paths, so that nobody opens a file while it gets another name
        self._open: OrderedDict[int, int] = OrderedDict()
        for file in layout.files:
            self._find(file)

    def _suffix(self) -> str:
        """What stands behind the name of a file that isn't whole: `.part`, or more where another file has that name."""
        names = set(self.whole_paths.values())
        suffix = PART_SUFFIX
        while any(name + suffix in names for name in names):
            suffix += PART_SUFFIX
        return suffix

    def _find(self, file: File) -> None:
        """Notes under which name the file is there, if it is."""
        path = self.whole_paths[file.number]
        for there in (path, path + self.suffix):
            if os.path.lexists(there) and not os.path.isfile(there):
                raise StorageFault(f"{there} is there and is no file: move it away, or name another OUT")
        if os.path.isfile(path):
            self.whole.add(file.number)
        else:
            path += self.suffix
        self._paths[file.number] = path
        if os.path.isfile(path) and os.path.getsize(path) > 0:
            self.was_there.add(file.number)

    def path_of(self, file: File) -> str:
        """The path that the file has now."""
        with self._lock:
            return self._paths[file.number]

    def prepare(self, files: list[File]) -> None:
        """Makes the folders, and takes the room for these files."""
        for file in files:
            path = self.path_of(file)
            try:
                handle = self._handle(file)
                size = os.fstat(handle).st_size
                if size > file.length:
                    os.ftruncate(handle, file.length)
                if size < file.length:
                    os.posix_fallocate(handle, 0, file.length)
            except OSError as error:
                raise told(path, error) from error
            if file.length == 0:
                self.finish(file)

    def _handle(self, file: File) -> int:
        """The file, open for writing; one that wasn't used for long is closed for it."""
        if file.number in self._open:
            self._open.move_to_end(file.number)
            return self._open[file.number]
        if len(self._open) >= MOST_OPEN:
            os.close(self._open.popitem(last=False)[1])
        path = self.path_of(file)
        os.makedirs(os.path.dirname(path) or ".", exist_ok=True)
        handle = os.open(path, os.O_RDWR | os.O_CREAT | os.O_CLOEXEC, 0o666)
        self._open[file.number] = handle
        return handle

    def write(self, begin: int, data: memoryview) -> None:
        """Writes a part of the content. What can't be written raises StorageFault."""
        for file, inside, length in self.layout.spans(begin, len(data)):
            try:
                handle = self._handle(file)
                written = 0
                while written < length:
                    written += os.pwrite(handle, data[written:length], inside + written)
            except OSError as error:
                raise told(self.path_of(file), error) from error
            data = data[length:]

    def _reading(self, file: File) -> int:
        """The file, open for reading by any thread, which closes it."""
        with self._lock:
            return os.open(self._paths[file.number], os.O_RDONLY | os.O_CLOEXEC)

    def chunks(self, begin: int, length: int, size: int = CHUNK) -> Iterator[memoryview]:
        """A part of the content from the disk, in order. Each part is valid until the next one. Raises OSError where it isn't there."""
        room = memoryview(bytearray(min(size, length)))
        for file, inside, span in self.layout.spans(begin, length):
            handle = self._reading(file)
            try:
                end = inside + span
                while inside < end:
                    got = os.preadv(handle, [room[: end - inside]], inside)
                    if got == 0:
                        raise OSError(errno.ENODATA, "the file is too short")
                    yield room[:got]
                    inside += got
            finally:
                os.close(handle)

    def read(self, begin: int, length: int) -> bytearray:
        """A part of the content. Raises OSError where it isn't there."""
        content = bytearray(length)
        rest = memoryview(content)
        for file, inside, span in self.layout.spans(begin, length):
            handle = self._reading(file)
            try:
                _fill(handle, inside, rest[:span])
            finally:
                os.close(handle)
            rest = rest[span:]
        return content

    @contextmanager
    def lent(self, begin: int, length: int) -> Iterator[memoryview]:
        """A part of the content as it lies on the disk. Of one file it is mapped, so that nobody reads what isn't looked at. Raises OSError."""
        spans = list(self.layout.spans(begin, length))
        if len(spans) > 1:
            yield memoryview(self.read(begin, length))
            return
        file, inside, _ = spans[0]
        handle = self._reading(file)
        try:
            start = inside - inside % mmap.ALLOCATIONGRANULARITY
            with mmap.mmap(handle, inside + length - start, access=mmap.ACCESS_READ, offset=start) as mapped:
                with memoryview(mapped) as whole, whole[inside - start :] as part:
                    yield part
        except ValueError as error:
            raise OSError(errno.ENODATA, "the file is too short") from error
        finally:
            os.close(handle)

    def digest(self, piece: int) -> bytes:
        """The SHA-1 of a piece as it is on the disk. Raises OSError where it isn't there."""
        hashed = hashlib.sha1(usedforsecurity=False)
        for chunk in self.chunks(piece * self.layout.piece_length, self.layout.length_of(piece)):
            hashed.update(chunk)
        return hashed.digest()

    def content_of(self, piece: int) -> bytearray:
        """The bytes of a piece. Raises OSError where it isn't there."""
        return self.read(piece * self.layout.piece_length, self.layout.length_of(piece))

    def block_digests(self, piece: int) -> list[bytes]:
        """The SHA-1 of each block of a piece, to find out which of them were bad."""
        begin, length = piece * self.layout.piece_length, self.layout.length_of(piece)
        return [hashlib.sha1(self.read(begin + at, min(BLOCK, length - at))).digest() for at in range(0, length, BLOCK)]

    def is_there(self, piece: int) -> bool:
        """Whether each file of the piece was there when the download began, and has some data in the piece."""
        for file, inside, length in self.layout.spans(piece * self.layout.piece_length, self.layout.length_of(piece)):
            if file.number not in self.was_there:
                return False
            handle = self._reading(file)
            try:
                if os.lseek(handle, inside, os.SEEK_DATA) >= inside + length:
                    return False
            except OSError as error:
                if error.errno == errno.ENXIO:
                    return False
                raise told(self.path_of(file), error) from error
            finally:
                os.close(handle)
        return True

    def _rename(self, file: File, path: str) -> None:
        with self._lock:
            try:
                os.replace(self._paths[file.number], path)
            except OSError as error:
                raise told(path, error) from error
            self._paths[file.number] = path

    def finish(self, file: File) -> None:
        """The file is whole, and gets its name."""
        if file.number not in self.whole:
            self._rename(file, self.whole_paths[file.number])
            self.whole.add(file.number)

    def reopen(self, file: File) -> None:
        """The file isn't whole after all, and is called `.part` again."""
        if file.number in self.whole:
            self._rename(file, self.whole_paths[file.number] + self.suffix)
            self.whole.discard(file.number)

    def close(self) -> None:
        """Closes the files."""
        while self._open:
            os.close(self._open.popitem()[1])
