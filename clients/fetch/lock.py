"""One program at a time for each place: a file beside it that the program holds locked while it runs."""

from __future__ import annotations

import contextlib
import errno
import fcntl
import os

from .storage import StorageFault, told

SUFFIX = ".piecepick.lock"
NO_LOCK = (errno.EACCES, errno.EPERM, errno.EROFS, errno.ENOLCK, errno.EOPNOTSUPP, errno.ENOSYS)


class Lock:
    """The lock of one place. The system gives it back when the program ends in any way, and the next program takes the file that is left."""

    def __init__(self, root: str) -> None:
        self.root, self.path = root, root + SUFFIX
        self._handle: int | None = None

    def take(self) -> None:
        """Takes it. Raises StorageFault where another program has it, or the folder can't be made."""
        try:
            os.makedirs(os.path.dirname(self.path) or ".", exist_ok=True)
            while self._handle is None:
                self._try()
        except BlockingIOError as error:
            raise StorageFault(f"{self.root} is downloaded already, by this run or another one: wait for its end, or name another OUT") from error
        except OSError as error:
            # What may only be read can be given to others all the same, and some disks know no locks.
            if error.errno not in NO_LOCK:
                raise told(self.path, error) from error

    def _try(self) -> None:
        """Opens and locks the file, unless who had it takes it away meanwhile."""
        handle = os.open(self.path, os.O_RDWR | os.O_CREAT | os.O_CLOEXEC, 0o666)
        try:
            fcntl.flock(handle, fcntl.LOCK_EX | fcntl.LOCK_NB)
            if os.path.samestat(os.fstat(handle), os.stat(self.path)):
                self._handle, handle = handle, -1
        except FileNotFoundError:
            pass
        finally:
            if handle >= 0:
                os.close(handle)

    def release(self) -> None:
        """Gives it back, and takes the file away."""
        if self._handle is not None:
            with contextlib.suppress(OSError):
                os.unlink(self.path)
            os.close(self._handle)
            self._handle = None
