"""Modules that are imported while something else is waited for."""

from __future__ import annotations

import threading
from collections.abc import Callable


class Loading:
    """Runs imports in a thread of its own. `wake` is called in it where one of them can't be had."""

    def __init__(self, load: Callable[[], None], wake: Callable[[], None]) -> None:
        self.load, self.wake = load, wake
        self.error: Exception | None = None
        threading.Thread(target=self._run, name="imports", daemon=True).start()

    def _run(self) -> None:
        try:
            self.load()
        except Exception as error:
            self.error = error
            self.wake()

    def check(self) -> None:
        """Raises what the imports have raised until now."""
        if self.error:
            raise self.error
