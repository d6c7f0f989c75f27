"""A picker whose calls are counted and timed."""

from __future__ import annotations

import time
from collections.abc import Callable
from typing import Any

from piecepick import Picker


class Metered:
    """Makes each call at the picker that it stands for. Only one thread may use it."""

    def __init__(self, picker: Picker) -> None:
        self.picker = picker
        self.seconds = 0.0
        self.calls = 0

    def _timed(self, call: Callable[..., Any], *arguments: Any) -> Any:
        begin = time.perf_counter()
        try:
            return call(*arguments)
        finally:
            self.seconds += time.perf_counter() - begin
            self.calls += 1

    def __getattr__(self, name: str) -> Any:
        """A property's value, or a method that is timed when it is called; that is made once."""
        if isinstance(getattr(Picker, name), property):
            return self._timed(getattr, self.picker, name)
        method = getattr(self.picker, name)

        def timed(*arguments: Any) -> Any:
            return self._timed(method, *arguments)

        setattr(self, name, timed)
        return timed
