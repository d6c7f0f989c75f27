"""What finds peers beside trackers, for all downloads of the program: a node of the DHT, and the local network."""

from __future__ import annotations

import sys
import threading
from typing import TYPE_CHECKING

from .options import Options

if TYPE_CHECKING:  # who uses neither starts sooner without them
    from .dht.node import Node
    from .local import Local

USUAL_PORT = 6881


class Reach:
    """Both begin when somebody needs them, where the options allow it. Neither is there on addresses of IPv6. Any thread may ask."""

    def __init__(self, options: Options) -> None:
        self.options = options
        self._node: Node | None = None
        self._local: Local | None = None
        self._has_failed: set[str] = set()
        self._lock = threading.Lock()

    def _fail(self, what: str, error: OSError) -> None:
        """It isn't tried again."""
        self._has_failed.add(what)
        print(f"fetch.py: {what} isn't used: {error.strerror}", file=sys.stderr)

    def node(self) -> Node | None:
        """The node, which runs from now on."""
        options = self.options
        with self._lock:
            if self._node is None and options.uses_dht and ":" not in options.bind and "the DHT" not in self._has_failed:
                from .dht.node import Node

                try:
                    self._node = Node(options.bind, options.port or USUAL_PORT, list(options.dht_nodes))
                    self._node.start()
                except OSError as error:
                    self._fail("the DHT", error)
            return self._node

    def local(self) -> Local | None:
        """The local network, which is heard from now on."""
        options = self.options
        with self._lock:
            if self._local is None and options.uses_local and ":" not in options.bind and "the local network" not in self._has_failed:
                from .local import Local

                try:
                    self._local = Local(options.bind)
                except OSError as error:
                    self._fail("the local network", error)
            return self._local

    def close(self) -> None:
        """Ends both."""
        with self._lock:
            for used in (self._node, self._local):
                if used:
                    used.close()
            self._node = self._local = None
