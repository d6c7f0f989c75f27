"""The socket of a node, in a thread of its own."""

from __future__ import annotations

import contextlib
import queue
import select
import socket
import threading
import time
from collections.abc import Callable

from ..blame import Address
from .talk import Search, Talk

TICK = 0.1  # seconds
LARGEST = 4096  # bytes of a packet
LAST_SECONDS = 1.0  # that the end waits for the thread
MOST_ORDERS = 200  # that wait for the thread


def open_socket(host: str, port: int) -> socket.socket:
    """A socket at this port, or at any where another program has it."""
    opened = socket.socket(socket.AF_INET, socket.SOCK_DGRAM)
    try:
        try:
            opened.bind((host, port))
        except OSError:
            opened.bind((host, 0))
    except OSError:
        opened.close()
        raise
    opened.setblocking(False)
    return opened


class Node:
    """A node that runs. Its methods may be called by any thread. `first_nodes` may have names."""

    def __init__(self, host: str, port: int, first_nodes: list[Address]) -> None:
        self._socket = open_socket(host, port)
        self.port = int(self._socket.getsockname()[1])
        self.first_nodes = first_nodes
        self.talk = Talk(self._send, [])
        self._orders: queue.SimpleQueue[Callable[[], None]] = queue.SimpleQueue()
        self._woken, self._waker = socket.socketpair()
        for end in (self._woken, self._waker):
            end.setblocking(False)
        self._poll = select.poll()
        for heard in (self._socket, self._woken):
            self._poll.register(heard, select.POLLIN)
        self._is_closing = False
        self._thread = threading.Thread(target=self._run, name="dht", daemon=True)

    def start(self) -> None:
        """Asks and answers from now on."""
        self._thread.start()
        for address in self.first_nodes:
            threading.Thread(target=self._look_up, args=[address], name="dht name", daemon=True).start()

    def _look_up(self, address: Address) -> None:
        """Finds where a first node is. For a name that may take long, and none waits for another one's."""
        with contextlib.suppress(OSError):
            where = socket.getaddrinfo(*address, socket.AF_INET, socket.SOCK_DGRAM)[0][4]
            self._begin_at((str(where[0]), int(where[1])))

    def _begin_at(self, address: Address) -> None:
        self._order(lambda: self.talk.begin_at(address, time.monotonic()))

    def _order(self, order: Callable[[], None]) -> None:
        if self._orders.qsize() < MOST_ORDERS:
            self._orders.put(order)
            self._wake()

    def _wake(self) -> None:
        """Ends the wait of the node's thread."""
        with contextlib.suppress(OSError):
            self._waker.send(b"\0")

    def search(self, infohash: bytes, port: int, on_peers: Callable[[list[Address]], None]) -> Search:
        """Looks for peers from now on, and announces us where there is a port. The node's thread calls `on_peers`."""
        search = Search(infohash, port, on_peers)
        self._order(lambda: self.talk.searches.append(search))
        return search

    def end(self, search: Search) -> None:
        """Looks for these peers no more."""
        self._order(lambda: self._end(search))

    def _end(self, search: Search) -> None:
        if search in self.talk.searches:
            self.talk.searches.remove(search)

    def greet(self, address: Address) -> None:
        """Somebody told that there is a node."""
        self._order(lambda: self.talk.greet(address, time.monotonic()))

    @property
    def nodes(self) -> int:
        """How many nodes are known."""
        return len(self.talk.table)

    def _send(self, packet: bytes, address: Address) -> None:
        """A packet that can't be sent is like one that is lost."""
        with contextlib.suppress(OSError, OverflowError):
            self._socket.sendto(packet, address)

    def _run(self) -> None:
        while not self._is_closing:
            self._receive()
            while not self._orders.empty():
                self._orders.get()()
            self.talk.tick(time.monotonic())
        self._close()

    def _receive(self) -> None:
        """Waits for a packet or an order, but not for long."""
        for handle, _ in self._poll.poll(1000 * TICK):
            with contextlib.suppress(OSError):  # a damaged packet is one too
                if handle == self._woken.fileno():
                    self._woken.recv(LARGEST)
                    continue
                packet, address = self._socket.recvfrom(LARGEST)
                self.talk.hear(packet, (str(address[0]), int(address[1])), time.monotonic())

    def _close(self) -> None:
        for opened in (self._socket, self._woken, self._waker):
            opened.close()

    def close(self) -> None:
        """Ends."""
        self._is_closing = True
        if self._thread.is_alive():
            self._wake()
            self._thread.join(LAST_SECONDS)
        else:
            self._close()
