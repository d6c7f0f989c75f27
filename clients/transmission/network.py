"""A small network on one machine, for trials: each host in a network namespace of its own, with a rate and a delay.

Each host has a tun device, and one process carries the packets from device to device. It holds each packet for as long as its sender's line
takes to send it, and for the delay of both hosts. A packet that would wait too long at a line is dropped, as a router does. So no kernel module
for delays is needed, and nothing leaves the machine. It has to be run as root.
"""

from __future__ import annotations

import contextlib
import ctypes
import fcntl
import heapq
import multiprocessing
import os
import select
import socket
import struct
import subprocess
import time
from collections.abc import Iterator
from dataclasses import dataclass

PREFIX = "10.78.0."
CLONE_NEWNET = 0x40000000
TUNSETIFF = 0x400454CA
IFF_TUN_WITHOUT_HEAD = 0x0001 | 0x1000
SPAN = 0.1  # seconds that a packet waits at a line at most
QUEUED = 3  # packets that may always wait
AT_ONCE = 32  # packets of one host in a row

LIBC = ctypes.CDLL(None, use_errno=True)


@dataclass(frozen=True)
class Line:
    """What a host's line can do: bytes a second out of the host, where 0 is no bound; and seconds on the way to or from it."""

    rate: float = 0.0
    delay: float = 0.0


@dataclass
class Link:
    """The end of a line at the process that carries."""

    device: int
    line: Line
    free_at: float = 0.0
    sent: int = 0


@contextlib.contextmanager
def inside(namespace: str) -> Iterator[None]:
    """This thread is in a namespace for a while. Sockets and devices that it opens there stay there."""
    with open("/proc/thread-self/ns/net", encoding="ascii") as own, open(f"/run/netns/{namespace}", encoding="ascii") as other:
        enter(other.fileno())
        try:
            yield
        finally:
            enter(own.fileno())


def enter(descriptor: int) -> None:
    """This thread goes into a network namespace."""
    if LIBC.setns(descriptor, CLONE_NEWNET) != 0:
        raise OSError(ctypes.get_errno(), "setns")


def ip(*words: str) -> None:
    """A command of iproute2."""
    subprocess.run(["ip", *words], check=True)


def open_device(namespace: str) -> int:
    """A tun device of that namespace."""
    with inside(namespace):
        device = os.open("/dev/net/tun", os.O_RDWR | os.O_NONBLOCK)
        fcntl.ioctl(device, TUNSETIFF, struct.pack("16sH", b"line", IFF_TUN_WITHOUT_HEAD))
    return device


class Carrier:
    """Carries packets between the hosts until it is ended."""

    def __init__(self, links: dict[bytes, Link]) -> None:
        self.links = links  # by address
        self.by_device = {link.device: link for link in links.values()}
        self.under_way: list[tuple[float, int, int, bytes]] = []
        self.number = 0

    def run(self) -> None:
        """Does so for ever."""
        devices = list(self.by_device)
        while True:
            wait = max(0.0, self.under_way[0][0] - time.monotonic()) if self.under_way else None
            for device in select.select(devices, [], [], wait)[0]:
                self._take(self.by_device[device])
            self._hand_out()

    def _take(self, link: Link) -> None:
        """What a host sends."""
        with contextlib.suppress(BlockingIOError):
            for _ in range(AT_ONCE):
                packet = os.read(link.device, 1 << 16)
                if packet[0] >> 4 == 4:
                    self._send(link, packet)

    def _send(self, link: Link, packet: bytes) -> None:
        goal = self.links.get(packet[16:20])
        if goal is None:
            return
        now = time.monotonic()
        begin = max(now, link.free_at)
        if link.line.rate:
            took = len(packet) / link.line.rate
            if begin - now > max(SPAN, QUEUED * took):
                return
            link.free_at = begin = begin + took
        self.number += 1
        heapq.heappush(self.under_way, (begin + link.line.delay + goal.line.delay, self.number, goal.device, packet))

    def _hand_out(self) -> None:
        """What has arrived by now."""
        now = time.monotonic()
        while self.under_way and self.under_way[0][0] <= now:
            _, _, device, packet = heapq.heappop(self.under_way)
            with contextlib.suppress(OSError):
                os.write(device, packet)


class Network:
    """Hosts by number, from 1 on, and the process that carries."""

    def __init__(self, lines: list[Line], packet: int) -> None:
        self.names = [f"piecepick-{os.getpid()}-{number}" for number in range(1, 1 + len(lines))]
        self.devices: list[int] = []
        links = {}
        for number, line in enumerate(lines, 1):
            device = self._host(number, packet)
            links[socket.inet_aton(self.address(number))] = Link(device, line)
        self.process = multiprocessing.get_context("fork").Process(target=Carrier(links).run, daemon=True)
        self.process.start()

    def _host(self, number: int, packet: int) -> int:
        name = self.names[number - 1]
        ip("netns", "add", name)
        device = open_device(name)
        self.devices.append(device)
        ip("-n", name, "link", "set", "lo", "up")
        ip("-n", name, "address", "add", f"{self.address(number)}/24", "dev", "line")
        ip("-n", name, "link", "set", "line", "mtu", str(packet), "up")
        return device

    @staticmethod
    def address(number: int) -> str:
        """Where a host is."""
        return f"{PREFIX}{number}"

    def command(self, number: int, words: list[str]) -> list[str]:
        """A command that is run at a host."""
        return ["ip", "netns", "exec", self.names[number - 1], *words]

    def close(self) -> None:
        """Nothing is left of it."""
        self.process.kill()
        self.process.join()
        for device in self.devices:
            os.close(device)
        for name in self.names:
            ip("netns", "delete", name)
