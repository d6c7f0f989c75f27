"""Starts transmission-daemon at a host of the small network, and speaks with it by its remote control over a unix socket."""

from __future__ import annotations

import base64
import http.client
import json
import signal
import socket
import subprocess
import time
from pathlib import Path
from typing import Any

from network import Network

PORT = 51413
READY = 20.0  # seconds until a daemon answers
HEAD = 13  # bytes before a block, which transmission counts among those that it sent
BLOCK = 1 << 14
SESSION = "X-Transmission-Session-Id"
TICKS = 100.0  # of processor time in a second


class Control(http.client.HTTPConnection):
    """HTTP over a unix socket."""

    def __init__(self, path: Path) -> None:
        super().__init__("localhost", timeout=20.0)
        self.path = path

    def connect(self) -> None:
        """Connects to the daemon."""
        self.sock = socket.socket(socket.AF_UNIX)
        self.sock.settimeout(20.0)
        self.sock.connect(str(self.path))


def settings_of(address: str, folder: Path, more: dict[str, Any]) -> dict[str, Any]:
    """The settings of a daemon that speaks with nobody outside of the trial."""
    return {
        "bind-address-ipv4": address, "bind-address-ipv6": "::1", "peer-port": PORT, "dht-enabled": False, "lpd-enabled": False,
        "pex-enabled": False, "utp-enabled": False, "port-forwarding-enabled": False, "encryption": 0, "blocklist-enabled": False,
        "rpc-enabled": True, "rpc-bind-address": f"unix:{folder / 'control'}", "rpc-whitelist-enabled": False, "download-dir": str(folder),
        "download-queue-enabled": False, "seed-queue-enabled": False, "message-level": 2, **more,
    }  # fmt: skip


class Daemon:
    """One transmission, with one torrent."""

    def __init__(self, network: Network, number: int, program: Path, folder: Path) -> None:
        self.network, self.number, self.program, self.folder = network, number, program, folder
        self.session = ""
        self.past = 0.0  # processor time of processes that ended
        self.memory = 0.0
        self.process: subprocess.Popen[bytes] | None = None

    def start(self, more: dict[str, Any]) -> None:
        """Starts it, and waits until it answers."""
        settings = self.folder / "settings"
        settings.mkdir(parents=True, exist_ok=True)
        chosen = settings_of(self.network.address(self.number), self.folder, more)
        (settings / "settings.json").write_text(json.dumps(chosen), encoding="ascii")
        words = [str(self.program), "--foreground", "--config-dir", str(settings)]
        with open(self.folder / "log", "ab") as log:
            self.process = subprocess.Popen(self.network.command(self.number, words), stdin=subprocess.DEVNULL, stdout=log, stderr=log)
        end = time.monotonic() + READY
        while not self._answers():
            if time.monotonic() > end or self.process.poll() is not None:
                raise RuntimeError(f"{self.program} doesn't answer: see {self.folder / 'log'}")
            time.sleep(0.05)

    def _answers(self) -> bool:
        try:
            self.call("session-get", fields=["version"])
        except OSError:
            return False
        return True

    def call(self, method: str, **arguments: Any) -> dict[str, Any]:
        """One call of the remote control."""
        body = json.dumps({"method": method, "arguments": arguments})
        for _ in range(2):
            control = Control(self.folder / "control")
            control.request("POST", "/transmission/rpc", body, {SESSION: self.session})
            response = control.getresponse()
            told = response.read()
            control.close()
            if response.status != 409:
                break
            self.session = response.headers[SESSION]
        answer: dict[str, Any] = json.loads(told)
        if answer["result"] != "success":
            raise RuntimeError(f"{method}: {answer['result']}")
        result: dict[str, Any] = answer["arguments"]
        return result

    def add(self, torrent: Path, **more: Any) -> None:
        """Adds the torrent, which starts it."""
        self.call("torrent-add", metainfo=base64.b64encode(torrent.read_bytes()).decode(), **more)

    def change(self, **arguments: Any) -> None:
        """Changes the torrent."""
        self.call("torrent-set", ids=[1], **arguments)

    def fields(self, *names: str) -> dict[str, Any]:
        """What it tells of the torrent."""
        torrents = self.call("torrent-get", ids=[1], fields=list(names))["torrents"]
        told: dict[str, Any] = torrents[0] if torrents else {}
        return told

    def uploaded(self) -> float:
        """The bytes of blocks that it sent, without what stands before each."""
        return float(self.fields("uploadedEver")["uploadedEver"]) * BLOCK / (BLOCK + HEAD)

    def processor(self) -> float:
        """Seconds of processor time until now."""
        assert self.process
        stat = Path(f"/proc/{self.process.pid}/stat").read_text(encoding="utf-8")
        words = stat.rpartition(")")[2].split()
        return self.past + (int(words[11]) + int(words[12])) / TICKS

    def most_memory(self) -> float:
        """Megabytes that were resident at most."""
        assert self.process
        for line in Path(f"/proc/{self.process.pid}/status").read_text(encoding="utf-8").splitlines():
            if line.startswith("VmHWM"):
                self.memory = max(self.memory, int(line.split()[1]) * 1.024e-3)
        return self.memory

    def stop(self, number: int = signal.SIGTERM) -> None:
        """Ends it, in order or at once."""
        if self.process is None:
            return
        if self.process.poll() is None:
            self.past, _ = self.processor(), self.most_memory()
            self.process.send_signal(number)
            try:
                self.process.wait(20)
            except subprocess.TimeoutExpired:
                self.process.kill()
        self.process.wait()
        self.process = None
