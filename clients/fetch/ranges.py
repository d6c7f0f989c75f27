"""Parts of files from a web server by range requests (BEP 19, RFC 9110). Whatever the server says is bounded."""

from __future__ import annotations

import http.client
import os
import re
from collections import deque
from dataclasses import dataclass
from urllib.parse import SplitResult, quote, urljoin, urlsplit

from .addresses import is_loopback
from .layout import File, Layout
from .reasons import reason_of
from .urls import AGENT, is_address

TIMEOUT = 20.0  # seconds without a byte
READ = 1 << 17  # bytes that are read at a time
MOST_REDIRECTS = 5
LONGEST_ADDRESS = 4096
REDIRECTS = (301, 302, 303, 307, 308)
CONTENT_RANGE = re.compile(r"bytes (\d{1,18})-(\d{1,18})/(\d{1,18}|\*)")
HEADERS = {"User-Agent": AGENT, "Accept-Encoding": "identity"}


class RangeFault(Exception):
    """The server doesn't give what was asked for; the text says why."""


def address_of(url: str, name: bytes, file: File, is_folder: bool) -> str:
    """Where a file is. Below a folder its path has the torrent's name in front, and a single file may have its name in the address."""
    if not is_folder:
        return url + quote(name) if url.endswith("/") else url
    parts = [name, *os.fsencode(file.path).split(os.fsencode(os.sep))]
    return url + ("" if url.endswith("/") else "/") + "/".join(quote(part, safe="") for part in parts)


def _is_own(host: str | None) -> bool:
    """Whether a host is this machine."""
    return host is not None and (host == "localhost" or is_loopback(host))


@dataclass
class Part:
    """A part of a file that is wanted, and what of it is to come."""

    file: File
    inside: int
    count: int
    left: int
    is_asked: bool = False  # ahead, while the part before it came
    answer: http.client.HTTPResponse | None = None


class Ranges:
    """One server's files, by one connection that stays open. Where it leads elsewhere that is kept for each file.

    Once half of a part is there, the next one is asked for behind it (RFC 9112, 9.3.2), so that the server needn't wait for us in between.
    """

    def __init__(self, url: str, name: bytes, layout: Layout, is_folder: bool, source: str = "") -> None:
        self.layout, self.source = layout, source
        self.addresses = {file.number: address_of(url, name, file, is_folder) for file in layout.files}
        self._parts: deque[Part] = deque()
        self._asks_ahead = True  # until the server closes the connection over it
        self._connection: http.client.HTTPConnection | None = None
        self._host: tuple[str, str] = ("", "")

    @property
    def left(self) -> int:
        """The bytes that are to come."""
        return sum(part.left for part in self._parts)

    def want(self, begin: int, length: int) -> None:
        """Wants a part of the content, behind what is wanted already."""
        self._parts.extend(Part(file, inside, count, count) for file, inside, count in self.layout.spans(begin, length))

    def read(self) -> bytes:
        """The next bytes that are wanted, as soon as some are there. Raises RangeFault."""
        try:
            return self._read(self._parts[0])
        except (OSError, http.client.HTTPException, ValueError) as error:
            self.close()
            raise RangeFault(f"the web server gives nothing: {reason_of(error)}") from error
        except RangeFault:
            self.close()
            raise

    def _read(self, part: Part) -> bytes:
        try:
            return self._next_bytes(part)
        except (OSError, http.client.HTTPException, RangeFault):
            if not any(other.is_asked for other in self._parts):
                raise
        # Some servers end a connection over a request that comes ahead, and what of this part hasn't come is lost.
        self._asks_ahead = False
        self.close()
        part.inside, part.count, part.answer = part.inside + part.count - part.left, part.left, None
        return self._next_bytes(part)

    def _next_bytes(self, part: Part) -> bytes:
        if part.answer is None:
            part.answer = self._open(part)
            part.is_asked = False
        if 2 * part.left <= part.count and len(self._parts) > 1:
            self._ask_ahead(part, part.answer, self._parts[1])
        # One call of the system gives these bytes, and none of the next answer.
        data = part.answer.read1(min(part.left, READ))
        if not data:
            raise RangeFault("the web server's answer is too short")
        part.left -= len(data)
        if not part.left:
            self._end(part, part.answer)
        return data

    def _end(self, part: Part, answer: http.client.HTTPResponse) -> None:
        """All of a part is there."""
        self._parts.popleft()
        if answer.will_close or not _is_exact(part, answer):
            self.close()  # there may be more, which nobody wants
        answer.close()

    def _ask_ahead(self, part: Part, answer: http.client.HTTPResponse, after: Part) -> None:
        """Asks for the next part while this one comes, where its answer will be the next one of the connection."""
        address = urlsplit(self.addresses[after.file.number])
        is_open = self._connection is not None and self._host == address[:2] and not answer.will_close
        if self._asks_ahead and not after.is_asked and is_open and _is_exact(part, answer):
            assert self._connection
            after.is_asked = True
            _ask(self._connection, address, after)

    def _open(self, part: Part) -> http.client.HTTPResponse:
        """The answer, whose body begins with what is wanted."""
        for _ in range(MOST_REDIRECTS + 1):
            answer = self._request(part)
            if answer.status in REDIRECTS:
                self._redirect(part.file, answer.getheader("Location"))
                continue
            _check(answer, part.file, part.inside, part.count)
            return answer
        raise RangeFault("the web server leads elsewhere again and again")

    def _redirect(self, file: File, location: str | None) -> None:
        """Where the server leads to. Nobody leads us to this machine but who is on it."""
        self.close()
        before = self.addresses[file.number]
        after = urljoin(before, location or "")
        if not location or len(after) > LONGEST_ADDRESS or not is_address(after):
            raise RangeFault("the web server leads nowhere")
        if _is_own(urlsplit(after).hostname) and not _is_own(urlsplit(before).hostname):
            raise RangeFault("the web server leads to this machine")
        self.addresses[file.number] = after

    def _request(self, part: Part) -> http.client.HTTPResponse:
        """Asks by the open connection, or by a new one where that was closed meanwhile."""
        address = urlsplit(self.addresses[part.file.number])
        if self._connection and self._host == address[:2]:
            try:
                if not part.is_asked:
                    _ask(self._connection, address, part)
                return self._connection.getresponse()
            except ConnectionError:
                if part.is_asked:
                    raise
        self.close()
        kind = http.client.HTTPSConnection if address.scheme.lower() == "https" else http.client.HTTPConnection
        source = (self.source, 0) if self.source else None
        connection: http.client.HTTPConnection = kind(address.hostname or "", address.port, timeout=TIMEOUT, source_address=source)
        self._connection, self._host = connection, address[:2]
        _ask(connection, address, part)
        return connection.getresponse()

    def close(self) -> None:
        """Ends the connection, and with it what was asked ahead."""
        for part in self._parts:
            part.is_asked = False
        if self._connection:
            self._connection.close()
            self._connection = None


def _ask(connection: http.client.HTTPConnection, address: SplitResult, part: Part) -> None:
    """Sends the request of a part."""
    query = f"?{address.query}" if address.query else ""
    headers = {**HEADERS, "Range": f"bytes={part.inside}-{part.inside + part.count - 1}"}
    connection.request("GET", (address.path or "/") + query, headers=headers)


def _is_exact(part: Part, answer: http.client.HTTPResponse) -> bool:
    """Whether the answer's body is the part, and ends where the part ends."""
    told = answer.getheader("Content-Length", "")
    return not answer.chunked and told.isdecimal() and int(told) == part.count


def _check(answer: http.client.HTTPResponse, file: File, inside: int, count: int) -> None:
    """Raises RangeFault where the body doesn't begin with what is wanted. A whole file does, where its front is."""
    if answer.getheader("Content-Encoding", "identity").lower() != "identity":
        raise RangeFault("the web server's answer is packed")
    if answer.status == 200 and inside == 0:
        if answer.length not in (None, file.length):
            raise RangeFault("the web server's file has another length")
        return
    if answer.status == 200:
        raise RangeFault("the web server has no ranges")
    if answer.status != 206:
        raise RangeFault(f"the web server answers with status {answer.status}")
    told = CONTENT_RANGE.fullmatch(answer.getheader("Content-Range", "").strip())
    if not told or (int(told[1]), int(told[2])) != (inside, inside + count - 1):
        raise RangeFault("the web server gives another range than was asked for")
    if told[3] not in ("*", str(file.length)):
        raise RangeFault("the web server's file has another length")
