"""What is fetched whole by HTTP or HTTPS: the answers of trackers, and metainfo files. All of it is bounded."""

from __future__ import annotations

import http.client
import time
import urllib.error
import urllib.request
from functools import partial

from .reasons import reason_of
from .urls import AGENT

READ = 1 << 16


class WebFault(Exception):
    """The server gives nothing that can be used; the text says why."""


class _Plain(urllib.request.HTTPHandler):
    """HTTP from one of our own addresses."""

    def __init__(self, source: str) -> None:
        super().__init__()
        self.source = (source, 0) if source else None

    def http_open(self, request: urllib.request.Request) -> http.client.HTTPResponse:
        return self.do_open(partial(http.client.HTTPConnection, source_address=self.source), request)


class _Secured(urllib.request.HTTPSHandler):
    """HTTPS from one of our own addresses."""

    def __init__(self, source: str) -> None:
        super().__init__()
        self.source = (source, 0) if source else None

    def https_open(self, request: urllib.request.Request) -> http.client.HTTPResponse:
        return self.do_open(partial(http.client.HTTPSConnection, source_address=self.source), request)


def _opener(source: str) -> urllib.request.OpenerDirector:
    """Opens addresses of HTTP alone, so that nobody leads us to files of this machine. Ten redirects end it, and loops end it sooner."""
    opener = urllib.request.OpenerDirector()
    for handler in (_Plain(source), _Secured(source), urllib.request.HTTPRedirectHandler(), urllib.request.UnknownHandler()):
        opener.add_handler(handler)
    opener.add_handler(urllib.request.HTTPErrorProcessor())
    opener.add_handler(urllib.request.HTTPDefaultErrorHandler())
    opener.addheaders = [("User-Agent", AGENT)]
    return opener


def get(url: str, largest: int, seconds: float, source: str = "") -> bytes:
    """The whole answer, of so many bytes at most and in so many seconds. Raises WebFault."""
    end = time.monotonic() + seconds
    try:
        with _opener(source).open(url, timeout=seconds) as reply:
            data = bytearray()
            while part := reply.read1(READ):
                data += part
                if len(data) > largest:
                    raise WebFault(f"the answer has more than {largest} bytes")
                if time.monotonic() > end:
                    raise WebFault(f"the answer takes more than {seconds:g} seconds")
            return bytes(data)
    except urllib.error.HTTPError as error:
        with error:
            raise WebFault(f"the answer has status {error.code}") from error
    except urllib.error.URLError as error:
        raise WebFault(reason_of(error.reason) if isinstance(error.reason, Exception) else error.reason) from error
    except (OSError, http.client.HTTPException, ValueError) as error:
        raise WebFault(reason_of(error)) from error
