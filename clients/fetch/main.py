"""The program: reads the command line, downloads, and says what can't be done. Without the library it still helps and lists files."""

from __future__ import annotations

import os
import sys
from contextlib import closing, suppress
from typing import NoReturn

from . import command_line, listing
from .faults import Ended, fault_of, named
from .layout import printable
from .options import Options
from .progress import Progress
from .reach import Reach
from .signals import ends_in_order
from .source import obtain


def try_picture(path: str) -> None:
    """Raises OSError where the picture couldn't be written at the end."""
    is_new = not os.path.exists(path)
    with open(path, "a", encoding="utf-8"):
        pass
    if is_new:
        with suppress(OSError):
            os.unlink(path)


def list_files(options: Options) -> None:
    """Prints the files of each torrent."""
    with closing(Reach(options)) as reach, closing(Progress(options.quiet)) as progress:
        for torrent in (options.torrent, *options.more):
            source = obtain(options.of(torrent), reach, ends_in_order, progress.tell)
            source.close()
            progress.end()
            print("\n".join([*([torrent] if options.more else []), *listing.lines(source.metainfo)]))


def load() -> None:
    """Imports what a download needs, and with it the library."""
    from . import running  # noqa: F401


def download(options: Options) -> Ended:
    """Does what the options say."""
    if options.lists:
        list_files(options)
        return Ended.DONE
    if options.picture:
        try_picture(options.picture)
    with closing(Reach(options)) as reach, closing(Progress(options.quiet)) as progress:
        if options.more:
            from .several import Several

            several = Several(options, reach)
            with ends_in_order(several):
                return several.run()
        source = obtain(options, reach, ends_in_order, progress.tell, load)
        progress.end()
        from .running import fetch

        return Ended.DONE if fetch(source, options, reach) else Ended.NOT_DONE


def run(options: Options) -> Ended:
    """The same, where a fault that the user can do something about has a text and a status."""
    try:
        return download(options)
    except Exception as error:
        fault = fault_of(error)
        if fault is None:
            raise
        text = named(options.torrent, fault.text) if fault.status is Ended.WRONG_METAINFO else fault.text
        print(f"fetch.py: {printable(text)}", file=sys.stderr)
        return fault.status


def main() -> int:
    """The program's status."""
    return run(command_line.read(sys.argv[1:]))


def leave(status: int) -> NoReturn:
    """Ends the program once all is written. Else Python would take down its modules one by one, which takes longer than the system does."""
    try:
        for stream in filter(None, (sys.stdout, sys.stderr)):
            stream.flush()
    except (OSError, ValueError):
        sys.exit(status)  # Python says what is wrong there
    os._exit(status)
