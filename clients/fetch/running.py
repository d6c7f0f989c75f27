"""One download of the program: runs it until its end, and prints what happened."""

from __future__ import annotations

import json
import sys
from typing import Any

from .transfer import Interrupted, Transfer
from .ending import told
from .options import Options
from .reach import Reach
from .signals import ends_in_order
from .source import Source


def show_figures(figures: dict[str, Any], as_json: bool) -> None:
    """Prints the figures, a line each or for programs."""
    if as_json:
        print(json.dumps(figures, indent=2))
        return
    for name, value in figures.items():
        if isinstance(value, bool):
            print(name, "yes" if value else "no")
        elif isinstance(value, int | float):
            print(name, value)


def show_end(download: Transfer, is_done: bool, options: Options) -> None:
    """Prints the figures, or the line for a person. Why it isn't done is said in any case."""
    lines = told(download.ending())
    if options.as_json or options.with_figures:
        show_figures(download.figures(), options.as_json)
    elif is_done and not options.quiet:
        print("\n".join(lines))
    if not is_done:
        print("\n".join(f"fetch.py: {line}" for line in lines), file=sys.stderr)


def fetch(source: Source, options: Options, reach: Reach) -> bool:
    """One download; whether all that is wanted is there."""
    download = Transfer.of(source, options, reach)
    try:
        with ends_in_order(download.parts.swarm):
            download.prepare()
            is_done = download.run()
    except Interrupted:
        print("fetch.py: interrupted while it checked what is there; the same command goes on", file=sys.stderr)
        return False
    finally:
        download.close()
    show_end(download, is_done, options)
    return is_done
