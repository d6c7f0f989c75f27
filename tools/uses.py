#!/usr/bin/env python3
"""Writes the table of who stands on whom into docs/DESIGN.md, from crates.txt. With --check it only says whether the table is current.

    tools/uses.py [--check]
"""

from __future__ import annotations

import re
import sys
from pathlib import Path

ROOT = Path(__file__).resolve().parent.parent
PAGE = ROOT / "docs/DESIGN.md"
BEGIN, END = "<!-- uses: made by tools/uses.py -->\n", "<!-- end of uses -->\n"


def crates() -> dict[str, tuple[list[str], list[str]]]:
    """The repository's crates, lowest first, each with the crates of the repository and of the toolchain that it stands on."""
    listed: dict[str, list[str]] = {}
    for line in (ROOT / "crates.txt").read_text(encoding="utf-8").splitlines():
        if line.strip() and not line.startswith("#"):
            name, _, below = line.partition(":")
            listed[name.split()[0]] = below.split()
    return {name: ([b for b in below if b in listed], [b for b in below if b not in listed]) for name, below in listed.items()}


def table() -> str:
    listed = crates()
    rows = ["| Crate | Stands on | Is used by | Crates of the toolchain |", "|---|---|---|---|"]
    for name, (own, kit) in listed.items():
        users = [above for above, (below, _) in listed.items() if name in below]
        cells = [f"`{name}`", *(", ".join(f"`{word}`" for word in words) or "-" for words in (own, users, kit))]
        rows.append("| " + " | ".join(cells) + " |")
    return "\n".join(rows) + "\n"


def main() -> None:
    page = PAGE.read_text(encoding="utf-8")
    now = re.sub(re.escape(BEGIN) + ".*?" + re.escape(END), lambda _: BEGIN + table() + END, page, flags=re.S)
    if "--check" in sys.argv[1:]:
        sys.exit(0 if now == page else "docs/DESIGN.md: the table of crates is not that of crates.txt")
    PAGE.write_text(now, encoding="utf-8")


if __name__ == "__main__":
    main()
