#!/usr/bin/env python3
"""Looks at the links of the pages: each file that one leads to is there, and each heading too. The status is 1 where one isn't.

    tools/links.py [PAGE ..]

Goes over all pages of the repository where none is given. Code is passed over, and so are links to other hosts.
"""

from __future__ import annotations

import re
import subprocess
import sys
from collections.abc import Iterator
from pathlib import Path

ROOT = Path(__file__).resolve().parent.parent
LINK = re.compile(r"\]\(([^()\s]+(?:\([^()\s]*\)[^()\s]*)?)\)")


def bare(text: str) -> str:
    """The page without blocks and pieces of code."""
    text = re.sub(r"^```.*?^```", "", text, flags=re.S | re.M)
    return re.sub(r"`[^`\n]*`", "X", text)


def anchors(page: Path) -> set[str]:
    """The names by which the headings of a page are reached."""
    text = re.sub(r"^```.*?^```", "", page.read_text(encoding="utf-8"), flags=re.S | re.M)
    found: set[str] = set()
    for heading in re.findall(r"^#+ (.*)$", text, flags=re.M):
        name = re.sub(r"[^\w\- ]", "", heading.strip().lower()).replace(" ", "-")
        count = 0
        while (unique := f"{name}-{count}" if count else name) in found:
            count += 1
        found.add(unique)
    return found


def faults(page: Path) -> Iterator[str]:
    """What is wrong with the links of a page."""
    for link in LINK.findall(bare(page.read_text(encoding="utf-8"))):
        if re.match(r"[a-z]+:", link):
            continue
        file, _, heading = link.partition("#")
        target = (page.parent / file).resolve() if file else page
        if not target.exists():
            yield f"{link}: there is no such file"
        elif heading and heading not in anchors(target):
            yield f"{link}: there is no such heading"


def main() -> None:
    listed = subprocess.run(["git", "ls-files", "*.md"], cwd=ROOT, capture_output=True, text=True, check=True).stdout.split()
    pages = [Path(name) for name in sys.argv[1:]] or [ROOT / name for name in listed]
    found = [(page, fault) for page in pages for fault in faults(page.resolve())]
    for page, fault in found:
        print(f"{page}: {fault}")
    sys.exit(1 if found else 0)


if __name__ == "__main__":
    main()
