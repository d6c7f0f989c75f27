#!/usr/bin/env python3
"""Tells how many words the pages have, and how long their sentences are: the mean and the longest of each page, and the longest of all. It
counts sentences that begin with a word for which the reader has to look back, such as "It" or "That". With --back it shows them.

    tools/prose.py [--worst N] [--limit WORDS] [--back] [FILE ..]

Goes over README.md, docs, clients and each crate's README where no file is given. Code, drawings, links' targets and the lines of a table are
no sentences, but each cell of a table is read as one. With a limit the status is 1 where a sentence is longer.
"""

from __future__ import annotations

import argparse
import re
import subprocess
import sys
from collections.abc import Iterator
from pathlib import Path

ROOT = Path(__file__).resolve().parent.parent
BACK = re.compile(r"(?:It|Its|That|This|Those|These|Such|So (?:it|does|do|is|are|has|have)|Neither|Both|Likewise)\b(?! (?:is|was) (?:why|how))")
END = re.compile(r"(?<=[.!?:;])\s+(?=[A-Z0-9`*\"(\[]|$)")


def paragraphs(text: str) -> Iterator[str]:
    """The paragraphs of a page, the items of its lists and the cells of its tables, each on one line."""
    text = re.sub(r"^```.*?^```", "", text, flags=re.S | re.M)
    block: list[str] = []
    for line in text.split("\n") + [""]:
        bare = line.strip()
        if line.startswith(("    ", "\t")) and not block:
            continue
        if bare.startswith("|"):
            yield from (cell.strip() for cell in bare.strip("|").split(" | ") if not re.fullmatch(r"[-: |]*", cell))
        elif not bare or bare.startswith("#"):
            if block:
                yield " ".join(block)
            block = []
        else:
            if re.match(r"[-*] |\d+\. ", bare) and block:
                yield " ".join(block)
                block = []
            block.append(re.sub(r"^([-*]|\d+\.) ", "", bare))


def sentences(text: str) -> Iterator[tuple[int, str]]:
    """The sentences of a page: a name or a piece of code counts as one word."""
    for paragraph in paragraphs(text):
        plain = re.sub(r"`[^`]*`", lambda code: "X" + ("." if code.group().endswith(".`") else ""), paragraph)
        plain = re.sub(r"\]\([^)]*\)", "]", plain)
        for piece in END.split(plain):
            words = [word for word in piece.split() if re.search(r"\w", word)]
            if len(words) > 2:
                yield len(words), piece


def pages(names: list[str]) -> list[Path]:
    if names:
        return [Path(name).resolve() for name in names]
    listed = subprocess.run(["git", "ls-files", "*.md"], cwd=ROOT, capture_output=True, text=True, check=True).stdout.split()
    return [ROOT / name for name in listed]


def told_of(found: list[tuple[int, str]]) -> str:
    """How many words and sentences these are, how long on average, and how many of them lean on the one before."""
    words = sum(count for count, _ in found)
    back = sum(BACK.match(piece) is not None for _, piece in found)
    return f"{words} words, {len(found)} sentences, mean {words / len(found):.1f}, {back} lean back"


def main() -> None:
    words = argparse.ArgumentParser(description=__doc__.split("\n")[0])
    words.add_argument("--worst", type=int, default=10, help="so many of the longest sentences are shown")
    words.add_argument("--limit", type=int, help="a sentence of more words is too long")
    words.add_argument("--back", action="store_true", help="sentences that begin with a word such as It are shown")
    words.add_argument("files", nargs="*")
    options = words.parse_args()
    everything: list[tuple[int, Path, str]] = []
    for page in pages(options.files):
        found = list(sentences(page.read_text(encoding="utf-8")))
        if not found:
            continue
        name = page.relative_to(ROOT) if page.is_relative_to(ROOT) else page
        print(f"{name}: {told_of(found)}, longest {max(count for count, _ in found)}")
        everything += [(count, name, piece) for count, piece in found]
    lengths = [count for count, _, _ in everything]
    over = ", ".join(f"over {limit}: {sum(count > limit for count in lengths)}" for limit in (30, 40))
    print(f"all: {told_of([(count, piece) for count, _, piece in everything])}, {over}")
    if options.back:
        for _, name, piece in everything:
            if BACK.match(piece):
                print(f"{name}: {piece[:150]}")
        return
    for count, name, piece in sorted(everything, key=lambda one: -one[0])[: options.worst]:
        print(f"{count} {name}: {piece[:150]}")
    if options.limit and max(lengths) > options.limit:
        sys.exit(1)


if __name__ == "__main__":
    main()
