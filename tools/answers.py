#!/usr/bin/env python3
"""Lists the answers of proofs that are longer than a number of lines, the longest first.

    tools/answers.py [LINES]

LINES is 10 where it isn't said. An answer's lines are those of its body: its name and its type don't count. The last line tells how many
there are of how many. Answers that `tools/examples.py` writes are left out.
"""

from __future__ import annotations

import argparse
import re
from collections.abc import Iterator
from pathlib import Path

ROOT = Path(__file__).resolve().parent.parent
WRITTEN = "bt_history/proofs/examples/"
HEAD = re.compile(r"pub (\S+) : goal\.")


def answers(path: Path) -> Iterator[tuple[str, int, int]]:
    """The name of each answer of a file, with its first line and how many lines its body has."""
    lines = path.read_text(encoding="utf-8").splitlines()
    for number, line in enumerate(lines):
        head = HEAD.match(line)
        if head is None:
            continue
        body = []
        for later in lines[number + 1 :]:
            if later.startswith("unfolding "):
                continue
            if not later.startswith((" ", "]", "}", ")", head.group(1))):
                break
            body.append(later)
        yield head.group(1), number + 1, len(body) - (1 if body and body[0].rstrip().endswith("=") else 0)


def main() -> None:
    words = argparse.ArgumentParser(description=__doc__.splitlines()[0])
    words.add_argument("lines", type=int, nargs="?", default=10)
    most = words.parse_args().lines
    paths = [path for path in sorted(ROOT.glob("crates/*/proofs/**/Answers.antt")) if WRITTEN not in str(path)]
    found = [(lines, f"{path.relative_to(ROOT)}:{number}", name) for path in paths for name, number, lines in answers(path)]
    long = sorted((one for one in found if one[0] > most), reverse=True)
    for lines, place, name in long:
        print(f"{lines:3} {place} {name}")
    print(f"{len(long)} of {len(found)} answers are longer than {most} lines")


if __name__ == "__main__":
    main()
