#!/usr/bin/env python3
"""Prints the source files of each crate with the sentence that heads them, lowest crate first.

    tools/files.py [CRATE ..]   of these crates, or of all
    tools/files.py --check      prints nothing, and says which files have no head

A file is listed by what its first comment says, up to the end of that sentence; of a long one, up to its first colon or semicolon. Files
that have one place for each function (`Answers.antt`, `Invariants.antt`, `Proof.antt`) and lists of files (`Lib.antt`) are left out, and so
are the modules of tests. The status is 1 where a file has no head.
"""

from __future__ import annotations

import re
import subprocess
import sys
from pathlib import Path

ROOT = Path(__file__).resolve().parent.parent
LEFT_OUT = {"Answers.antt", "Invariants.antt", "Proof.antt", "Lib.antt"}
FOLDERS = {"src": "Code", "specs": "Definitions", "proofs": "Lemmas"}


def head_of(path: Path) -> str:
    """The first sentence of a file's first comment."""
    words = []
    for line in path.read_text(encoding="utf-8").splitlines():
        found = re.match(r"(?://!|--) ?(.*)", line)
        if found is not None and found.group(1).strip():
            words.append(found.group(1).strip())
        elif words:
            break
    sentence = re.split(r"(?<=[.:]) (?=[A-Z])", " ".join(words))[0].rstrip(":.")
    return sentence if len(sentence.split()) <= 25 else re.split(r"[:;] ", sentence)[0]


def crates() -> list[str]:
    """The crates, lowest first, without those that are tests alone."""
    names = (line.split(":")[0].split()[0] for line in (ROOT / "crates.txt").read_text(encoding="utf-8").splitlines() if line[:1] != "#" and line)
    return [name for name in names if not name.endswith("_tests")]


def files_of(crate: str, folder: str) -> list[Path]:
    """The files of a crate's folder that the page lists, by their paths in it."""
    out = subprocess.run(["git", "ls-files", f"crates/{crate}/{folder}"], cwd=ROOT, capture_output=True, text=True, check=True).stdout
    paths = (Path(line) for line in out.splitlines() if line.endswith((".rt", ".antt")))
    return sorted(path for path in paths if path.name not in LEFT_OUT and "tests" not in path.parts and path.name != "tests.rt")


def listing(names: list[str]) -> tuple[str, list[str]]:
    """What these crates have, and the files that have no head."""
    lines: list[str] = []
    bare: list[str] = []
    for crate in names:
        lines.append(f"## {crate}\n")
        for folder, title in FOLDERS.items():
            listed = []
            for path in files_of(crate, folder):
                head = head_of(ROOT / path)
                if not head:
                    bare.append(str(path))
                    continue
                name = path.relative_to(f"crates/{crate}/{folder}").with_suffix("")
                listed.append(f"- `{name}`: {head}.")
            if listed:
                lines.append(f"{title} (`{folder}/`):\n\n" + "\n".join(listed) + "\n")
    return "\n".join(lines), bare


def main() -> None:
    words = sys.argv[1:]
    unknown = [word for word in words if word != "--check" and word not in crates()]
    if unknown:
        sys.exit(f"files: no such crate: {unknown[0]}")
    text, bare = listing([word for word in words if word != "--check"] or crates())
    for path in bare:
        print(f"files: {path} has no head", file=sys.stderr)
    if "--check" not in words:
        print(text, end="")
    sys.exit(1 if bare else 0)


if __name__ == "__main__":
    main()
