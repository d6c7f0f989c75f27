#!/usr/bin/env python3
"""Runs the command lines of crates/bt_cli_tests with the program, and compares what it prints with what is stored of them.

    tools/stored.py [--program FILE]

The program is the one that ./piecepick runs, or FILE. The lines are those of data/commands, in a copy of that folder. `rt ci` runs them in
one process, and here each has its own. What is stored there was derived by hand or by other programs (crates/bt_cli_tests/README.md). Lines
that are no command of the program (`decode`) are left out. Then it plays scripts that are at fault, and compares what is said of them with the
table below. The status is 1 where something differs, and each line that does is printed.
"""

from __future__ import annotations

import argparse
import hashlib
import os
import shutil
import subprocess
import sys
import tempfile
from collections.abc import Iterator
from pathlib import Path
from typing import IO

ROOT = Path(__file__).resolve().parent.parent
CRATE = ROOT / "crates/bt_cli_tests"
LEFT_OUT = "decode"
LONGEST = 60.0  # seconds of one command

# Scripts at fault: the number of the line, and what is said of it.
TORRENT = "torrent 16384 16384 2 " + "0" * 40 + "\n"
SCRIPTS = (
    ("", 1, "the script is empty"),
    ("\n\n", 1, "the script is empty"),
    ("torrent 16384 16384 2 00ff\n", 1, "`torrent 16384 16384 2 00ff`: hash 1 isn't 40 hexadecimal digits"),
    (f"torrent 1 2 2 {'0' * 40} {'0' * 39}g\n", 1, f"`torrent 1 2 2 {'0' * 40} 00000..`: hash 2 isn't 40 hexadecimal digits"),
    ("torrent 16384 16384 2\n", 1, "`torrent 16384 16384 2`: not `torrent PIECE_LEN TOTAL WORKERS HASH..` of a torrent that can be"),
    (TORRENT + "0 bitz 80\n", 2, "`0 bitz 80`: no such call: bitz"),
    (TORRENT + "0 join 1\n", 2, "`0 join 1`: not a call, or numbers out of range"),
    (TORRENT + "0\n", 2, "`0`: not a call, or numbers out of range"),
    (TORRENT + "\n2 join\n", 3, "`2 join`: there is no such worker"),
    (TORRENT + "0 join\n0 bits 8000\n", 3, "`0 bits 8000`: the bitfield isn't one of the torrent"),
)


def stored() -> Iterator[tuple[str, str]]:
    """Each command line with what is stored of it."""
    for part in ("\n" + (CRATE / "stdout").read_text(encoding="utf-8")).split("\n$ ")[1:]:
        line, _, printed = part.partition("\n")
        yield line, printed.removesuffix("\n")


def told_of(data: bytes) -> list[str]:
    """The length and the SHA-1 of these bytes."""
    return [f"content bytes {len(data)} sha1 {hashlib.sha1(data).hexdigest()}"]


def shown(path: Path, is_digested: bool) -> list[str]:
    """What a file holds, or its digest."""
    if not path.exists():
        return ["(no such file)"]
    data = path.read_bytes()
    return told_of(data) if is_digested else data.decode().split("\n")


def unread() -> int:
    """An output that nobody reads."""
    reader, writer = os.pipe()
    os.close(reader)
    return writer


def ran(program: Path, words: list[str], manner: str, folder: Path, given: IO[bytes]) -> list[str]:
    """What a command prints and tells, in the manner that the line asks for."""
    to: dict[str, int] = {"full": os.open("/dev/full", os.O_WRONLY), "closed": unread()}
    try:
        done = subprocess.run(
            [program, *words], cwd=folder, stdin=given, stdout=to.get(manner, subprocess.PIPE), stderr=subprocess.PIPE, timeout=LONGEST,
        )  # fmt: skip
    finally:
        for output in to.values():
            os.close(output)
    status = f"(status) {done.returncode}"
    if manner == "quietly":
        return [status]
    told = [f"(error) {line}" for line in done.stderr.decode().splitlines()] + [status]
    printed = done.stdout or b""
    return told + told_of(printed) if manner == "digested" else printed.decode().splitlines() + told


def answer(program: Path, line: str, folder: Path, given: IO[bytes]) -> list[str]:
    """What a line of the list comes to."""
    first, *rest = line.split(" ")
    if first in ("show", "digest"):
        return shown(folder / rest[0], first == "digest")
    manner, words = ("", rest) if first == "piecepick" else (first, rest[1:])
    return ran(program, words, manner, folder, given)


def at_fault(program: Path) -> int:
    """How many scripts at fault are answered otherwise than by the table."""
    different = 0
    for script, line, said in SCRIPTS:
        done = subprocess.run([program, "script"], input=script.encode(), stdout=subprocess.PIPE, stderr=subprocess.PIPE, timeout=LONGEST)
        wanted = f"line {line}\npiecepick: standard input: {said}\n"
        if done.returncode != 2 or done.stderr.decode() != wanted:
            different += 1
            print(f"$ piecepick script <<< {script!r}\n  wanted:\n{wanted}  found:\n{done.stderr.decode()}")
    return different


def main() -> int:
    words = argparse.ArgumentParser(description="Runs the stored command lines with the program.")
    words.add_argument("--program", type=Path)
    program = words.parse_args().program
    if program is None:
        found = subprocess.run([ROOT / "piecepick", "--where"], stdout=subprocess.PIPE, text=True)
        if found.returncode != 0:
            return found.returncode
        program = Path(found.stdout.strip())
    same = different = left_out = 0
    with tempfile.TemporaryDirectory() as temporary, open(CRATE / "stdin", "rb") as given:
        folder = Path(temporary, "data")
        shutil.copytree(CRATE / "data", folder)
        for line, printed in stored():
            if line.startswith(LEFT_OUT):
                left_out += 1
                continue
            found_lines = answer(program.resolve(), line, folder, given)
            if "\n".join(found_lines) == printed:
                same += 1
            else:
                different += 1
                print(f"$ {line}\n  stored:\n{printed}\n  found:\n" + "\n".join(found_lines))
    wrong = at_fault(program.resolve())
    scripts = f"{len(SCRIPTS)} scripts at fault, {wrong} said wrong"
    print(f"{same} command lines print what is stored, {different} don't, {left_out} are left out; {scripts}")
    different += wrong
    return 1 if different or not same else 0


if __name__ == "__main__":
    sys.exit(main())
