#!/usr/bin/env python3
"""Runs all tests that need no prover, a line for each with its time.

    ./test               these tests
    ./test --proofs      runs `rt ci`, which proves and tests all crates from nothing, builds program and library of what it proved, runs these
                         tests on both, and compares them with the folder `release`, if that is of these sources

The program is the one that ./piecepick runs. The library is that of clients/out, or else that of the folder `release`. A test whose compiler
isn't on the machine is left out, and its line says so. One that goes by the clock is tried a second time where it failed, and its line says
that too. The status is 0 where no test has failed.
"""

from __future__ import annotations

import argparse
import os
import shutil
import subprocess
import sys
import time
from dataclasses import dataclass
from pathlib import Path

ROOT = Path(__file__).resolve().parent.parent
PROGRAM = "PROGRAM"  # stands for the path of the program
LONGEST = 900.0  # seconds of one test
SHOWN = 40  # lines of the output of one that failed
LEFT_OUT = "passed over"  # what a test says of a part of it for which a tool is lacking


@dataclass(frozen=True)
class Test:
    """A command, and what has to be on the machine for it. Of some the last line says what was found, and some go by the clock."""

    name: str
    words: tuple[str, ...]
    needs: tuple[str, ...] = ("python3",)
    tells: bool = False
    by_clock: bool = False


TESTS = (
    Test("the release", ("tools/release.py", "--verify")),
    Test("stored runs", ("tools/stored.py", "--program", PROGRAM), tells=True),
    Test("random scripts and files", ("tools/fuzz.py", "2000", "1", "--program", PROGRAM), tells=True),
    Test("what hostile peers send", ("tools/hostile.py", "--program", PROGRAM)),
    Test("C", ("clients/try.sh", "c"), ("python3", "gcc", "g++")),
    Test("C++", ("clients/try.sh", "cpp"), ("python3", "gcc", "g++")),
    Test("delays", ("clients/try.sh", "delays"), ("python3", "cc")),
    Test("Python", ("clients/try.sh", "python")),
    Test("random picks", ("tools/fuzz.py", "picks", "100000", "1", "--library", "--open"), tells=True),
    Test("the downloader", ("clients/try.sh", "fetch"), by_clock=True),
    Test("Rust", ("clients/try.sh", "rust"), ("python3", "cargo", "cc")),
    Test("aarch64, emulated", ("clients/try_aarch64.sh",), ("python3", "aarch64-linux-gnu-gcc", "aarch64-linux-gnu-g++", "qemu-aarch64")),
    Test("installed", ("clients/try_install.sh",), ("python3", "cc", "pkg-config", "readelf", "nm", "objcopy")),
)
GATE = ("tools/build.py", "--gate")
BUILDS = (("./piecepick", "--build"), ("clients/build.sh",))
CHECK = ("tools/release.py", "--check")


def where() -> str | None:
    """The path of the program, if there is one of these sources."""
    found = subprocess.run([ROOT / "piecepick", "--where"], stdout=subprocess.PIPE, stderr=subprocess.PIPE, text=True)
    return found.stdout.strip() if found.returncode == 0 else None


def say(verdict: str, seconds: float | None, words: str) -> None:
    """A line for one test."""
    took = "" if seconds is None else f"{seconds:.1f} s"
    print(f"{verdict:<8} {took:>8}  {words}", flush=True)


def run(words: list[str | Path]) -> tuple[bool, list[str]]:
    """Runs a command: whether it did well in time, and the lines that it printed."""
    try:
        done = subprocess.run(words, cwd=ROOT, stdin=subprocess.DEVNULL, stdout=subprocess.PIPE, stderr=subprocess.STDOUT, timeout=LONGEST)
        return done.returncode == 0, done.stdout.decode(errors="replace").splitlines()
    except subprocess.TimeoutExpired as late:
        return False, [*(late.stdout or b"").decode(errors="replace").splitlines(), f"it took more than {LONGEST:.0f} s"]


def passes(test: Test, program: str | None) -> bool | None:
    """Runs a test and prints its line; whether it passed, or None where it is left out."""
    lacking = [tool for tool in test.needs if not shutil.which(tool)]
    if lacking:
        say("left out", None, f"{test.name}: there is no {' and no '.join(lacking)} here")
        return None
    if PROGRAM in test.words and program is None:
        say("FAILED", None, f"{test.name}: of these sources there is no program; './piecepick --build' makes one")
        return False
    words: list[str | Path] = [program if word == PROGRAM and program else word for word in test.words]
    begin = time.monotonic()
    is_well, lines = run(words)
    if not is_well and test.by_clock:
        print("\n".join(f"    {line}" for line in lines[-SHOWN:]), flush=True)
        say("again", time.monotonic() - begin, test.name)
        begin = time.monotonic()
        is_well, lines = run(words)
    say("well" if is_well else "FAILED", time.monotonic() - begin, f"{test.name}: {lines[-1]}" if test.tells and lines else test.name)
    for line in lines:
        if LEFT_OUT in line:
            say("left out", None, f"{test.name}: {line}")
    if not is_well:
        print("\n".join(f"    {line}" for line in lines[-SHOWN:]), flush=True)
    return is_well


def do(commands: tuple[tuple[str, ...], ...]) -> bool:
    """Runs commands, as far as they do well, and shows what they print; whether all did."""
    return all(subprocess.run(words, cwd=ROOT, stdin=subprocess.DEVNULL).returncode == 0 for words in commands)


def proves() -> bool:
    """Runs `rt ci`, which takes no links in the repository: those of the built library are away meanwhile."""
    links = {path: os.readlink(path) for path in (ROOT / "clients/out").rglob("*") if path.is_symlink()}
    for path in links:
        path.unlink()
    try:
        return do((GATE,))
    finally:
        for path, target in links.items():
            path.symlink_to(target)


def main() -> int:
    words = argparse.ArgumentParser(prog="test", description="Runs all tests that need no prover.")
    words.add_argument("--proofs", action="store_true", help="run `rt ci` first, and build of what it proved what is tested")
    asked = words.parse_args()
    if asked.proofs and not (proves() and do(BUILDS)):
        return 1
    begin = time.monotonic()
    program = where()
    verdicts = [passes(test, program) for test in TESTS]
    failed, left_out = verdicts.count(False), verdicts.count(None)
    passed = len(verdicts) - failed - left_out
    print(f"{passed} passed, {failed} failed, {left_out} left out, in {time.monotonic() - begin:.0f} s", flush=True)
    return 0 if not failed and (not asked.proofs or (do((CHECK,)) and proves())) else 1


if __name__ == "__main__":
    os.environ.setdefault("PYTHONDONTWRITEBYTECODE", "1")
    sys.exit(main())
