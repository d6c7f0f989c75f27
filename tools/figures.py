#!/usr/bin/env python3
"""Takes the picker's figures in one sitting: picker, C library, desk, libtorrent's picker and the same rule in plain C++, on one workload, by
turns.

    (cd crates/bench && rt run)
    clients/build.sh                                     # for the column of C; the release's library serves too
    tools/libtorrent/build.sh FOLDER                     # for libtorrent's column; it may be left out
    tools/figures.py [--libtorrent FOLDER] [--no-desk] [--halvings N] [--runs N] [PIECES ..]

Prints a table, a row for each number of pieces: 1,000, 10,000 and 100,000 where none is given. Each figure is the least of so many runs in
fresh processes, 3 where it isn't said. The plain C++ (tools/plain) is built by the machine's g++, where there is one. Times are processor
time, of an ask with its arrival but for the columns that say otherwise. Memory is the most that a process held. The desk's run hashes each
piece between the asks, so the caches are colder there; its hashing isn't in its time. The requests of picker and plain C++ have to be the
same, in order; those of the desk and of the C program (clients/rounds.c) are compared by their counts.
"""

from __future__ import annotations

import argparse
import os
import re
import shutil
import subprocess
import sys
import tempfile
from collections.abc import Sequence

ROOT = os.path.dirname(os.path.dirname(os.path.abspath(__file__)))
BENCH = os.path.join(ROOT, "crates/bench/out/bench")
TIME = "/usr/bin/time"
CLIENTS = os.path.join(ROOT, "clients")
LIBRARIES = (os.path.join(CLIENTS, "out"), os.path.join(ROOT, "release/x86_64-linux/lib"))
COLUMNS = (
    "Pieces", "Picker", "From C", "Desk", "Plain C++", "libtorrent", "Picker by libtorrent", "From C by libtorrent", "An ask that gives nothing",
    "A peer's way in", "Memory of the picker",
)  # fmt: skip


def output(words: Sequence[str]) -> str:
    """What the program prints."""
    ran = subprocess.run(words, stdout=subprocess.PIPE, text=True)
    if ran.returncode != 0:
        sys.exit(f"{' '.join(words)} ended with status {ran.returncode}")
    return ran.stdout


def measured(words: Sequence[str]) -> tuple[str, float]:
    """What the program prints, and the most memory that it held, in megabytes. This process is larger, so a small one starts it."""
    if not os.path.exists(TIME):
        sys.exit(f"there is no {TIME}, which tells the memory of a process: Debian has it in the package time")
    ran = subprocess.run([TIME, "-f", "%M", *words], stdout=subprocess.PIPE, stderr=subprocess.PIPE, text=True)
    if ran.returncode != 0:
        sys.exit(f"{' '.join(words)} ended with status {ran.returncode}: {ran.stderr}")
    return ran.stdout, int(ran.stderr.split()[-1]) * 1024 / 1e6


def numbers(text: str) -> dict[str, float]:
    """The figures of a program's output: each word with the number behind it."""
    return {name: float(value) for name, value in re.findall(r"([a-z_]+)[ =]([0-9]+(?:\.[0-9]+)?)(?![0-9a-f])", text)}


def built_from_c(folder: str) -> str | None:
    """The C program over the library, built into the folder; None where there is no compiler, or no library."""
    library = next((path for path in LIBRARIES if os.path.exists(os.path.join(path, "libpiecepick.a"))), None)
    if not library or not shutil.which("cc"):
        return None
    program = os.path.join(folder, "rounds")
    words = ["cc", "-O2", "-I", CLIENTS, "-o", program, os.path.join(CLIENTS, "rounds.c"), os.path.join(library, "libpiecepick.a")]
    subprocess.run(words, check=True)
    return program


def built(folder: str) -> str | None:
    """The plain C++, built into the folder; None where there is no compiler."""
    compiler = shutil.which("g++")
    if not compiler:
        return None
    program = os.path.join(folder, "bench_plain")
    subprocess.run([compiler, "-std=c++17", "-O2", "-march=x86-64-v2", "-o", program, os.path.join(ROOT, "tools/plain/bench_plain.cpp")], check=True)
    return program


def least(rows: list[dict[str, float]], name: str) -> float:
    return min(row[name] for row in rows)


def time_of(nanoseconds: float) -> str:
    return f"{nanoseconds:.0f} ns" if nanoseconds < 1000 else f"{nanoseconds / 1000:.1f} µs"


def from_c(program: str, pieces: int, wanted: dict[str, float]) -> float:
    """The nanoseconds of an ask with its arrival through the C library, which has to make as many requests."""
    found = numbers(output([program, str(pieces)]).replace(" ns", "").replace(", ", " ask_ns "))
    if any(found[count] != wanted[count] for count in ("asks", "requests")):
        sys.exit(f"{pieces} pieces: the C program makes other requests than the picker")
    return found["ask_ns"]


def row(pieces: int, plain_program: str | None, c_program: str | None, options: argparse.Namespace) -> str:
    """A line of the table, of runs by turns."""
    picker, desk, other, plain, in_c = [], [], [], [], []
    for _ in range(options.runs):
        text, memory = measured([BENCH, "picker", str(pieces), str(options.halvings), "51", "times"])
        picker.append({**numbers(text), "memory": memory})
        if c_program and not options.halvings:
            in_c.append(from_c(c_program, pieces, picker[-1]))
        if plain_program:
            told = output([plain_program, str(pieces), str(options.halvings), "51"])
            if told.splitlines()[0] != text.splitlines()[0]:
                sys.exit(f"{pieces} pieces: the plain C++ makes other requests than the picker")
            plain.append(numbers(told))
        if options.desk:
            desk.append(numbers(output([BENCH, str(pieces), "--density", str(options.halvings + 1), "--runs", "1"])))
        if options.libtorrent:
            program = os.path.join(options.libtorrent, "bench_libtorrent")
            words = [program, str(pieces), "--opts", "strict", "--depth", "5", "--density", str(options.halvings + 1)]
            other.append(float(output(words).partition("ns/ask+arrival=")[2].split()[0]))
    for found in desk:
        for count in ("asks", "requests"):
            if found[count] != picker[0][count]:
                sys.exit(f"{pieces} pieces: the desk has {found[count]:.0f} {count}, and the picker {picker[0][count]:.0f}")
    ask = least(picker, "ask_ns")
    cells = [f"{pieces:,}", time_of(ask), time_of(min(in_c)) if in_c else "-"]
    cells += [time_of(least(desk, "ask_ns"))] if desk else ["-"]
    cells += [time_of(least(plain, "ask_ns"))] if plain else ["-"]
    cells += [time_of(min(other)), f"{ask / min(other):.2f}"] if other else ["-", "-"]
    cells += [f"{min(in_c) / min(other):.2f}" if other and in_c else "-"]
    cells += [time_of(least(picker, "dry_ns")), time_of(least(picker, "come_ns")), f"{least(picker, 'memory'):.1f} MB"]
    return "| " + " | ".join(cells) + " |"


def main() -> None:
    words = argparse.ArgumentParser(description=__doc__.split("\n")[0])
    words.add_argument("--libtorrent", metavar="FOLDER", help="where tools/libtorrent/build.sh built its program")
    words.add_argument("--no-desk", dest="desk", action="store_false", help="leaves out the desk's column, whose runs hash each piece")
    words.add_argument("--halvings", type=int, default=0, help="how often the pieces of each peer are halved")
    words.add_argument("--runs", type=int, default=3)
    words.add_argument("pieces", type=int, nargs="*")
    options = words.parse_args()
    if not os.path.exists(BENCH):
        sys.exit("crates/bench isn't built: (cd crates/bench && rt run)")
    print(f"| {' | '.join(COLUMNS)} |\n|{'---|' * len(COLUMNS)}")
    with tempfile.TemporaryDirectory() as folder:
        programs = built(folder), built_from_c(folder)
        for pieces in options.pieces or (1_000, 10_000, 100_000):
            print(row(pieces, *programs, options), flush=True)


if __name__ == "__main__":
    main()
