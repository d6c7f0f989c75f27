#!/usr/bin/env python3
"""Proves a crate and all that it stands on, lowest first, and builds it.

    tools/build.py CRATE [--cpu LEVEL] [--target TRIPLE]
    tools/build.py --gate

CRATE is a name of crates.txt: a program becomes crates/CRATE/out/CRATE, and a static library crates/CRATE/out/libCRATE.a. LEVEL is the
processor's, as x86-64-v2, and TRIPLE is x86_64-unknown-linux-gnu or aarch64-unknown-linux-gnu.

Each library is proved once, from nothing, and lies then in its crate's out/proved. A crate above it takes what the library states, and not
its proofs, as `rt ci` has it. So a crate waits for those below it alone, and several are proved side by side. A library stays as long as
its sources, the toolchain and what it stands on are the same: `rt` isn't needed for that, and what `rt check` keeps isn't read.

With --gate it runs `rt ci`, which proves all crates from nothing too, and keeps the libraries that this proved: what is built afterwards
takes them. They are byte for byte those that are proved here.

A line on standard error tells of each crate how long it took, and how far the whole is. What the prover prints goes to CRATE's
out/build.log. Where a crate fails, the end of its output comes on standard error, and the status is 1.
"""

from __future__ import annotations

import argparse
import concurrent.futures
import hashlib
import os
import shutil
import subprocess
import sys
import time
from dataclasses import dataclass, field
from pathlib import Path

ROOT = Path(__file__).resolve().parent.parent
SOURCES = ("src", "specs", "proofs")
JOB = 2_000_000_000  # bytes of memory that a job of the prover takes, at most
MOST_JOBS = 4  # of one crate: more gain little


class Fault(Exception):
    """Why a crate isn't built, for the user."""


def files(folder: Path, names: tuple[str, ...]) -> list[Path]:
    """All files in these folders of a folder, in one order."""
    return sorted(path for name in names for path in (folder / name).rglob("*") if path.is_file())


@dataclass
class Crate:
    """A crate of this repository: what of it, and what of the toolchain, it stands on."""

    name: str
    below: list[Crate] = field(default_factory=list)
    of_kit: list[str] = field(default_factory=list)
    is_static: bool = False

    @property
    def folder(self) -> Path:
        return ROOT / "crates" / self.name

    @property
    def is_program(self) -> bool:
        return (self.folder / "src/main.rt").is_file()

    @property
    def library(self) -> Path:
        """Where its library lies once it is proved."""
        return self.folder / "out/proved" / f"{self.name}.rlib"

    @property
    def stamp(self) -> Path:
        """What the library was made from, in one checksum, and beside it a checksum of what it states."""
        return self.folder / "out/proved/stamp"

    def all_below(self) -> list[Crate]:
        """All crates below it, lowest first."""
        found: list[Crate] = []
        for other in self.below:
            found += [crate for crate in [*other.all_below(), other] if crate not in found]
        return found

    def lines(self) -> int:
        """How much is to be proved, roughly."""
        return sum(path.read_bytes().count(b"\n") for path in files(self.folder, SOURCES))


def crates() -> dict[str, Crate]:
    """The crates that crates.txt lists, by their names."""
    words: dict[str, tuple[list[str], list[str]]] = {}
    for line in (ROOT / "crates.txt").read_text(encoding="utf-8").splitlines():
        head, colon, rest = line.partition(":")
        if colon and not line.startswith("#"):
            name, *options = head.split()
            words[name] = options, rest.split()
    found = {name: Crate(name, is_static="staticlib" in options) for name, (options, _) in words.items()}
    for name, (_, others) in words.items():
        found[name].below = [found[other] for other in others if other in found]
        found[name].of_kit = ["std", *(other for other in others if other not in found)]
    return found


def kit() -> Path:
    """The toolchain's folder."""
    command = shutil.which("rt")
    if not command:
        raise Fault("the toolchain's command rt isn't found")
    return Path(command).resolve().parent.parent


def checksum(folder: Path, names: tuple[str, ...]) -> str:
    """One over the names and contents of all files in these folders of a folder."""
    total = hashlib.sha256()
    for path in files(folder, names):
        total.update(f"{path.relative_to(folder)}\0{hashlib.sha256(path.read_bytes()).hexdigest()}\n".encode())
    return total.hexdigest()


def made_from(crate: Crate, tools: Path) -> str:
    """A checksum over all that a crate's library is made from. What is below it counts by what it states."""
    below = [(other.name, other.stamp.read_text(encoding="utf-8").split()[1]) for other in crate.all_below()]
    own = checksum(crate.folder, SOURCES)
    return hashlib.sha256(repr((own, below, crate.of_kit, (tools / "KIT-ID").read_text(encoding="utf-8"))).encode()).hexdigest()


def is_proved(crate: Crate, wanted: str) -> bool:
    """Whether its library lies there, made from just this."""
    try:
        return crate.stamp.read_text(encoding="utf-8").split()[0] == wanted and (crate.library / "format").is_file()
    except (OSError, IndexError):
        return False


def words_for(crate: Crate, tools: Path, jobs: int) -> list[str]:
    """The words by which the prover reads a crate."""
    words = ["--crate-name", crate.name, "src/main.rt" if crate.is_program else "src/lib.rt"]
    for name in crate.of_kit:
        words += ["--extern", f"{name}={tools}/rlibs/{name}.rlib"]
    words += ["-L", f"dependency={tools}/rlibs"]
    for other in crate.below:
        words += ["--extern", f"{other.name}={other.library}"]
    for other in crate.all_below():
        words += ["-L", f"dependency={other.library.parent}"]
    words += ["--antt-project", f"{tools}/rattle/logic/antt-project.json", "--logic-built", f"{tools}/logic_built"]
    return [*words, "--links", f"{crate.name}=", f"--jobs={jobs}"]


def run(words: list[str], folder: Path, what: str) -> str:
    """Runs a command, and gives what it prints. Raises Fault with the end of that where it fails. Where the system ends the command, mostly
    for want of memory, it runs once more with one job."""
    ran = subprocess.run(words, cwd=folder, stdin=subprocess.DEVNULL, stdout=subprocess.PIPE, stderr=subprocess.STDOUT, text=True)
    fewer = ["--jobs=1" if word.startswith("--jobs=") else word for word in words]
    if ran.returncode < 0 and fewer != words:
        return run(fewer, folder, what)
    if ran.returncode != 0:
        raise Fault("\n".join([*ran.stdout.splitlines()[-20:], f"{what} isn't built"]))
    return ran.stdout


def prove(crate: Crate, tools: Path, jobs: int) -> str:
    """Proves a library from nothing, where it isn't yet, and gives what the prover printed."""
    wanted = made_from(crate, tools)
    if is_proved(crate, wanted):
        return ""
    shutil.rmtree(crate.library.parent, ignore_errors=True)
    crate.library.parent.mkdir(parents=True)
    words = words_for(crate, tools, jobs)
    said = run([f"{tools}/bin/rattle", "build", *words, "--statements", "-o", str(crate.library)], crate.folder, crate.name)
    if made_from(crate, tools) != wanted:
        raise Fault(f"a source of {crate.name} has changed meanwhile: build again")
    keep(crate, wanted)
    return said


def keep(crate: Crate, made: str) -> None:
    """Says of a proved library what it was made from, and what it states."""
    crate.stamp.write_text(f"{made} {checksum(crate.library, ('.',))}\n", encoding="utf-8")


def build(crate: Crate, tools: Path, jobs: int, options: list[str]) -> str:
    """Proves and builds a program or a static library, where that isn't there yet, and gives what was printed."""
    out = crate.folder / "out"
    made, stamp = out / (f"lib{crate.name}.a" if crate.is_static else crate.name), out / "built"
    wanted = " ".join([made_from(crate, tools), *options])
    if made.is_file() and stamp.is_file() and stamp.read_text(encoding="utf-8") == wanted:
        return ""
    stamp.unlink(missing_ok=True)
    words = [f"{tools}/bin/rattle", "build", *words_for(crate, tools, jobs), "--toolchain", f"{tools}/toolchain", "--backend", "llvm", *options]
    if crate.is_static:
        said = run([*words, "--crate-type", "staticlib", "-o", str(made)], crate.folder, crate.name)
    else:
        said = run([*words, "-o", f"{made}.o"], crate.folder, crate.name)
        link = [f"{tools}/bin/rattle-link", "--target", "x86_64-unknown-linux-gnu", "--toolchain", f"{tools}/toolchain", "-o", f"out/{crate.name}"]
        said += run([*link, f"out/{crate.name}.o", f"{tools}/c/libos_c.a", f"{tools}/c/liblibc_c.a"], crate.folder, crate.name)
    stamp.write_text(wanted, encoding="utf-8")
    return said


def prove_by_gate(known: dict[str, Crate], tools: Path) -> None:
    """Runs `rt ci`, and keeps the libraries that it proved from the sources as they stand."""
    of = {name: checksum(crate.folder, SOURCES) for name, crate in known.items()}
    if subprocess.run([f"{tools}/bin/rt", "ci"], cwd=ROOT, stdin=subprocess.DEVNULL).returncode != 0:
        raise Fault("`rt ci` has failed")
    if any(checksum(crate.folder, SOURCES) != of[name] for name, crate in known.items()):
        raise Fault("a source has changed meanwhile")
    lowest_first = dict.fromkeys(crate.name for last in known.values() for crate in [*last.all_below(), last])
    for crate in (known[name] for name in lowest_first):
        made = crate.folder / "out/rlib" / crate.library.name
        if made.is_dir():
            shutil.rmtree(crate.library.parent, ignore_errors=True)
            shutil.copytree(made, crate.library)
            keep(crate, made_from(crate, tools))


class Plan:
    """Which crates are to be proved, those on the longest way to the last one first, and how many jobs each gets."""

    def __init__(self, last: Crate) -> None:
        self.waiting = [*last.all_below(), last]
        self.done: list[Crate] = []
        self.jobs: dict[str, int] = {}  # of those that run
        self.processors = len(os.sched_getaffinity(0))
        above: dict[str, int] = {}
        for crate in reversed(self.waiting):
            above[crate.name] = crate.lines() + max((above[other.name] for other in self.waiting if crate in other.below), default=0)
        self.waiting.sort(key=lambda crate: -above[crate.name])

    def next(self) -> tuple[Crate, int] | None:
        """A crate that can begin, with its jobs; none where all processors are taken, or each waits for another."""
        free = min(self.processors - sum(self.jobs.values()), self.room())
        ready = [crate for crate in self.waiting if all(other in self.done for other in crate.below)]
        if not ready or (free < 1 and self.jobs):
            return None
        jobs = max(1, min(MOST_JOBS, free if len(ready) == 1 else -(-free // 2)))
        self.waiting.remove(ready[0])
        self.jobs[ready[0].name] = jobs
        return ready[0], jobs

    def room(self) -> int:
        """For how many jobs more there is memory."""
        with open("/proc/meminfo", encoding="utf-8") as lines:
            free = next(int(line.split()[1]) * 1024 for line in lines if line.startswith("MemAvailable:"))
        return free // JOB

    def ended(self, crate: Crate) -> None:
        """The crate is proved."""
        del self.jobs[crate.name]
        self.done.append(crate)


def build_all(last: Crate, tools: Path, options: list[str]) -> None:
    """Proves all below a crate and builds it."""
    plan = Plan(last)
    total = len(plan.waiting)
    running: dict[concurrent.futures.Future[str], tuple[Crate, float]] = {}
    (last.folder / "out").mkdir(exist_ok=True)
    with open(last.folder / "out/build.log", "w", encoding="utf-8") as log, concurrent.futures.ThreadPoolExecutor() as pool:
        while plan.waiting or running:
            while found := plan.next():
                crate, jobs = found
                made = pool.submit(build, crate, tools, jobs, options) if crate is last else pool.submit(prove, crate, tools, jobs)
                running[made] = crate, time.monotonic()
            for made in concurrent.futures.wait(running, return_when=concurrent.futures.FIRST_COMPLETED).done:
                crate, begin = running.pop(made)
                log.write(f"== {crate.name}\n{made.result()}")
                plan.ended(crate)
                took = f"{time.monotonic() - begin:.0f} s" if made.result() else "kept"
                print(f"build: {crate.name}, {took} ({len(plan.done)} of {total})", file=sys.stderr, flush=True)


def main() -> int:
    words = argparse.ArgumentParser(description=(__doc__ or "").splitlines()[0])
    words.add_argument("crate", nargs="?")
    words.add_argument("--gate", action="store_true", help="run `rt ci`, and keep the libraries that it proves")
    words.add_argument("--cpu", help="the level of processor that the code is for")
    words.add_argument("--target", help="the kind of machine that it is for")
    asked = words.parse_args()
    known = crates()
    options = [word for name in ("cpu", "target") if (value := getattr(asked, name)) for word in (f"--{name}", value)]
    try:
        if asked.gate:
            prove_by_gate(known, kit())
        elif asked.crate not in known or not (known[asked.crate].is_static or known[asked.crate].is_program):
            raise Fault(f"{asked.crate} is no program and no static library of crates.txt")
        else:
            build_all(known[asked.crate], kit(), options)
    except Fault as fault:
        print(f"build: {fault}", file=sys.stderr)
        return 1
    return 0


if __name__ == "__main__":
    sys.exit(main())
