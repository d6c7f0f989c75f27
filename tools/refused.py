#!/usr/bin/env python3
"""Runs the built program, or the built tests, with one allocation, read, write or thread refused, each in turn until a run meets none.

    tools/refused.py [RUNS]
    tools/refused.py tests [CRATE..]

Each command line below is run as it stands, and then with the first, second, third .. allocation, read, write and thread of the program
refused (tools/refuse.c, which the system's `cc` builds). Each run has to end within a minute, by a status of docs/GUIDE.md and without a
signal, and print what an undisturbed run prints, or whole lines of its front, or the report of a run whose journal was found sound. Where
no session found memory lacking, such a report has all pieces that the undisturbed run has: a check that was given up is made by the last
worker. Where a thread is refused, nothing is printed but `no thread`. RUNS, 1 where it isn't said, is how often each command line of `run`
is tried, since its threads come in another order each time.

With `tests` each test of these crates (those of TESTED where none is said) but LONG is run with its first, second .. allocation refused, to
the last. It has to pass, or to end because there was no memory: no assertion fails, so that no answer changes in place of the refusal, and
a call that is made once more gives the answer that it would have had. `rt test` in a crate's folder leaves its tests built.
"""

from __future__ import annotations

import concurrent.futures
import hashlib
import os
import re
import struct
import subprocess
import sys
import tempfile
import threading
from collections.abc import Sequence

ROOT = os.path.dirname(os.path.dirname(os.path.abspath(__file__)))
PROGRAM = os.path.join(ROOT, "crates/piecepick/out/piecepick")
DATA = os.path.join(ROOT, "crates/bt_cli_tests/data")
KINDS = ("alloc", "read", "write", "thread")
TESTED = ("bt_picker_tests", "bt_session_tests")
# Each of its runs takes too long to refuse every allocation. `four_mib_from_one_peer` makes the same calls, and is tried in its place.
LONG = "tests::keeper::large::four_gib_from_one_peer"
# What a test says that ends by an error of its own, and not by an assertion; there was no memory for a thread either.
NO_MEMORY = re.compile(r"error: .*(NoMemory|NoThread|AllocError|AllocFailed|OutOfMemory|\bMemory\b).*\nthe test failed: its result gives status 1\n")


def data(*names: str) -> list[str]:
    return [os.path.join(DATA, name) for name in names]


ONE_PIECE = data("one-piece.torrent", "one-piece.stream")
THREE_PIECES = data("three-pieces.torrent", "three-pieces-0.stream", "three-pieces-1.stream")
SINGLE_FILE = data("single-file.torrent", "single-file-s0-transmission.bin", "single-file-s1-aria2.bin")
SCRIPT = os.path.join(ROOT, "crates/piecepick/stdin")


def many_pieces(folder: str, count: int) -> list[str]:
    """A torrent of so many pieces of one block of zeros, and a stream that brings them all: more than the queue of tickets holds."""
    block = bytes(16384)
    info = b"d6:lengthi%de4:name5:zeros12:piece lengthi16384e6:pieces%d:%se" % (
        count * len(block), 20 * count, hashlib.sha1(block).digest() * count)
    hello = b"\x13BitTorrent protocol" + bytes(8) + hashlib.sha1(info).digest() + b"-XX0001-000000000000"
    pieces = [struct.pack(">IBII", 9 + len(block), 7, piece, 0) + block for piece in range(count)]
    made = {"zeros.torrent": b"d4:info" + info + b"e", "zeros.stream": hello + b"".join(pieces)}
    paths = []
    for name, text in made.items():
        paths.append(os.path.join(folder, name))
        with open(paths[-1], "wb") as file:
            file.write(text)
    return paths


def commands(folder: str) -> list[tuple[str, list[str], str | None]]:
    out = os.path.join(folder, "content")
    return [
        ("script", ["script"], SCRIPT),
        ("info, three pieces", ["info", THREE_PIECES[0]], None),
        ("info, a real file", ["info", SINGLE_FILE[0]], None),
        ("serial, one piece", ["serial", *ONE_PIECE, "--journal", "--out", out], None),
        ("serial, three pieces", ["serial", *THREE_PIECES, "--journal"], None),
        ("run, one piece", ["run", *ONE_PIECE, "--out", out], None),
        ("run, three pieces", ["run", *THREE_PIECES, "--checkers", "2"], None),
        ("run, forty pieces", ["run", *many_pieces(folder, 40)], None),
    ]


class Trial:
    """Runs a program with one call refused."""

    def __init__(self, folder: str) -> None:
        self.shim = os.path.join(folder, "refuse.so")
        self.count = os.path.join(folder, "count")
        source = os.path.join(ROOT, "tools/refuse.c")
        subprocess.run(["cc", "-shared", "-fPIC", "-O2", "-o", self.shim, source, "-ldl"], check=True)

    def run(
        self, words: list[str], stdin: str | None, refuse: str, program: str = PROGRAM
    ) -> tuple[subprocess.CompletedProcess[bytes], dict[str, int]]:
        """What the program did, and how many calls of each kind it made."""
        counted = f"{self.count}-{threading.get_ident()}"
        with open(counted, "wb") as file:
            file.write(bytes(8 * len(KINDS)))
        env = {**os.environ, "LD_PRELOAD": self.shim, "REFUSE_COUNT": counted, "REFUSE": refuse}
        with open(stdin or os.devnull, "rb") as file:
            done = subprocess.run([program, *words], stdin=file, capture_output=True, env=env, timeout=60)
        with open(counted, "rb") as file:
            return done, dict(zip(KINDS, struct.unpack(f"<{len(KINDS)}Q", file.read())))


def is_report(text: str) -> bool:
    """Whether it is the whole report of a run, behind its journal, which is sound, with no session's fault but of memory or of a read."""
    lines = text.split("\n")
    faults = [line.split()[3] for line in lines if line.startswith("stream ") and " fault " in line]
    return "journal ok" in lines and text.endswith("\n") and set(faults) <= {"5", "7"}


def has_all(text: str, whole: str) -> bool:
    """Whether a report tells of the same pieces as the undisturbed run's, if no session found memory lacking."""
    told = [line for line in text.split("\n") if line.split(" ")[0] in ("pieces", "had", "missing", "complete")]
    lacking = any(re.fullmatch(r"stream \d+ fault 7", line) for line in text.split("\n"))
    return lacking or not told or all(line in whole.split("\n") for line in told)


def is_front(text: str, whole: str) -> bool:
    return whole.startswith(text) and (text == "" or text.endswith("\n"))


def judge_memory(words: list[str], status: int, first: str, out: str, whole: str) -> str | None:
    """The same where an allocation was refused."""
    is_run = words[0] in ("serial", "run")
    if status == 5 and first == "no thread" and words[0] == "run":
        return None if out == "" else "printed without a thread"
    if status == 5 and first == "memory":
        if is_run:
            # The last line is missing where there was no memory to judge the journal by.
            if out != "" and not is_report(out) and not is_report(out + "journal ok\n"):
                return "a report that isn't whole"
            return None if has_all(out, whole) else "a check that was given up is lacking"
        return None if is_front(out, whole) else "no front of the output"
    return f"status {status}, {first}"


def judge(kind: str, words: list[str], done: subprocess.CompletedProcess[bytes], whole: subprocess.CompletedProcess[bytes]) -> str | None:
    """What is wrong with a run in which one call was refused, or None."""
    status, out, err = done.returncode, done.stdout.decode(), done.stderr.decode()
    first = err.split("\n")[0]
    if status < 0:
        return f"signal {-status}"
    if kind == "thread":
        return None if (status, out, err) == (5, "", "no thread\n") else f"status {status}, {first}"
    if kind == "alloc" and (status, err) == (whole.returncode, ""):
        # It did without, as where less room than was asked for would do.
        return None if out == whole.stdout.decode() else "another output"
    if kind == "alloc":
        return judge_memory(words, status, first, out, whole.stdout.decode())
    if status == 4 and first == "file fault" and len(err.split("\n")) == 3:
        return None if kind == "read" or whole.stdout.decode().startswith(out) else "no front of the output"
    if kind == "read" and status in (0, 1) and words[0] in ("serial", "run"):
        return None if is_report(out) else "a report that isn't whole"
    return f"status {status}, {first}"


def refuse_each(trial: Trial, name: str, kind: str, words: list[str], stdin: str | None) -> tuple[int, int]:
    """Refuses each call of the kind in turn. How many were refused, and how many runs went wrong."""
    wrong = call = 0
    whole, _ = trial.run(words, stdin, "")
    while True:
        call += 1
        try:
            done, made = trial.run(words, stdin, f"{kind}:{call}")
        except subprocess.TimeoutExpired:
            wrong += 1
            print(f"{name}, {kind} {call}: no end within a minute")
            continue
        if made[kind] < call:
            return call - 1, wrong
        fault = judge(kind, words, done, whole)
        if fault:
            wrong += 1
            print(f"{name}, {kind} {call}: {fault}")


def try_commands(trial: Trial, folder: str, runs: int) -> int:
    """How many runs of the program went wrong."""
    wrong = 0
    for name, words, stdin in commands(folder):
        refused = dict.fromkeys(KINDS, 0)
        for kind in KINDS:
            for _ in range(runs if words[0] == "run" else 1):
                count, faulty = refuse_each(trial, name, kind, words, stdin)
                refused[kind] += count
                wrong += faulty
        print(f"{name}: " + ", ".join(f"{refused[kind]} {kind}s refused" for kind in KINDS))
    return wrong


def judge_test(done: subprocess.CompletedProcess[bytes]) -> str | None:
    """What is wrong with a run of a test, or None."""
    err = done.stderr.decode()
    return None if done.returncode == 0 or NO_MEMORY.fullmatch(err) else f"status {done.returncode}, {err.strip()}"


def refuse_in_test(trial: Trial, program: str, test: str) -> tuple[int, int]:
    """How many allocations were refused, and how many runs went wrong."""
    wrong = call = 0
    while True:
        call += 1
        done, made = trial.run([test], None, f"alloc:{call}", program)
        if made["alloc"] < call:
            return call - 1, wrong
        fault = judge_test(done)
        if fault:
            wrong += 1
            print(f"{test}, alloc {call}: {fault}")


def try_tests(trial: Trial, crates: Sequence[str]) -> int:
    """How many runs of tests went wrong."""
    wrong = 0
    for crate in crates:
        program = os.path.join(ROOT, f"crates/{crate}/out/{crate}_tests")
        listed = subprocess.run([program, "--list"], capture_output=True, check=True).stdout.decode()
        tests = [test for test in re.findall(r"tests::[\w:]+\w", listed) if test != LONG]
        with concurrent.futures.ThreadPoolExecutor(os.cpu_count()) as pool:
            tried = list(pool.map(lambda test: refuse_in_test(trial, program, test), tests))
        print(f"{crate}: {len(tests)} tests, {sum(refused for refused, _ in tried):,} allocations refused")
        wrong += sum(faulty for _, faulty in tried)
    return wrong


def main() -> int:
    words = sys.argv[1:]
    with tempfile.TemporaryDirectory() as folder:
        trial = Trial(folder)
        if words[:1] == ["tests"]:
            wrong = try_tests(trial, words[1:] or TESTED)
        else:
            wrong = try_commands(trial, folder, int(words[0]) if words else 1)
    print("all ends are clear" if wrong == 0 else f"{wrong} ends are not clear")
    return 1 if wrong else 0


if __name__ == "__main__":
    sys.exit(main())
