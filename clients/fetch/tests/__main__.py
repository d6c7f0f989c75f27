"""Runs the tests of the downloader, several modules at once, since they mostly wait.

    python3 -m fetch.tests [MODULE ..]      in `clients`; all modules, where none is named

A module that fails is run again alone at the end, since some tests go by the clock, and a line says so. The status is 1 where one fails then
too, and what it printed is shown.
"""

from __future__ import annotations

import subprocess
import sys
import time
from concurrent.futures import ThreadPoolExecutor
from pathlib import Path

HERE = Path(__file__).resolve().parent
CLIENTS = HERE.parent.parent
AT_ONCE = 4


def run(module: str) -> tuple[str, bool, float, str]:
    """Runs one module: its name, whether it passed, its seconds, and what it printed."""
    begin = time.monotonic()
    words = [sys.executable, "-B", "-W", "error", "-m", "unittest", f"fetch.tests.{module}"]
    done = subprocess.run(words, cwd=CLIENTS, stdin=subprocess.DEVNULL, stdout=subprocess.PIPE, stderr=subprocess.STDOUT, text=True)
    return module, done.returncode == 0, time.monotonic() - begin, done.stdout


def main() -> int:
    modules = sys.argv[1:] or sorted(path.stem for path in HERE.glob("test_*.py"))
    again: list[str] = []
    with ThreadPoolExecutor(AT_ONCE) as pool:
        for module, is_well, seconds, said in pool.map(run, modules):
            print(f"{'well' if is_well else 'again':<8} {seconds:6.1f} s  {module}", flush=True)
            if not is_well:
                again.append(module)
                print(said, flush=True)
    failed = 0
    for module, is_well, seconds, said in map(run, again):
        print(f"{'well' if is_well else 'FAILED':<8} {seconds:6.1f} s  {module}, alone" + ("" if is_well else f"\n{said}"), flush=True)
        failed += not is_well
    print(f"{len(modules)} modules, {len(again)} run again, {failed} failed", flush=True)
    return 1 if failed else 0


if __name__ == "__main__":
    sys.exit(main())
