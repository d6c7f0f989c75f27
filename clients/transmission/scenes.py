#!/usr/bin/env python3
"""Compares two builds of transmission-daemon, one with its own picker and one with ours, in scenes on small networks.

usage: scenes.py BUILDS [--times N] [--work FOLDER] [--json FILE] [NAME ..]        (--list names the scenes)

BUILDS is the folder that build.sh filled. Each scene is run by both builds in alternation, N times (5), or the scenes that are named. Who is first
in one round is last in the next, since the disk is busier then. Each content is compared by SHA-1. A line for each build has the medians: seconds
from the first byte on, megabytes that were resident at most, seconds of processor time, megabytes that came twice, and how many copies left the
seeders. Nothing leaves the machine. It has to be run as root.
"""

from __future__ import annotations

import argparse
import json
import shutil
import signal
import statistics
import sys
import tempfile
import time
from collections.abc import Iterator
from dataclasses import asdict
from pathlib import Path

from daemon import READY
from network import Line
from trial import MEGABYTE, Content, Figures, Host, Scene, Store, Trial, trial_of

MB = int(MEGABYTE)
DAEMONS = {"own": "own/daemon/transmission-daemon", "ours": "ours/daemon/transmission-daemon"}


def seeds(count: int, rate: float, delay: float = 0.025) -> tuple[Host, ...]:
    """So many seeders of one rate."""
    return (Host("seed", Line(rate, delay)),) * count


LEECH = (Host("leech"),)
FILES = Content((40 * MB, 40 * MB, 40 * MB))


def stop_and_start(trial: Trial) -> None:
    """The download is stopped at its half, and started again."""
    leecher = trial.leechers[0]
    trial.waits_for(0.5)
    leecher.call("torrent-stop", ids=[1])
    had = trial.had(leecher)
    time.sleep(2.0)
    leecher.call("torrent-start", ids=[1])
    tell_lost(trial, had)


def kill_and_start(trial: Trial) -> None:
    """The leecher is killed at its half, and started again."""
    leecher = trial.leechers[0]
    trial.waits_for(0.5)
    had = trial.had(leecher)
    leecher.stop(signal.SIGKILL)
    leecher.start(trial.scene.settings)
    tell_lost(trial, had)


def tell_lost(trial: Trial, had: int) -> None:
    """How much of what the first leecher had it doesn't know of any more. All of that comes twice, whatever the picker does."""
    leecher = trial.leechers[0]
    trial.until(lambda: "haveValid" in leecher.fields("haveValid"), READY)
    trial.figures.more["lost, MB"] = (had - trial.had(leecher)) / MEGABYTE


def deselect_and_select(trial: Trial) -> None:
    """At a fifth the last file is deselected, and selected again once the other ones are there."""
    leecher = trial.leechers[0]
    trial.waits_for(0.2)
    leecher.change(**{"files-unwanted": [2]})
    trial.until(lambda: trial.is_done(leecher), trial.scene.longest)
    trial.figures.more["seconds of the others"] = time.monotonic() - trial.began
    trial.figures.more["of the deselected file, MB"] = leecher.fields("files")["files"][2]["bytesCompleted"] / MEGABYTE
    leecher.change(**{"files-wanted": [2]})


def read_in_order(trial: Trial) -> None:
    """At the half it is counted how many of the pieces are at the front."""
    trial.waits_for(0.5)
    pieces = trial.pieces()
    trial.figures.more["from the front at half, of 100"] = 100.0 * (pieces + [False]).index(False) / max(1, sum(pieces))


SLOW = seeds(3, 4e6) + seeds(1, 4e5)
SCENES = {
    "delay": Scene("one seeder with 50 ms there and back", seeds(1, 0.0) + LEECH, Content((200 * MB,))),
    "slow": Scene("one slow of four seeders, 50 ms", SLOW + LEECH, Content((150 * MB,))),
    "twelve": Scene("twelve slow seeders, 50 ms", seeds(12, 8e5) + LEECH, Content((120 * MB,))),
    "swarm": Scene(
        "a seeder of 1 MB/s and eight leechers of 2 MB/s, 20 ms", seeds(1, 1e6, 0.01) + (Host("leech", Line(2e6, 0.01)),) * 8, Content((32 * MB,)),
        programs=("own", "ours", "both"),
    ),
    "two": Scene("a seeder of 2 MB/s and two that feed each other", seeds(1, 2e6, 0.01) + (Host("leech", Line(4e6, 0.01)),) * 2, Content((48 * MB,))),
    "spoiler": Scene("a spoiler and two seeders", seeds(2, 4e6) + (Host("spoiler", Line(4e6, 0.025)),) + LEECH, Content((64 * MB,))),
    "files": Scene("a file deselected and selected", seeds(2, 4e6) + LEECH, FILES, act=deselect_and_select),
    "stop": Scene("stopped and started", seeds(2, 4e6) + LEECH, Content((80 * MB,)), act=stop_and_start),
    "kill": Scene("killed and started", seeds(2, 4e6) + LEECH, Content((80 * MB,)), act=kill_and_start),
    "order": Scene(
        "in order, one slow of four", SLOW + LEECH, Content((150 * MB,)), act=read_in_order, settings={"sequential_download": True}
    ),
    "large": Scene("3 GiB, one seeder with no delay", (Host("seed"),) + LEECH, Content((3 << 30,), 1 << 20), packet=65000),
    "magnet": Scene("16 MB from two seeders, by a magnet link", seeds(2, 4e6, 0.005) + LEECH, Content((16 * MB,)), by_link=True),
    "quick": Scene("16 MB from two seeders", seeds(2, 4e6, 0.005) + LEECH, Content((16 * MB,))),
}  # fmt: skip


def line_of(name: str, who: str, runs: list[Figures], times: int) -> str:
    """The medians of some runs."""
    well = [run for run in runs if run.is_well]
    if not well:
        return f"{name:<8} {who:<5} none of {times} was well"
    seconds = sorted(run.seconds for run in well)
    told = f"{name:<8} {who:<5} {len(well)} of {times} well  {statistics.median(seconds):6.2f} s ({seconds[0]:.2f} to {seconds[-1]:.2f})"
    for unit, values in (
        ("MB", [run.megabytes for run in well]), ("s of processor", [run.processor for run in well]),
        ("MB twice", [run.twice for run in well]), ("copies", [run.seeded for run in well]),
    ):  # fmt: skip
        told += f"  {statistics.median(values):.2f} {unit}"
    for more in well[0].more:
        told += f"  {more}: {statistics.median(run.more[more] for run in well):.2f}"
    return told


def run_once(name: str, store: Store, programs: dict[str, Path], who: str, folder: Path) -> Figures:
    """One run of a scene. One that fails is told, and counts as not well."""
    try:
        with trial_of(SCENES[name], store, programs, who, folder) as trial:
            return trial.run()
    except (RuntimeError, OSError) as fault:
        print(f"{name} {who}: {fault}", file=sys.stderr)
        return Figures()


def run_scene(name: str, arguments: argparse.Namespace, work: Path) -> Iterator[tuple[str, Figures]]:
    """All runs of a scene."""
    scene = SCENES[name]
    programs = {who: (arguments.builds / path).resolve() for who, path in DAEMONS.items()}
    store = Store(scene.content, work / name, len(scene.hosts))
    for number in range(arguments.times):
        for who in scene.programs if number % 2 == 0 else scene.programs[::-1]:
            figures = run_once(name, store, programs, who, work / f"{name}-{who}-{number}")
            print(f"  {line_of(name, who, [figures], 1)}", flush=True)
            yield who, figures
    shutil.rmtree(work / name)


def main() -> int:
    """Runs what the command line says; 0 where all runs were well."""
    parser = argparse.ArgumentParser(description=__doc__, formatter_class=argparse.RawDescriptionHelpFormatter)
    parser.add_argument("builds", type=Path, nargs="?")
    parser.add_argument("names", nargs="*", choices=[*SCENES, []], metavar="NAME")
    parser.add_argument("--times", type=int, default=5)
    parser.add_argument("--work", type=Path)
    parser.add_argument("--json", type=Path)
    parser.add_argument("--list", action="store_true")
    arguments = parser.parse_args()
    if arguments.list or not arguments.builds:
        for name, scene in SCENES.items():
            print(f"{name:<8} {scene.about}")
        return 0
    results: dict[str, dict[str, list[Figures]]] = {}
    with tempfile.TemporaryDirectory(dir=arguments.work) as work:
        for name in arguments.names or [name for name in SCENES if name not in ("magnet", "quick")]:
            results[name] = {who: [] for who in SCENES[name].programs}
            for who, figures in run_scene(name, arguments, Path(work)):
                results[name][who].append(figures)
            for who, runs in results[name].items():
                print(line_of(name, who, runs, arguments.times), flush=True)
            if arguments.json:
                told = {name: {who: [asdict(run) for run in runs] for who, runs in by.items()} for name, by in results.items()}
                arguments.json.write_text(json.dumps(told, indent=1), encoding="ascii")
    return 0 if all(run.is_well for by in results.values() for runs in by.values() for run in runs) else 1


if __name__ == "__main__":
    sys.exit(main())
