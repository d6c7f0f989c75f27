#!/usr/bin/env python3
"""Makes the folder `release`, by which program and library are used with no toolchain, or compares it with what the sources give.

    tools/release.py --verify    each file is the one that release/MANIFEST lists, and there is no other; no toolchain is needed
    tools/release.py --check     the same, and what this toolchain builds from its sources is the same bit for bit
    tools/release.py --make      proves and builds all, and writes the folder anew

The folder has the program for x86-64, and the library for x86-64 and aarch64, with headers and what pkg-config and CMake read. It has the
libraries packed too, and the Python wheels. MANIFEST says of which sources these are (tools/sources.sh), by which toolchain, and the SHA-256
of each file. `sha256sum -c MANIFEST` takes it. The status is 1 where something differs, and each file that does is named.
"""

from __future__ import annotations

import argparse
import hashlib
import os
import shutil
import subprocess
import sys
import tempfile
from collections.abc import Iterable
from pathlib import Path

ROOT = Path(__file__).resolve().parent.parent
RELEASE = ROOT / "release"
MACHINE = "x86_64-linux"  # of the program
PROCESSORS = ("x86_64", "aarch64")  # of the library
LEVEL = "x86-64-v2"  # of the processor: what any machine of the last ten years has
MANIFEST = "MANIFEST"
KINDS = ("program", "library")  # of sources


class Fault(Exception):
    """What keeps a release from being made; the text is for the user."""


def run(*words: str | Path, folder: Path = ROOT, **environment: str) -> str:
    """Runs a command, and gives what it prints. Raises Fault where it fails, with the end of what it told."""
    told = subprocess.run([str(word) for word in words], cwd=folder, env={**os.environ, **environment}, capture_output=True, text=True)
    if told.returncode != 0:
        end = "\n".join((told.stdout + told.stderr).splitlines()[-20:])
        raise Fault(f"{words[0]} failed:\n{end}")
    return told.stdout


def sources(kind: str) -> str:
    """The checksum of what the program, or the library, is made of."""
    return run(ROOT / "tools/sources.sh", kind).strip()


def toolchain() -> str:
    """The line by which the toolchain names itself."""
    return run("rt", "version").strip()


def build_program(stage: Path) -> None:
    """The program, for the least processor. The one that was built here for this processor has to be built anew then."""
    folder = ROOT / "crates/piecepick"
    (folder / "out/piecepick.sources").unlink(missing_ok=True)
    run(ROOT / "tools/build.py", "piecepick", "--cpu", LEVEL)
    (stage / "bin").mkdir()
    shutil.copy(folder / "out/piecepick", stage / "bin/piecepick")


def build_library(folder: Path, processor: str) -> None:
    """The library for a processor as it is installed, the same packed, and the Python package with the library in it."""
    out = ROOT / "clients/out" if processor == PROCESSORS[0] else ROOT / "clients/out" / processor
    run(ROOT / "clients/build.sh", processor, PIECEPICK_FLAGS="")
    run(ROOT / "clients/dist.sh", PIECEPICK_OUT=str(out))
    version = run(ROOT / "clients/install.sh", "--version", PIECEPICK_OUT=str(out)).strip()
    packed = out / f"piecepick-{version}-{processor}-linux.tar.gz"
    stage = folder / f"{processor}-linux"
    stage.mkdir(exist_ok=True)
    run("tar", "--extract", f"--file={packed}", f"--directory={stage}", "--strip-components=1")
    for path in stage.rglob("*"):
        if path.is_symlink():
            # `rt ci` takes no links in the repository.
            target = path.resolve()
            path.unlink()
            shutil.copy(target, path)
    shutil.copy(packed, folder)
    code = f"import backend; backend.build_wheel({str(folder)!r})"
    run(sys.executable, "-B", "-c", code, folder=ROOT / "clients/python", PIECEPICK_LIBRARY=str(out / "libpiecepick.so"))


def lacks_compiler(processor: str) -> bool:
    """Whether the cross compiler for a processor is lacking."""
    return processor != PROCESSORS[0] and not shutil.which(f"{processor}-linux-gnu-gcc")


def build(folder: Path, processors: Iterable[str]) -> None:
    """Makes a release in an empty folder, with the library for these processors."""
    heads = [f"toolchain {toolchain()}", *(f"{kind}-sources {sources(kind)}" for kind in KINDS)]
    stage = folder / MACHINE
    stage.mkdir()
    build_program(stage)
    for processor in processors:
        build_library(folder, processor)
    lines = [f"# {head}" for head in heads] + [f"{digest}  {name}" for name, digest in digests(folder).items()]
    (folder / MANIFEST).write_text("\n".join(lines) + "\n", encoding="utf-8")


def digests(folder: Path) -> dict[str, str]:
    """The SHA-256 of each file of the folder but for MANIFEST, by its name."""
    names = sorted(str(path.relative_to(folder)) for path in folder.rglob("*") if path.is_file() and path.name != MANIFEST)
    return {name: hashlib.sha256((folder / name).read_bytes()).hexdigest() for name in names}


def listed(folder: Path) -> tuple[dict[str, str], dict[str, str]]:
    """What MANIFEST says of the whole, and of each file. Raises Fault where there is none."""
    try:
        lines = (folder / MANIFEST).read_text(encoding="utf-8").splitlines()
    except OSError as error:
        raise Fault(f"there is no {folder / MANIFEST}") from error
    heads = dict(line[2:].split(" ", 1) for line in lines if line.startswith("# "))
    files = {name: digest for digest, name in (line.split("  ", 1) for line in lines if not line.startswith("#"))}
    return heads, files


def compare(found: dict[str, str], wanted: dict[str, str], what: str) -> bool:
    """Names each file that isn't the same in both; whether there is none."""
    different = sorted(name for name in found.keys() | wanted.keys() if found.get(name) != wanted.get(name))
    for name in different:
        fault = "isn't there" if name not in found else "is in no list" if name not in wanted else "differs"
        print(f"release: {name} {fault} ({what})")
    return not different


def verify() -> bool:
    """The release is whole, whatever its sources are."""
    heads, files = listed(RELEASE)
    is_well = compare(digests(RELEASE), files, MANIFEST)
    for kind in KINDS:
        is_of_these = heads.get(f"{kind}-sources") == sources(kind)
        print(f"release: the {kind} is of {'these' if is_of_these else 'other'} sources")
    return is_well


def check() -> bool:
    """The release is what its sources give. Where these are others, or the toolchain is, there is nothing to compare: it has to be whole."""
    is_well = verify()
    heads, _ = listed(RELEASE)
    if any(heads.get(f"{kind}-sources") != sources(kind) for kind in KINDS):
        print("release: it isn't built here, since its sources are others")
        return is_well
    here = toolchain()
    if here != heads.get("toolchain"):
        print(f"release: it isn't built here, since it is by {heads.get('toolchain')}, and here is {here}")
        return is_well
    left_out = [processor for processor in PROCESSORS if lacks_compiler(processor)]
    for processor in left_out:
        print(f"release: what is for {processor} is passed over, since there is no {processor}-linux-gnu-gcc here")
    with tempfile.TemporaryDirectory() as folder:
        build(Path(folder), [processor for processor in PROCESSORS if processor not in left_out])
        _, files = listed(Path(folder))
        found = {name: digest for name, digest in digests(RELEASE).items() if not any(processor in name for processor in left_out)}
        return compare(found, files, "what is built here") and is_well


def make() -> bool:
    """Writes the release anew."""
    with tempfile.TemporaryDirectory() as folder:
        build(Path(folder), PROCESSORS)
        Path(folder).chmod(0o755)
        shutil.rmtree(RELEASE, ignore_errors=True)
        shutil.copytree(folder, RELEASE)
    return verify()


def main() -> int:
    words = argparse.ArgumentParser(description="Makes the folder `release`, or compares it.")
    which = words.add_mutually_exclusive_group(required=True)
    for name, action in (("--verify", verify), ("--check", check), ("--make", make)):
        which.add_argument(name, action="store_const", const=action, dest="action", help=(action.__doc__ or "").strip())
    try:
        is_well = words.parse_args().action()
    except Fault as fault:
        print(f"release: {fault}", file=sys.stderr)
        return 1
    print("release: well" if is_well else "release: not well")
    return 0 if is_well else 1


if __name__ == "__main__":
    sys.exit(main())
