"""Builds the wheel (PEP 517) with no other package and no network: the package, and the shared object that clients/build.sh has built.

The same files give the same bytes, whatever the folder and the time. It takes Python 3.11; the wheel itself runs with older ones.
"""

from __future__ import annotations

import base64
import hashlib
import os
import platform
import tomllib
import zipfile
from pathlib import Path
from typing import Any

HERE = Path(__file__).resolve().parent
LIBRARY = "libpiecepick.so"
MACHINES = {62: "x86_64", 183: "aarch64"}  # e_machine of an ELF file
BEGINNING = (1980, 1, 1, 0, 0, 0)  # of the time that a zip file knows


class UnsupportedOperation(Exception):
    """What this backend doesn't do."""


def _library() -> bytes:
    """The library that the environment names; else that of the checkout, built there or in its release."""
    named = os.environ.get("PIECEPICK_LIBRARY")
    for path in [Path(named)] if named else [HERE.parent / "out" / LIBRARY, HERE.parents[1] / f"release/{platform.machine()}-linux/lib" / LIBRARY]:
        if path.exists():
            return path.read_bytes()
    raise FileNotFoundError(f"there is no {named or LIBRARY}: clients/build.sh builds it, or PIECEPICK_LIBRARY names another one")


def _tag(library: bytes) -> str:
    """The library takes nothing but malloc, realloc, free and the like from libc, which any glibc of the last ten years has."""
    return f"py3-none-manylinux2014_{MACHINES[int.from_bytes(library[18:20], 'little')]}"


def _metadata(project: dict[str, Any]) -> str:
    heads = {
        "Metadata-Version": "2.1",
        "Name": project["name"],
        "Version": project["version"],
        "Summary": project["description"],
        "Requires-Python": project["requires-python"],
        "Description-Content-Type": "text/markdown",
    }
    return "".join(f"{name}: {value}\n" for name, value in heads.items()) + "\n" + Path(HERE, project["readme"]).read_text()


def _record(files: dict[str, bytes], name: str) -> str:
    lines = []
    for path, data in files.items():
        digest = base64.urlsafe_b64encode(hashlib.sha256(data).digest()).rstrip(b"=").decode()
        lines.append(f"{path},sha256={digest},{len(data)}\n")
    return "".join(lines) + f"{name},,\n"


def _files(project: dict[str, Any], library: bytes, tag: str) -> dict[str, bytes]:
    """All that the wheel has, in its order."""
    package = HERE / "piecepick"
    files = {f"piecepick/{path.name}": path.read_bytes() for path in sorted(package.iterdir()) if path.suffix in (".py", ".typed")}
    files["piecepick/" + LIBRARY] = library
    info = f"{project['name']}-{project['version']}.dist-info"
    files[info + "/METADATA"] = _metadata(project).encode()
    files[info + "/WHEEL"] = f"Wheel-Version: 1.0\nGenerator: piecepick\nRoot-Is-Purelib: false\nTag: {tag}\n".encode()
    files[info + "/RECORD"] = _record(files, info + "/RECORD").encode()
    return files


def build_wheel(wheel_directory: str, config_settings: Any = None, metadata_directory: str | None = None) -> str:
    """Writes the wheel, and gives its name."""
    project = tomllib.loads((HERE / "pyproject.toml").read_text())["project"]
    library = _library()
    tag = _tag(library)
    name = f"{project['name']}-{project['version']}-{tag}.whl"
    with zipfile.ZipFile(Path(wheel_directory) / name, "w") as wheel:
        for path, data in _files(project, library, tag).items():
            entry = zipfile.ZipInfo(path, BEGINNING)
            entry.create_system = 3  # Unix, on which the next number counts
            entry.external_attr = 0o100644 << 16
            wheel.writestr(entry, data, zipfile.ZIP_DEFLATED, 9)
    return name


def build_sdist(sdist_directory: str, config_settings: Any = None) -> str:
    """The sources are the whole repository, of which this is a folder."""
    raise UnsupportedOperation("build a wheel: the library's sources aren't in this folder")


if __name__ == "__main__":
    print(build_wheel(os.curdir))
