"""The shared object, loaded once."""

from __future__ import annotations

import ctypes
import os
import platform
from pathlib import Path

from . import _native

NAME = "libpiecepick.so"
RELEASE = f"release/{platform.machine()}-linux/lib"  # in the checkout
ADVICE = "clients/build.sh builds it, and the environment variable PIECEPICK_LIBRARY may name another one"


def _path() -> Path:
    """The one that the environment names; else that of the wheel; else that of the checkout, built there or in its release."""
    named = os.environ.get("PIECEPICK_LIBRARY")
    if named:
        return Path(named)
    here = Path(__file__).resolve().parent
    for place in (here / NAME, here.parents[1] / "out" / NAME, here.parents[2] / RELEASE / NAME):
        if place.exists():
            return place
    raise ImportError(f"there is no {NAME}: {ADVICE}")


def _load() -> ctypes.CDLL:
    """Compares the interface's number before any type is set: with another number no other call may be made."""
    path = _path()
    try:
        library = ctypes.CDLL(str(path))
        found = library.piecepick_abi()
    except (OSError, AttributeError) as error:
        raise ImportError(f"{path} can't be loaded ({error}): {ADVICE}") from error
    if found != _native.ABI:
        raise ImportError(f"{path} has interface {found}, and this package takes {_native.ABI}: {ADVICE}")
    for name, (result, parameters) in _native.SIGNATURES.items():
        call = getattr(library, name, None)
        if call is None:
            raise ImportError(f"{path} is older than this package, and has no {name}: {ADVICE}")
        call.restype = result
        call.argtypes = parameters
    return library


LIBRARY = _load()
