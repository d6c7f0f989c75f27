"""Where a download goes: what the user named, or the torrent's own name."""

from __future__ import annotations

import os

from .layout import Layout, safe_path

STATE_SUFFIX = ".piecepick"
PART_SUFFIX = ".part"


def root_of(out: str, name: bytes, layout: Layout, is_folder: bool) -> str:
    """The file or the folder of the download. Empty is the torrent's own name in this folder. Raises MetainfoFault where that isn't safe.

    A folder that is there takes the torrent's name inside. But it is the torrent's own folder where an earlier run has begun there.
    """
    if not out:
        return safe_path([name])
    is_place = out.endswith(os.sep) or (os.path.isdir(out) and not (is_folder and _is_begun(out, layout)))
    return os.path.join(out, safe_path([name])) if is_place else out


def _is_begun(folder: str, layout: Layout) -> bool:
    """Whether the state file of the folder is there, or in it a file of the torrent with its right length."""
    if os.path.exists(folder + STATE_SUFFIX):
        return True
    for file in layout.files:
        path = os.path.join(folder, file.path)
        if file.length and any(_length_of(path + suffix) == file.length for suffix in ("", PART_SUFFIX)):
            return True
    return False


def _length_of(path: str) -> int:
    """The bytes of a file, or -1 where there is none."""
    try:
        return os.path.getsize(path) if os.path.isfile(path) else -1
    except OSError:
        return -1
