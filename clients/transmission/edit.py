#!/usr/bin/env python3
"""Edits Debian's source of transmission 4.1, so that it may be built with the piece picker of piecepick.

usage: edit.py SOURCE

It copies the two files `peer-mgr-piecepick.*` of this folder into the tree, and puts a few lines of ours into eight of its files. Each place is
found by some words of it, and a tree in which they aren't just once is left as it is. In files that log, a line of ours takes the place of an
empty one. So each message has the line number that it had, and without the option the programs are the same to the last bit.
"""

from __future__ import annotations

import re
import shutil
import sys
from dataclasses import dataclass
from pathlib import Path

HERE = Path(__file__).resolve().parent
LIBRARY = "libtransmission"
FILES = ("peer-mgr-piecepick.cc", "peer-mgr-piecepick.h")


@dataclass(frozen=True)
class Edit:
    """In a file the text of one group of a pattern, which is found just once, becomes another one."""

    file: str
    pattern: str
    text: str


def behind(file: str, words: str, text: str) -> Edit:
    """Lines behind the one that has these words."""
    return Edit(file, rf"{words}[^\n]*\n()", text)


def before(file: str, words: str, text: str) -> Edit:
    """Lines before the one that has these words."""
    return Edit(file, rf"\n()[^\n]*{words}", text)


def fills(file: str, words: str, text: str) -> Edit:
    """A line in place of the first empty one behind these words."""
    return Edit(file, rf"{words}(?:[^\n]*\n)+?(\n)", text)


def guarded(text: str) -> str:
    """Lines that are there with the option alone."""
    return f"#ifdef WITH_PIECEPICK\n{text}#endif\n"


WISHLIST = f"{LIBRARY}/peer-mgr-wishlist"
MANAGER = f"{LIBRARY}/peer-mgr.cc"
MESSAGES = f"{LIBRARY}/peer-msgs.cc"
BUILD = f"{LIBRARY}/CMakeLists.txt"
INCLUDE = '#include "libtransmission/peer-mgr-piecepick.h"\n'
ASK = "    tr_piecepick(if (auto spans = piecepick.next(n_wanted_blocks)) { return *std::move(spans); })\n"
TOLD = "        tr_piecepick(if (s->wishlist) { s->wishlist->piecepick.told(*PEER, event); });\n"
RECHOKE = (
    "    tr_piecepick(libtransmission::ObserverTag wanted_ = tor->priority_changed_.observe([this](auto&&...) "
    "{ if (is_running) { on_torrent_started(); } });)\n"
)
CHANGED = "            priority_changed_.emit(this, files, n_files, TR_PRI_NORMAL); // no other event tells of wanted files\n"

EDITS = (
    behind("CMakeLists.txt", r"option\(ENABLE_UTP ", 'option(ENABLE_PIECEPICK "Choose what to request by the piecepick library" OFF)\n'),
    before("CMakeLists.txt", r"find_package\(Threads\)", "if(ENABLE_PIECEPICK)\n    find_package(piecepick 1.2 REQUIRED CONFIG)\nendif()\n"),
    before(BUILD, r" peer-mgr-wishlist\.cc", "".join(f"        {name}\n" for name in FILES)),
    before(BUILD, r"\[=\[\[WITH_INOTIFY\]\]=\]", "    [=[[ENABLE_PIECEPICK]]=]\n        peer-mgr-piecepick.cc\n"),
    before(BUILD, r"<STREQUAL:\$\{CRYPTO_PKG\},ccrypto>", "        $<$<BOOL:${ENABLE_PIECEPICK}>:WITH_PIECEPICK>\n"),
    before(BUILD, r" transmission::crypto_impl", "        $<$<BOOL:${ENABLE_PIECEPICK}>:piecepick::piecepick>\n"),
    behind(f"{WISHLIST}.h", r"libtransmission/observable\.h", INCLUDE),
    before(f"{WISHLIST}.h", r"private:\n +class Impl;", "    tr_piecepick(PiecePick piecepick;)\n"),
    before(f"{WISHLIST}.cc", r"return impl_->next\(", ASK),
    fills(MANAGER, r"void remove_peer\(tr_peerMsgs", "        tr_piecepick(if (wishlist) { wishlist->piecepick.left(*peer); });\n"),
    fills(MANAGER, r"msgs->swarm == s\)", TOLD.replace("PEER", "msgs")),
    fills(MANAGER, r"static void peer_callback_webseed\(", TOLD.replace("PEER", "peer")),
    fills(MANAGER, r"ObserverTag, 8> const tags_;", RECHOKE),
    fills(MANAGER, r"GetNextRequests\(\) is called", ""),
    before(MANAGER, r"return swarm\.wishlist->next\(", "    tr_piecepick(swarm.wishlist->piecepick.ask_for(*swarm.tor, swarm.peers, *peer));\n"),
    Edit(MESSAGES, r"got unrequested block[^\n]*\n[^\n]*(ReadState::Err)", "tr_after_unwanted"),
    Edit(MESSAGES, r"got completed block[^\n]*\n[^\n]*(ReadState::Err)", "tr_after_unwanted"),
    behind(f"{LIBRARY}/peer-msgs.h", r"^#include \"libtransmission/peer-common\.h\"", INCLUDE),
    behind(f"{LIBRARY}/torrent.h", r"if \(!is_bootstrapping\)\n +\{", guarded(CHANGED)),
)


def edited(text: str, edit: Edit) -> str:
    """The text with this edit."""
    found = list(re.finditer(edit.pattern, text, re.MULTILINE))
    if len(found) != 1:
        raise SystemExit(f"edit.py: {len(found)} places in {edit.file} for {edit.pattern}")
    begin, end = found[0].span(1)
    return text[:begin] + edit.text + text[end:]


def main() -> None:
    """Edits the tree that the command line names."""
    if len(sys.argv) != 2:
        raise SystemExit(__doc__)
    tree = Path(sys.argv[1])
    texts = {edit.file: (tree / edit.file).read_text(encoding="utf-8") for edit in EDITS}
    for edit in EDITS:
        texts[edit.file] = edited(texts[edit.file], edit)
    for file, text in texts.items():
        (tree / file).write_text(text, encoding="utf-8")
    for name in FILES:
        shutil.copy(HERE / name, tree / LIBRARY / name)


if __name__ == "__main__":
    main()
