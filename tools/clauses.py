#!/usr/bin/env python3
"""Lists the clauses of all public functions, or compares them with such a list.

    tools/clauses.py                 a line for each clause: crate, function, kind, and the clause in one line
    tools/clauses.py --against FILE  those that FILE has and the sources lack, and the other way round

A function is named by its crate, the type or trait that it belongs to, and its name. The module isn't told, so a function that moves to
another file of its crate is the same. A public function of a private module is listed too. Before a crate is cut anew, keep the list.
Afterwards the status is 1 where a clause of it is gone: then either a contract is weaker, or a name in it has changed.
"""

from __future__ import annotations

import argparse
import re
import sys
from collections.abc import Iterator
from pathlib import Path

ROOT = Path(__file__).resolve().parent.parent
OWNER = re.compile(r"^(?:unsafe )?(?:impl|pub trait|trait)\b(?P<rest>.*)")
FUNCTION = re.compile(r"^\s*pub(?P<scope>\([a-z]+\))? (?:const |unsafe |extern \"C\" )*fn (?P<name>\w+)")
CLAUSE = re.compile(r"^\s*(?:requires|ensures)\b")


def owner_of(rest: str) -> str:
    """The type that an impl is for, or the name of a trait."""
    rest = re.sub(r"^<[^{]*?>\s", "", rest).split(" where ")[0].split("{")[0].strip()
    return re.sub(r"<.*", "", rest.split(" for ")[-1]).strip()


def clauses_of(path: Path, crate: str) -> Iterator[str]:
    """The clauses of the public functions of one file, each as one line."""
    owner = ""
    function: str | None = None
    clause: str | None = None
    for line in path.read_text(encoding="utf-8").split("\n"):
        bare = line.strip()
        if not line.startswith(" ") and (found := OWNER.match(line)):
            owner = owner_of(found["rest"])
        elif line.startswith("}"):
            owner = ""
        if found := FUNCTION.match(line):
            function = None if found["scope"] else "::".join(filter(None, (crate, owner if line.startswith(" ") else "", found["name"])))
        elif re.match(r"^\s*(?:unsafe )?fn \w", line):
            function = None
        if function is None:
            continue
        if clause is not None:
            clause += " " + bare
        elif CLAUSE.match(line):
            clause = bare
        if clause is not None and clause.count("{") == clause.count("}") > 0:
            yield f"{function}: {re.sub(r' +', ' ', clause)}"
            clause = None
        if bare == "{":
            function = None


def clauses() -> list[str]:
    """Those of all crates, sorted."""
    found: list[str] = []
    for source in sorted((ROOT / "crates").glob("*/src")):
        for path in sorted(source.rglob("*.rt")):
            found += clauses_of(path, source.parent.name)
    return sorted(found)


def main() -> None:
    words = argparse.ArgumentParser(description=__doc__.splitlines()[0])
    words.add_argument("--against", metavar="FILE")
    asked = words.parse_args()
    now = clauses()
    if asked.against is None:
        print("\n".join(now))
        return
    before = Path(asked.against).read_text(encoding="utf-8").splitlines()
    lost, gained = sorted(set(before) - set(now)), sorted(set(now) - set(before))
    print("\n".join([f"- {line}" for line in lost] + [f"+ {line}" for line in gained] + [f"{len(lost)} gone, {len(gained)} new"]))
    sys.exit(1 if lost else 0)


if __name__ == "__main__":
    main()
