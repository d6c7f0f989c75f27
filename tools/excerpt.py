#!/usr/bin/env python3
"""Puts regions of source files into the pages, so that what a page shows is what is compiled and run. With --check it only says which differ.

    tools/excerpt.py [--check] [PAGE ..]

Goes over all pages of the repository where none is given. A page has a line `<!-- excerpt: FILE NAME .. -->`, and somewhere below it a line
`<!-- end of excerpt -->`. What stands between the two is replaced by a block of code with the regions of FILE, in the order of their names. A
blank line parts them. A region is one of these:

- the lines between a comment `excerpt: NAME` and the next comment `end of excerpt`, where FILE has them;
- else the function NAME of a .rt, .rs, .c or .h file, from the comment above it to the closing brace at the indent of its first line;
- else the definition NAME of an .antt file, from the comment above it to the next blank line.

Spaces that all lines of a region begin with are left out. With --check no page is written, and the status is 1 where one isn't as its files.
"""

from __future__ import annotations

import argparse
import re
import subprocess
import sys
import textwrap
from pathlib import Path

ROOT = Path(__file__).resolve().parent.parent
PLACE = re.compile(r"^<!-- excerpt: (\S+) ([^>]*?) -->\n(.*?)^<!-- end of excerpt -->$", re.S | re.M)
LANGUAGES = {".rt": "rust", ".rs": "rust", ".c": "c", ".h": "c", ".cpp": "cpp", ".hpp": "cpp", ".py": "python", ".sh": "sh"}


def comment_above(lines: list[str], first: int) -> int:
    """The first line of the comment right above this line, or this line itself."""
    while first > 0:
        above = lines[first - 1].strip()
        start = first - 1
        if above.endswith("*/"):
            while start > 0 and "/*" not in lines[start]:
                start -= 1
        if not lines[start].lstrip().startswith(("///", "#[", "/*")):
            break
        first = start
    return first


def marked(lines: list[str], name: str) -> list[str] | None:
    """The lines between the comments of this name, or None."""
    for first, line in enumerate(lines):
        if re.search(rf"excerpt: {re.escape(name)}(\W|$)", line):
            rest = lines[first + 1 :]
            for count, line in enumerate(rest):
                if "end of excerpt" in line:
                    return rest[:count]
    return None


def function(lines: list[str], name: str) -> list[str] | None:
    """The lines of the function of this name with its comment, or None. A declaration is no function."""
    heads = (re.compile(rf"( *)(pub )?fn {re.escape(name)}\b"), re.compile(rf"()[A-Za-z].*\b{re.escape(name)}\([^;]*$"))
    for first, line in enumerate(lines):
        head = next((found for found in (head.match(line) for head in heads) if found), None)
        if head:
            last = next((at for at in range(first, len(lines)) if lines[at] == head.group(1) + "}"), None)
            if last is not None:
                return lines[comment_above(lines, first) : last + 1]
    return None


def definition(lines: list[str], name: str) -> list[str] | None:
    """The lines of the definition of this name in formal words, with its comment, or None."""
    head = re.compile(rf"(abbrev |unfoldable )?(pub )?{re.escape(name)} :")
    for first, line in enumerate(lines):
        if head.match(line):
            begin = first
            while begin > 0 and lines[begin - 1].startswith("--"):
                begin -= 1
            end = next((at for at in range(first, len(lines)) if not lines[at]), len(lines))
            return lines[begin:end]
    return None


def excerpt(file: str, names: list[str]) -> str:
    """The block of code that the page shows of the file."""
    path = ROOT / file
    if not path.is_file():
        raise LookupError(f"there is no file {file}")
    lines = path.read_text(encoding="utf-8").splitlines()
    regions = []
    for name in names:
        region = marked(lines, name) or function(lines, name) or definition(lines, name)
        if not region:
            raise LookupError(f"{file} has no region, no function and no definition {name}")
        regions.append(textwrap.dedent("\n".join(region)).strip("\n"))
    return f"```{LANGUAGES.get(path.suffix, '')}\n" + "\n\n".join(regions) + "\n```\n"


def current(text: str) -> str:
    """The page as its files have it."""
    return PLACE.sub(lambda place: f"<!-- excerpt: {place[1]} {place[2]} -->\n{excerpt(place[1], place[2].split())}<!-- end of excerpt -->", text)


def pages(names: list[str]) -> list[Path]:
    if names:
        return [Path(name).resolve() for name in names]
    listed = subprocess.run(["git", "ls-files", "*.md"], cwd=ROOT, capture_output=True, text=True, check=True).stdout.split()
    return [ROOT / name for name in listed]


def main() -> None:
    words = argparse.ArgumentParser(description=__doc__.split("\n")[0])
    words.add_argument("--check", action="store_true", help="write nothing; status 1 where a page isn't as its files")
    words.add_argument("pages", nargs="*", metavar="PAGE")
    options = words.parse_args()
    is_well = True
    for page in pages(options.pages):
        name = page.relative_to(ROOT) if page.is_relative_to(ROOT) else page
        text = page.read_text(encoding="utf-8")
        if len(PLACE.findall(text)) != len(re.findall(r"^<!-- excerpt: ", text, flags=re.M)):
            sys.exit(f"{name}: an excerpt has no end")
        try:
            now = current(text)
        except LookupError as lack:
            sys.exit(f"{name}: {lack.args[0]}")
        if now != text and options.check:
            print(f"{name}: an excerpt isn't as in its file")
            is_well = False
        elif now != text:
            page.write_text(now, encoding="utf-8")
            print(f"{name}: written")
    sys.exit(0 if is_well else 1)


if __name__ == "__main__":
    main()
