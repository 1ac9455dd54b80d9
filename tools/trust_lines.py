"""Compares docs/reference/theorem.md with the definitions that it names.

usage: python3 tools/trust_lines.py

A row of a table names a file of definitions, some definitions in it (`all`, or `all but` some), and
how many lines these have: each from its comment to the next blank line. A last row says how many
lines the table has in all. This script compares the numbers. It also tells each definition that a
named one uses, if the page doesn't name it up to there, and no line `Below: ..` announces it. It
leaves out types that the code declares, and the standard library. A table may use its own names.
What is announced has to have a row. Statuses: 0 all agree, 1 something differs, or no file is
named.
"""
from __future__ import annotations

import itertools
import os
import re
import sys
from dataclasses import dataclass
from typing import Dict, Iterable, Iterator, List, Set, Tuple

TOP = os.path.dirname(os.path.dirname(os.path.abspath(__file__)))
ROW = re.compile(r"^\| `(crates/[^`]+\.antt)` \| ([^|]+) \| (\d+) \|")
SUM = re.compile(r"^\| in all \| \| (\d+) \|")
BELOW = re.compile(r"^Below: (.*)$")
FILE = re.compile(r"`(crates/[^`]+)`")
# A line that begins a definition, with its name.
HEAD = re.compile(r"^(?:abbrev |unfoldable )?pub (?:record |data )?([^\s:({]+)(?: .*)?$")
NAME = re.compile(r"[^\W\d]\w*(?:-\w+)*")
QUALIFIED = re.compile(r"\.\s*([^\W\d]\w*)")
IMPORT = re.compile(r"^(?:pub )?use Rattle\.(\w+)\.specs\.([\w.]+?)(?:\.\{(.*)\}| as (\w+))$")


@dataclass
class Row:
    """A row of the page: a file, the definitions that it names, and their lines."""

    path: str
    names: List[str]
    said: int


@dataclass
class Definitions:
    """The definitions of a file by name, and what names stand for that it takes from others."""

    blocks: Dict[str, List[str]]
    taken: Dict[str, str]


def is_of_repository(crate: str, module: str) -> bool:
    """Returns whether the repository has a file of this module's definitions."""
    path = os.path.join(TOP, "crates", crate, "specs", *module.split("."))
    return os.path.isfile(f"{path}.antt")


def taken_by(line: str) -> Iterator[Tuple[str, str]]:
    """Yields the names that an import of the repository's definitions gives, with their own."""
    found = IMPORT.match(line)
    if found is None or not is_of_repository(found.group(1), found.group(2)):
        return
    for part in (found.group(3) or "").split(","):
        own, _, given = part.strip().partition(" as ")
        yield given or own, own


def paragraphs_of(text: str) -> Iterator[List[str]]:
    """Yields the lines of each paragraph: what stands between blank lines."""
    for part in re.split(r"\n\s*\n", text):
        yield part.strip("\n").split("\n")


def names_in(lines: List[str]) -> Iterator[str]:
    """Yields the definitions of a paragraph. Those of a mutual one stand further right."""
    code = [line for line in lines if not line.lstrip().startswith("--")]
    is_mutual = bool(code) and (code[0].startswith(" ") or "mutual" in code[0].split())
    for line in code:
        head = HEAD.match(line[2:] if is_mutual and line.startswith("  ") else line)
        if head is not None:
            yield head.group(1)


def definitions_of(path: str) -> Definitions:
    """Returns the definitions of a file. Those of a mutual one stand under each of its names."""
    with open(os.path.join(TOP, path), encoding="utf-8") as file:
        text = file.read()
    blocks: Dict[str, List[str]] = {}
    for lines in paragraphs_of(text):
        for name in names_in(lines):
            blocks.setdefault(name, lines)
    taken = dict(pair for line in text.split("\n") for pair in taken_by(line))
    return Definitions(blocks, taken)


def used_by(lines: List[str], known: Definitions) -> Set[str]:
    """Returns the definitions of the repository that these lines use, by their own names."""
    code = "\n".join(line for line in lines if not line.lstrip().startswith("--"))
    code = re.sub(r'"[^"]*"', "", code)
    used = set()
    for name in NAME.findall(code):
        if name in known.blocks:
            used.add(name)
        elif name in known.taken:
            used.add(known.taken[name])
    return used


def faults_of(row: Row, listed: Set[str]) -> Iterator[str]:
    """Yields what is wrong with a row, if the definitions in `listed` are named up to it."""
    if not os.path.isfile(os.path.join(TOP, row.path)):
        return
    known = definitions_of(row.path)
    counted: List[List[str]] = []
    for name in row.names:
        if name not in known.blocks:
            yield f"docs/reference/theorem.md names {name} of {row.path}, which isn't there"
            continue
        lines = known.blocks[name]
        if not any(lines is other for other in counted):
            counted.append(lines)
        for used in sorted(used_by(lines, known) - listed):
            yield f"{name} of {row.path} uses {used}, which isn't named up to there"
    count = sum(len(lines) for lines in counted)
    if count != row.said:
        yield f"{row.path}: these have {count} lines, and docs/reference/theorem.md says {row.said}"


def names_told(text: str) -> List[str]:
    """Returns the names that stand between backticks."""
    return re.findall(r"`([^`]+)`", text)


def row_names(path: str, cell: str) -> List[str]:
    """Returns the definitions that a row names in its second `cell`.

    The cell is a list of names, the word `all`, or `all but` and a list of names.
    """
    names = names_told(cell)
    if not cell.strip().startswith("all") or not os.path.isfile(os.path.join(TOP, path)):
        return names
    return [name for name in definitions_of(path).blocks if name not in ("use", *names)]


def all_row_names(lines: Iterable[str]) -> Iterator[str]:
    """Yields the names of all rows among these lines."""
    for line in lines:
        found = ROW.match(line)
        if found is not None:
            yield from row_names(found.group(1), found.group(2))


def section_of(lines: List[str]) -> List[str]:
    """Returns the lines up to the next heading."""
    return list(itertools.takewhile(lambda line: not line.startswith("#"), lines))


def faults_of_page(lines: List[str]) -> Iterator[str]:
    """Yields what is wrong with the page of these lines."""
    named: Set[str] = set()
    below: Set[str] = set()
    total = 0
    for place, line in enumerate(lines):
        found, last, later = ROW.match(line), SUM.match(line), BELOW.match(line)
        if later is not None:
            below.update(names_told(later.group(1)))
        if found is not None:
            path, cell, said = found.groups()
            row = Row(path, row_names(path, cell), int(said))
            total += row.said
            yield from faults_of(row, named | below)
        if last is not None and int(last.group(1)) != total:
            other = f"docs/reference/theorem.md says {last.group(1)}"
            yield f"a table has {total} lines in all, and {other}"
        if line.startswith("#"):
            total = 0
            named.update(all_row_names(section_of(lines[place + 1 :])))
        named.update(names_told(line))
        for path in FILE.findall(line):
            if not os.path.isfile(os.path.join(TOP, path)):
                yield f"docs/reference/theorem.md names {path}, which isn't there"
    for name in sorted(below - set(all_row_names(lines))):
        yield f"{name} is announced, and no row has it"


def main() -> int:
    """Prints what is wrong and how many rows were compared, and returns the status."""
    with open(os.path.join(TOP, "docs", "reference", "theorem.md"), encoding="utf-8") as page:
        lines = page.read().split("\n")
    rows = sum(1 for line in lines if ROW.match(line))
    wrong = 0
    for fault in faults_of_page(lines):
        print(fault)
        wrong += 1
    print(f"{rows} rows, {wrong} wrong")
    return 1 if wrong or not rows else 0


if __name__ == "__main__":
    sys.exit(main())
