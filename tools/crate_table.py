"""Compares the layers of crates in docs/architecture.md with crates.txt and the crates.

usage: python3 tools/crate_table.py [--list]

Each crate of crates.txt is in one layer of the page, with a link to its root file, and a layer
names no other crate. A crate depends on no crate of a later layer. It has a first comment with a
sentence. The name of a crate without code ends in `_laws`, and no other name does.

--list: only prints the crates by layer, each with the first sentence of its first comment.

Statuses: 0 nothing is wrong, 1 something is, or crates.txt names no crate, 2 the arguments can't be
used.
"""
from __future__ import annotations

import os
import re
import sys
from dataclasses import dataclass
from typing import Dict, Iterator, List, Optional, Tuple

from script_words import ScriptWords

TOP = os.path.dirname(os.path.dirname(os.path.abspath(__file__)))
LAYER = re.compile(r"- \*\*(.+?):\*\* ")
CRATE = re.compile(r"\[`(\w+)`\]\((\S+?)\)")
PAGE = os.path.join("docs", "architecture.md")
HEADING = "## The layers"
SENTENCE = re.compile(r".*?\.(?= |$)")
LAW = re.compile(r"//! .*\b[Ll]aws?\b")
FUNCTION = re.compile(r"^(?:pub(?:\(\w+\))? )?fn \w+|^impl\b|^pub (?:struct|enum|trait)\b", re.M)


@dataclass(frozen=True)
class Layer:
    """A layer of the page: its name, and its crates, each with the target of its link."""

    name: str
    crates: Tuple[Tuple[str, str], ...]


def layers() -> List[Layer]:
    """Reads the layers of the page: the items below the heading, up to the next heading."""
    with open(os.path.join(TOP, PAGE), encoding="utf-8") as page:
        section = page.read().partition(f"\n{HEADING}\n")[2].partition("\n#")[0]
    pieces = LAYER.split(section)
    pairs = zip(pieces[1::2], pieces[2::2])
    return [Layer(name, tuple(CRATE.findall(text.split("\n\n")[0]))) for name, text in pairs]


def crates() -> Dict[str, List[str]]:
    """Reads the crates of crates.txt, each with the crates that it depends on."""
    with open(os.path.join(TOP, "crates.txt"), encoding="utf-8") as file:
        pairs = [line.split(":") for line in file if ":" in line]
    return {name.strip(): below.split() for name, below in pairs}


def root_file(name: str) -> str:
    """Returns the path of a crate's root file: lib.rt, or main.rt if the crate has no lib.rt."""
    folder = os.path.join(TOP, "crates", name, "src")
    library = os.path.join(folder, "lib.rt")
    return library if os.path.isfile(library) else os.path.join(folder, "main.rt")


def first_sentence(name: str) -> str:
    """Reads the first sentence of a crate's first comment.

    It is empty if no sentence is found.
    """
    with open(root_file(name), encoding="utf-8") as file:
        words = " ".join(line[3:].strip() for line in file if line.startswith("//!"))
    found = SENTENCE.match(words)
    return found.group(0) if found else ""


def has_code(name: str) -> bool:
    """Returns whether a file of the crate has a function or a type.

    `lib.rt` isn't read. A file doesn't count if its first line is a comment that speaks of laws.
    """
    folder = os.path.join(TOP, "crates", name, "src")
    for file in os.listdir(folder):
        if not file.endswith(".rt") or file == "lib.rt":
            continue
        with open(os.path.join(folder, file), encoding="utf-8") as source:
            text = source.read()
        if FUNCTION.search(text) and not LAW.match(text):
            return True
    return False


def faults() -> Iterator[str]:
    """Yields what is wrong, a sentence each."""
    below = crates()
    places: Dict[str, int] = {}
    for number, layer in enumerate(layers()):
        for name, target in layer.crates:
            if name in places:
                yield f"{PAGE} names {name} twice"
            places[name] = number
            if name not in below:
                yield f"crates.txt has no {name}, which {PAGE} names"
            elif os.path.normpath(os.path.join(TOP, "docs", target)) != root_file(name):
                yield f"{PAGE} has another link for {name} than its root file"
    for name in below:
        if name not in places:
            yield f"{PAGE} has no layer for {name}"
            continue
        if not first_sentence(name):
            yield f"{name} has no first comment with a sentence"
        for other in below[name]:
            if places.get(other, 0) > places[name]:
                yield f"{name} depends on {other}, which {PAGE} puts in a later layer"
        if has_code(name) == name.endswith("_laws"):
            yield f"the name of {name} ends in _laws exactly if it has no code"


def print_list() -> None:
    """Prints the crates by layer, each with the first sentence of its first comment."""
    for layer in layers():
        print(f"\n{layer.name}")
        for name, _ in layer.crates:
            print(f"  {name}: {first_sentence(name)}")


def main(words: Optional[List[str]] = None) -> int:
    """Prints what is wrong and how many crates were compared, and returns the status."""
    parser = ScriptWords(__doc__)
    parser.add_argument("--list", action="store_true")
    if parser.parse_args(words).list:
        try:
            print_list()
            sys.stdout.flush()
        except BrokenPipeError:
            # (the reader has enough, and at its end Python would tell of what it can't write)
            os.dup2(os.open(os.devnull, os.O_WRONLY), sys.stdout.fileno())
        return 0
    wrong = list(faults())
    for line in wrong:
        print(line)
    print(f"{len(crates())} crates, {len(wrong)} wrong")
    return 1 if wrong or not crates() else 0


if __name__ == "__main__":
    sys.exit(main())
