#!/usr/bin/env python3
"""Reads and writes what `dist/` says of itself, for `tools/release.sh` and `tools/compare_dist.py`.

usage: dist_folder.py check-proof FOLDER LOG
       dist_folder.py seal DIST LOG

check-proof: tells whether a proof is one of this commit's crates. FOLDER has to have the crates as
they lie here and as they are committed, with every edit, as `tools/prove.sh FOLDER LOG --all-edits`
leaves them. LOG is what `rt ci` said there. Its last line has to count no failure.
seal: writes DIST/BUILD and then DIST/SHA256SUMS for the files that lie in DIST.

`BUILD` has three lines. `crates` has the git tree of `crates/`, `kit` the line of `rt version`, and
`proof` the last line of the `rt ci` that proved the program. `SHA256SUMS` has a line for each other
file, as `sha256sum` writes it.

Statuses: 0 all is well, 1 the proof is another or the folder can't be sealed, 2 these words can't
be followed.
"""
from __future__ import annotations

import filecmp
import hashlib
import os
import re
import subprocess
import sys
import tempfile
from dataclasses import dataclass
from typing import Optional

import gate_room
from refusal import Refused, status_of

TOP = gate_room.TOP
BUILD = "BUILD"
SUMS = "SHA256SUMS"
PASSED = re.compile(r"[1-9][0-9]* passed, 0 failed")


@dataclass(frozen=True)
class Build:
    """What the program was built of, and by what: the three lines of `BUILD`."""

    crates: str
    kit: str
    proof: str


def read_build(dist: str) -> Build:
    """Returns what `BUILD` in the folder `dist` says. Raises `Refused` where it can't be read."""
    try:
        with open(f"{dist}/{BUILD}", encoding="utf-8") as file:
            lines = file.read().split("\n")
    except OSError as error:
        raise Refused(f"{dist}/{BUILD} can't be read ({error.strerror})") from error
    if [line.partition(" ")[0] for line in lines] != ["crates", "kit", "proof", ""]:
        raise Refused(f"{dist}/{BUILD} isn't one line each of crates, kit and proof")
    return Build(*(line.partition(" ")[2] for line in lines[:3]))


def sum_of(path: str) -> str:
    """Returns the SHA-256 of the file at `path`, in hexadecimal digits."""
    with open(path, "rb") as file:
        return hashlib.sha256(file.read()).hexdigest()


def sums_text(dist: str) -> str:
    """Returns the text of `SHA256SUMS` for the files that lie in the folder `dist`."""
    names = sorted(name for name in os.listdir(dist) if name != SUMS)
    return "".join(f"{sum_of(f'{dist}/{name}')}  {name}\n" for name in names)


def wrong_sums(dist: str) -> list[str]:
    """Returns the lines in which `SHA256SUMS` and the files in the folder `dist` differ."""
    with open(f"{dist}/{SUMS}", encoding="utf-8") as file:
        wanted = set(file.read().splitlines())
    return sorted(wanted ^ set(sums_text(dist).splitlines()))


def crates_tree(top: str) -> Optional[str]:
    """Returns the git tree of `crates/` as it lies in the folder `top`, or None without git.

    It is reckoned in a repository of its own, so that `top` needs no history and isn't changed.
    """
    with tempfile.TemporaryDirectory(prefix="dist-tree-") as room:
        settings = {"GIT_DIR": f"{room}/git", "GIT_WORK_TREE": top}
        settings |= {"GIT_CONFIG_GLOBAL": os.devnull, "GIT_CONFIG_SYSTEM": os.devnull}
        how = {**{k: v for k, v in os.environ.items() if not k.startswith("GIT_")}, **settings}
        try:
            for words in (["init", "-q"], ["add", "-A", "crates"]):
                subprocess.run(["git", *words], cwd=top, env=how, check=True, capture_output=True)
            words = ["git", "write-tree", "--prefix=crates/"]
            ran = subprocess.run(words, cwd=top, env=how, check=True, capture_output=True)
        except (OSError, subprocess.CalledProcessError):
            return None
    return ran.stdout.decode("ascii").strip()


def committed_tree(top: str) -> Optional[str]:
    """Returns the git tree of `crates/` in the newest commit, or None without a repository."""
    found = gate_room.git(top, "rev-parse", "--verify", "-q", "HEAD:crates")
    return None if found is None else found.strip()


def kit_line() -> Optional[str]:
    """Returns the line of `rt version`, or None where there is no `rt`."""
    try:
        ran = subprocess.run(["rt", "version"], check=True, capture_output=True)
    except (OSError, subprocess.CalledProcessError):
        return None
    return ran.stdout.decode("utf-8").strip()


def proof_line(log: str) -> str:
    """Returns the last line of the log of `rt ci` at `log`. Raises `Refused` where one failed."""
    with open(log, encoding="utf-8", errors="replace") as file:
        text = file.read()
    last = text.rstrip("\n").rpartition("\n")[2]
    if not PASSED.fullmatch(last):
        raise Refused(f"the last line of {log} isn't that all passed: `{last}`")
    if "BAD EDIT" in text:
        raise Refused(f"{log} has a BAD EDIT, which shows nothing")
    return last


def files_of(folder: str) -> set[str]:
    """Returns the paths of the files in `folder`, without what the checks leave in `out/`."""
    found: set[str] = set()
    for at, folders, names in os.walk(folder):
        folders[:] = [name for name in folders if name != "out"]
        found |= {os.path.relpath(f"{at}/{name}", folder) for name in names}
    return found


def first_difference(left: str, right: str) -> Optional[str]:
    """Returns a path whose file differs in the two folders, or lies in one alone; or None."""
    left_files, right_files = files_of(left), files_of(right)
    for path in sorted(left_files | right_files):
        if path not in left_files or path not in right_files:
            return path
        if not filecmp.cmp(f"{left}/{path}", f"{right}/{path}", shallow=False):
            return path
    return None


def check_proof(top: str, folder: str, log: str) -> str:
    """Returns the last line of `log`. Raises `Refused` where it is no proof of `top`'s commit.

    `folder` is where `rt ci` ran. It has to have the crates of `top`, and all their edits.
    """
    line = proof_line(log)
    if crates_tree(top) is None or crates_tree(top) != committed_tree(top):
        raise Refused("crates/ isn't as it is committed, so that no tree can be named")
    with tempfile.TemporaryDirectory(prefix="dist-room-") as room:
        tried = gate_room.crates_with(top, ("must-fail", "tried"))
        gate_room.make_room(top, room, tried, True)
        path = first_difference(room, folder)
    if path is not None:
        raise Refused(f"{folder} isn't this commit's crates with all edits: {path} differs")
    return line


def seal(top: str, dist: str, log: str) -> None:
    """Writes `BUILD` and `SHA256SUMS` into the folder `dist`, for the proof that `log` tells of."""
    tree, kit = committed_tree(top), kit_line()
    if tree is None or kit is None:
        raise Refused("there is no repository here, or no `rt` on the path")
    with open(f"{dist}/{BUILD}", "w", encoding="utf-8") as file:
        file.write(f"crates {tree}\nkit {kit}\nproof {proof_line(log)}\n")
    with open(f"{dist}/{SUMS}", "w", encoding="utf-8") as file:
        file.write(sums_text(dist))


def follow(verb: str, folder: str, log: str) -> None:
    """Seals `folder` if `verb` is `seal`. Else tells that the proof in it is one of this commit."""
    if verb == "seal":
        seal(TOP, folder, log)
    else:
        print(f"the proof is one of this commit's crates: {check_proof(TOP, folder, log)}")


def main(words: list[str]) -> int:
    """Follows the words, and returns the status to end with."""
    if len(words) != 3 or words[0] not in ("check-proof", "seal"):
        print(__doc__, end="", file=sys.stderr)
        return 2
    return status_of(lambda: follow(*words))


if __name__ == "__main__":
    sys.exit(main(sys.argv[1:]))
