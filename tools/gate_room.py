#!/usr/bin/env python3
"""Copies the crates into a folder where `rt ci` proves them and tries the edits that are due.

usage: gate_room.py FOLDER [--all-edits | --no-edits]

FOLDER gets `crates.txt`, `HANDLES` and `crates/`, without what earlier runs left in `out/`. It has
to be empty or missing, and has to lie outside of any repository. Of the edits in `must-fail/`,
those of these crates are due:

- crates that changed within three days before the newest commit, by its committer date, or that
  differ from it. What changes a crate is a change in `src/`, `specs/`, `proofs/` or `must-fail/`;
- each third crate of the list of all crates with edits, by name. Their place in the list, from 0,
  modulo 3 is that of the newest commit's day of the year. So three days try each crate's edits.

The newest commit's date stands for today's, so that each run over one commit makes one choice. If
there is no history, as in a shallow clone or without git, all edits are due. With --all-edits all
are due too, and those of `tried/` stand beside them. With --no-edits none is due.

Statuses: 0 the folder is made, 1 it can't be made, 2 these words can't be followed. It can't be
made if FOLDER isn't empty, if an edit's name stands in `must-fail/` and in `tried/`, or if a source
lies where no check reads it.
"""
from __future__ import annotations

import argparse
import datetime
import os
import shutil
import subprocess
import sys
from dataclasses import dataclass
from typing import Optional

from refusal import Refused

TOP = os.path.dirname(os.path.dirname(os.path.abspath(__file__)))
DAYS = 3
PARTS = 3
SECONDS_A_DAY = 86_400
# The folders of a crate that a trial of its edits depends on.
OF_EDITS = ("src", "specs", "proofs", "must-fail")
SOURCES = (".rt", ".antt")


@dataclass(frozen=True)
class History:
    """What git tells: the crates that changed of late, and the day of the newest commit."""

    changed: frozenset[str]
    day_of_year: int


def git(top: str, *words: str) -> Optional[str]:
    """Returns what git writes in the folder `top`, or None where it fails or isn't there."""
    try:
        ran = subprocess.run(["git", *words], cwd=top, capture_output=True, check=False)
    except OSError:
        return None
    return ran.stdout.decode("utf-8", "surrogateescape") if ran.returncode == 0 else None


def crate_of(path: str) -> Optional[str]:
    """Returns the crate whose edits a change of the file at `path` makes due, if there is one."""
    parts = path.split("/")
    is_of_edits = len(parts) > 3 and parts[0] == "crates" and parts[2] in OF_EDITS
    return parts[1] if is_of_edits else None


def crates_in(paths: list[str]) -> frozenset[str]:
    """Returns the crates that changes of these files concern."""
    return frozenset(crate for path in paths if (crate := crate_of(path)) is not None)


def late_paths(log: str, since: int) -> list[str]:
    """Returns the paths in `log` of commits at or after `since`, in seconds of Unix time.

    Each entry of `log` is a byte 0, the committer date in such seconds, and a path a line.
    """
    found: list[str] = []
    for entry in log.split("\0")[1:]:
        date, *paths = entry.split("\n")
        if int(date) >= since:
            found += [path for path in paths if path]
    return found


def history_of(top: str) -> Optional[History]:
    """Returns what git tells of the repository at `top`, or None where its history isn't whole."""
    above = git(top, "rev-parse", "--show-toplevel")
    if above is None or os.path.realpath(above.rstrip("\n")) != os.path.realpath(top):
        return None
    if git(top, "rev-parse", "--is-shallow-repository") != "false\n":
        return None
    newest = git(top, "log", "-1", "--format=%ct")
    # A merge counts as what it brought to the line of commits that it stands in.
    log_words = ["log", "--first-parent", "-m", "--no-renames", "--name-only", "--format=%x00%ct"]
    log = git(top, "-c", "core.quotePath=false", *log_words, "--", "crates")
    differing = git(top, "diff", "--name-only", "--no-renames", "HEAD", "--", "crates")
    added = git(top, "ls-files", "--others", "--exclude-standard", "--", "crates")
    if newest is None or log is None or differing is None or added is None:
        return None
    now = int(newest)
    paths = late_paths(log, now - DAYS * SECONDS_A_DAY)
    paths += differing.split("\n") + added.split("\n")
    day = datetime.datetime.fromtimestamp(now, datetime.timezone.utc).timetuple().tm_yday
    return History(crates_in(paths), day)


def due(with_edits: list[str], history: Optional[History]) -> list[str]:
    """Returns those crates of `with_edits` whose edits are due; all where there is no history."""
    names = sorted(with_edits)
    if history is None:
        return names
    turn = history.day_of_year % PARTS
    by_turn = {name for place, name in enumerate(names) if place % PARTS == turn}
    return [name for name in names if name in history.changed or name in by_turn]


def crates_with(top: str, folders: tuple[str, ...]) -> list[str]:
    """Returns the crates below `top` that have one of these folders."""
    crates = f"{top}/crates"
    found: list[str] = []
    for name in sorted(os.listdir(crates)):
        if any(os.path.isdir(f"{crates}/{name}/{folder}") for folder in folders):
            found.append(name)
    return found


def unread_sources(top: str) -> list[str]:
    """Returns the sources below `top` that lie outside of `crates/`, where no check reads them."""
    found: list[str] = []
    for at, folders, names in os.walk(top):
        inside = os.path.relpath(at, top)
        if inside == ".":
            folders[:] = [it for it in folders if it not in (".git", "crates")]
        found += [os.path.normpath(f"{inside}/{it}") for it in names if it.endswith(SOURCES)]
    return sorted(found)


def copy_tried(source: str, target: str) -> None:
    """Puts the edits in `tried/` of the crate at `source` among those of its copy at `target`."""
    os.makedirs(f"{target}/must-fail", exist_ok=True)
    for name in sorted(os.listdir(f"{source}/tried")):
        edit = f"{target}/must-fail/{name}"
        if os.path.lexists(edit):
            raise Refused(f"{source} has an edit {name} in must-fail/ and in tried/")
        shutil.copyfile(f"{source}/tried/{name}", edit)


def copy_crate(source: str, target: str, with_edits: bool, with_tried: bool) -> None:
    """Copies the crate at `source` to `target`, with its edits and those of `tried/` if wanted."""
    left_out = ["out", "tried"] if with_edits else ["out", "tried", "must-fail"]
    os.mkdir(target)
    for name in sorted(os.listdir(source)):
        if name in left_out:
            continue
        if os.path.isdir(f"{source}/{name}"):
            shutil.copytree(f"{source}/{name}", f"{target}/{name}", symlinks=True)
        else:
            shutil.copy(f"{source}/{name}", f"{target}/{name}", follow_symlinks=False)
    if with_tried and os.path.isdir(f"{source}/tried"):
        copy_tried(source, target)


def make_room(top: str, folder: str, tried: list[str], with_tried: bool) -> None:
    """Copies the crates of `top` to `folder`, with the edits of the crates in `tried`."""
    if os.path.lexists(folder) and (not os.path.isdir(folder) or os.listdir(folder)):
        raise Refused(f"{folder} isn't an empty folder")
    unread = unread_sources(top)
    if unread:
        raise Refused(f"no check reads {unread[0]}: a source lies in a crate")
    os.makedirs(f"{folder}/crates", exist_ok=True)
    for name in ("crates.txt", "HANDLES"):
        shutil.copyfile(f"{top}/{name}", f"{folder}/{name}")
    for name in sorted(os.listdir(f"{top}/crates")):
        copy_crate(f"{top}/crates/{name}", f"{folder}/crates/{name}", name in tried, with_tried)


def say_choice(with_edits: list[str], tried: list[str], why: str) -> None:
    """Prints the crates whose edits are tried and those whose edits aren't."""
    left = [name for name in with_edits if name not in tried]
    print(f"edits of {len(tried)} of {len(with_edits)} crates are tried ({why})")
    print(f"edits tried: {' '.join(tried) or 'none'}")
    print(f"edits not tried: {' '.join(left) or 'none'}", flush=True)


def chosen(names: list[str], all_edits: bool, no_edits: bool) -> tuple[list[str], str]:
    """Returns the crates of `names` whose edits are tried, and why these."""
    if all_edits:
        return sorted(names), "--all-edits"
    if no_edits:
        return [], "--no-edits"
    history = history_of(TOP)
    why = "there is no whole history"
    if history is not None:
        day = f"day {history.day_of_year} of the year"
        why = f"changed within {DAYS} days, or due on {day}"
    return due(names, history), why


def main(words: list[str]) -> int:
    """Makes the folder that `words` name, and returns the status to end with."""
    parser = argparse.ArgumentParser(description="Copies the crates with the edits that are due.")
    parser.add_argument("folder")
    choice = parser.add_mutually_exclusive_group()
    choice.add_argument("--all-edits", action="store_true")
    choice.add_argument("--no-edits", action="store_true")
    asked = parser.parse_args(words)
    folders = ("must-fail", "tried") if asked.all_edits else ("must-fail",)
    names = crates_with(TOP, folders)
    tried, why = chosen(names, asked.all_edits, asked.no_edits)
    try:
        make_room(TOP, asked.folder, tried, asked.all_edits)
    except Refused as found:
        print(f"gate_room.py: {found}", file=sys.stderr)
        return 1
    say_choice(names, tried, why)
    return 0


if __name__ == "__main__":
    sys.exit(main(sys.argv[1:]))
