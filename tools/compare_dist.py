#!/usr/bin/env python3
"""Compares `dist/` with its sums, and with a program that was just proved and built.

usage: compare_dist.py [--program FILE] [--static FILE] [--wasm FILE]

The files of `dist/` have to be those of `dist/SHA256SUMS`. If `crates/` is no longer the tree that
`dist/BUILD` names, the commits by which `dist/` is behind are told, and nothing more is compared.
If the kit is another one, that is told, and nothing more is compared.
--program FILE, --static FILE, --wasm FILE: else these files have to be those of `dist/` byte for
byte. They are the program that was proved and built here, the same object linked with musl, and
what was compiled of its module for WebAssembly. A `dist/` without a static program is told.

Statuses: 0 nothing differs, or `dist/` is behind; 1 something differs; 2 these words can't be
followed.
"""
from __future__ import annotations

import argparse
import os
import subprocess
import sys
from typing import Optional

import dist_folder
import gate_room
from refusal import Refused

DIST = "dist"
NATIVE = "countygroups-x86_64-linux"
STATIC = "countygroups-x86_64-linux-static"
WASM = "countygroups.wasm"


def trees_of(top: str, commits: list[str]) -> list[str]:
    """Returns the git tree of `crates/` in each of these commits, empty where one has none."""
    asked = "".join(f"{commit}:crates\n" for commit in commits)
    words = ["git", "cat-file", "--batch-check=%(objectname)"]
    ran = subprocess.run(words, cwd=top, input=asked.encode(), capture_output=True, check=True)
    answers = ran.stdout.decode("ascii").splitlines()
    return ["" if answer.endswith(" missing") else answer for answer in answers]


def commits_behind(top: str, tree: str) -> Optional[list[str]]:
    """Returns the commits, newest first, that changed `crates/` since it was `tree`.

    Each is its short name and its first line. The result is None where no commit of the history
    that is here has the tree.
    """
    log = gate_room.git(top, "log", "--first-parent", "--format=%H %h %s", "--", "crates")
    lines = [] if log is None else log.splitlines()
    if not lines:
        return None
    trees = trees_of(top, [line.split(" ")[0] for line in lines])
    if tree not in trees:
        return None
    return [line.partition(" ")[2] for line in lines[: trees.index(tree)]]


def why_not_current(top: str, build: dist_folder.Build) -> list[str]:
    """Returns the lines that say why `dist/` can't be compared; none where it is current."""
    tree = dist_folder.crates_tree(top)
    if tree is None:
        return ["without git it can't be told whether dist/ is of these crates"]
    if tree != build.crates:
        commits = commits_behind(top, build.crates)
        if commits is None:
            return ["dist/ is of other crates; the history that is here doesn't have their commit"]
        changes = [] if tree == dist_folder.committed_tree(top) else ["what isn't committed"]
        return ["dist/ is behind crates/ by:", *[f"    {it}" for it in changes + commits]]
    kit = dist_folder.kit_line()
    if kit is None:
        return ["dist/ is of these crates; there is no `rt` here to build them anew"]
    if kit != build.kit:
        return [f"dist/ is of these crates, by the kit `{build.kit}`; the kit here is `{kit}`"]
    return []


def difference(path: str, wanted: str) -> Optional[str]:
    """Returns how the file at `path` differs from the one at `wanted`, or None."""
    with open(path, "rb") as file, open(wanted, "rb") as other:
        found, bytes_wanted = file.read(), other.read()
    if found == bytes_wanted:
        return None
    at = len(os.path.commonprefix([found, bytes_wanted]))
    return f"{path} isn't {wanted}: they differ first at byte {at + 1}"


def compare(
    top: str, program: Optional[str], wasm: Optional[str], static: Optional[str] = None
) -> list[str]:
    """Prints what is so, and returns what is wrong."""
    dist = f"{top}/{DIST}"
    lines = dist_folder.wrong_sums(dist)
    wrong = [f"SHA256SUMS and the files of dist/ differ: {line}" for line in lines]
    build = dist_folder.read_build(dist)
    reasons = why_not_current(top, build)
    for line in reasons:
        print(line)
    for path, name in ((program, NATIVE), (static, STATIC), (wasm, WASM)):
        if path is None or reasons:
            continue
        if name == STATIC and not os.path.exists(f"{dist}/{name}"):
            print(f"dist/ has no {name}")
            continue
        found = difference(path, f"{dist}/{name}")
        wrong += [] if found is None else [found]
        if found is None:
            print(f"what was proved and built is dist/{name}, byte for byte")
    return wrong


def main(words: list[str]) -> int:
    """Follows the words, and returns the status to end with."""
    parser = argparse.ArgumentParser(description="Compares dist/ with what was proved and built.")
    parser.add_argument("--program")
    parser.add_argument("--static")
    parser.add_argument("--wasm")
    asked = parser.parse_args(words)
    top = dist_folder.TOP
    try:
        wrong = compare(top, asked.program, asked.wasm, asked.static)
    except (Refused, OSError) as error:
        wrong = [str(error)]
    for line in wrong:
        print(f"compare_dist.py: {line}", file=sys.stderr)
    if not wrong:
        print("dist/ is what its sums say")
    return 1 if wrong else 0


if __name__ == "__main__":
    sys.exit(main(sys.argv[1:]))
