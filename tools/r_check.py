#!/usr/bin/env python3
"""Checks the package for R by `R CMD check --as-cran`, without a network.

usage: python3 tools/r_check.py ARCHIVE

ARCHIVE is what `tools/packages.sh FOLDER r` makes. R asks a folder in the place of CRAN and
Bioconductor. The index there has the packages that ARCHIVE may use, and no other, so that ARCHIVE
is a new submission. The tests inside read data/nc2020, and so compare the published figures.

Two notes are passed over, and no others: "New submission", and "unable to verify current time",
which is asked of the network. Without LaTeX the PDF of the manual isn't made, and a line says so.
Statuses: 0 nothing else is noted, 1 something is, 2 these words can't be followed.
"""
from __future__ import annotations

import gzip
import os
import re
import shutil
import subprocess
import sys
import tempfile
from pathlib import Path
from typing import NamedTuple, Optional

from refusal import Refused, status_of
from script_words import ScriptWords

TOP = Path(__file__).resolve().parent.parent
# The packages that Suggests of DESCRIPTION may name.
OTHERS = ("generics", "igraph", "jsonlite", "knitr", "markdown", "sf")
PROFILE = 'options(repos = c(CRAN = "{0}", BioCsoft = "{0}", BioCann = "{0}", BioCexp = "{0}"))\n'
# What the package doesn't answer for: a busy machine, a missing `sf`, and the font Inconsolata.
SETTINGS = {
    "_R_CHECK_EXAMPLE_TIMING_THRESHOLD_": "600",
    "_R_CHECK_FORCE_SUGGESTS_": "false",
    "R_RD4PDF": "times,hyper",
}
# What would bring another program or package than those of the archive.
LEFT_OUT = ("COUNTYGROUPS", "R_LIBS", "R_PROFILE_USER")
# A line that ends with a status, which may be all that it has, and how the last line counts them.
NOTED = re.compile(r"^(?:\* (.*?) \.\.\..*| )\b(NOTE|WARNING|ERROR)$")
COUNTED = re.compile(r"([0-9]+) (NOTE|WARNING|ERROR)")


class Noted(NamedTuple):
    """Is what R notes: the step, "NOTE", "WARNING" or "ERROR", and the lines that explain it."""

    step: str
    kind: str
    told: str


# What is passed over, with the whole of its lines.
PASSED_OVER = (
    (
        "checking CRAN incoming feasibility",
        re.compile("Maintainer: \\S*The countygroups authors <[^>]*>\\S*\n\nNew submission"),
    ),
    ("checking for future file timestamps", re.compile("unable to verify current time")),
)


def noted_in(log: str) -> list[Noted]:
    """Returns what a check notes, by its log.

    Raises `Refused` if the last line counts others, or if there is none because the check died.
    """
    found: list[Noted] = []
    step = ""
    is_told = False
    for line in log.splitlines():
        at = NOTED.match(line)
        if line.startswith("* "):
            step, is_told = line[2:].partition(" ...")[0], False
        if at:
            found.append(Noted(step, at[2], ""))
            is_told = True
        elif is_told:
            found[-1] = found[-1]._replace(told=f"{found[-1].told}{line}\n")
    _, is_ended, last = log.rpartition("\nStatus: ")
    if not is_ended:
        raise Refused(f"the check didn't end:\n{log}")
    status = last.partition("\n")[0]
    for number, kind in COUNTED.findall(status):
        if int(number) != sum(one.kind == kind for one in found):
            raise Refused(f"the log has other lines than its last one counts, {status}:\n{log}")
    if not found and status != "OK":
        raise Refused(f"the log has no line of what its last one counts, {status}:\n{log}")
    return found


def is_passed_over(noted: Noted) -> bool:
    """Returns whether a note is one of those that are passed over."""
    return noted.kind == "NOTE" and any(
        noted.step == step and told.fullmatch(noted.told.strip()) for step, told in PASSED_OVER
    )


def make_index(folder: Path) -> str:
    """Makes a repository in `folder` that has no package but `OTHERS`, and returns its address."""
    source = folder / "src" / "contrib"
    (source / "Meta").mkdir(parents=True)
    text = "\n".join(f"Package: {name}\nVersion: 1.0\nLicense: GPL-2\n" for name in OTHERS)
    (source / "PACKAGES").write_text(text, encoding="ascii")
    (source / "PACKAGES.gz").write_bytes(gzip.compress(text.encode(), mtime=0))
    (source / "PACKAGES.in").write_text("Package: igraph\n", encoding="ascii")
    archive = str(source / "Meta" / "archive.rds")
    words = ["Rscript", "-e", "saveRDS(list(), commandArgs(TRUE))", archive]
    subprocess.run(words, check=True, capture_output=True)
    return folder.as_uri()


def has_latex() -> bool:
    """Returns whether LaTeX is there, with the font Times."""
    if not shutil.which("pdflatex") or not shutil.which("kpsewhich"):
        return False
    words = ["kpsewhich", "ptmr8t.tfm"]
    return bool(subprocess.run(words, capture_output=True, check=False).stdout.strip())


def log_of(archive: Path) -> str:
    """Checks an archive. Returns what R writes to its log; raises `Refused` without one."""
    with tempfile.TemporaryDirectory(prefix="r-check-") as name:
        room = Path(name)
        profile = room / "profile.R"
        profile.write_text(PROFILE.format(make_index(room / "cran")), encoding="utf-8")
        given = {key: value for key, value in os.environ.items() if key not in LEFT_OUT}
        env = {**given, **SETTINGS, "R_PROFILE": str(profile), "LC_ALL": "C.UTF-8"}
        env["COUNTYGROUPS_DATA"] = str(TOP / "data" / "nc2020")
        words = ["R", "CMD", "check", "--as-cran"]
        if not has_latex():
            print("without LaTeX the PDF of the manual isn't made")
            words.append("--no-manual")
        done = subprocess.run(
            [*words, str(archive)], cwd=room, env=env, capture_output=True, text=True, check=False
        )
        results = room / "countygroups.Rcheck"
        if not (results / "00check.log").is_file():
            raise Refused(f"R CMD check has no log:\n{done.stdout}{done.stderr}")
        printed = "".join(path.read_text() for path in sorted(results.glob("tests/*.Rout*")))
        return (results / "00check.log").read_text(encoding="utf-8") + printed


def check(archive: Path) -> None:
    """Checks an archive, and prints what is passed over. Raises `Refused` if more is noted."""
    log = log_of(archive)
    wrong = []
    for noted in noted_in(log):
        if is_passed_over(noted):
            print(f"passed over: {noted.step}: {noted.told.strip().splitlines()[-1]}")
        else:
            wrong.append(f"{noted.step} ... {noted.kind}\n{noted.told}")
    if wrong:
        raise Refused("\n".join(wrong))
    print("R CMD check --as-cran notes nothing else")


def main(words: Optional[list[str]] = None) -> int:
    """Follows the words, and returns the status to end with."""
    parser = ScriptWords(__doc__)
    parser.add_argument("archive", type=Path)
    asked = parser.parse_args(words)
    return status_of(lambda: check(asked.archive.resolve()))


if __name__ == "__main__":
    sys.exit(main())
