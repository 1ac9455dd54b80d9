#!/usr/bin/env python3
"""Tests the objects of `--json` against the texts of the same runs.

usage: python3 tools/test_json.py [--program FILE]

--program FILE: a build of the program; by default that of `dist/`.

Each run of a command that takes `--json`, of the cases in `cases/` whose text is given whole, is
run with `--json` behind its words. The text that the case wants is made an object by
`cases/json_answers.py`, with the names that its files have. The program has to print this object
byte for byte on one line, and to end with the status that the case wants. Then `jq` of Debian reads
answers of several commands, and picks the values that the pages show.
"""
from __future__ import annotations

import json
import os
import subprocess
import sys
import tempfile
import unittest
from pathlib import Path
from typing import Dict, Iterator, List, NamedTuple, Optional, Sequence, Tuple

from installed import program_there
from tested_program import TESTED, run_tests

TOP = Path(__file__).resolve().parent.parent
sys.path.insert(0, str(TOP / "cases"))
import cases  # noqa: E402  (these lie beside the cases)
import check  # noqa: E402
import formats  # noqa: E402
import json_answers  # noqa: E402
from compare_checkers import case_parts, without_stored  # noqa: E402
from given_files import as_given  # noqa: E402
from program_runs import ROOMS, fresh_folder, run  # noqa: E402
from sweeps import named_by  # noqa: E402

Files = Dict[str, bytes]
MOST_SECONDS = 120
# What a text begins with that stays a text: it is no answer, or no words were read.
STAYS = ("error:", "refused case ", "memory\n", "device case ")


class Wanted(NamedTuple):
    """What a run is to write, as its case has it."""

    text: str
    behind: bytes  # the files that a case text shows as stored
    status: int


def wanted_runs(wanted: bytes) -> Iterator[Wanted]:
    """Yields what each run of a case is to write, from the bytes of its `.out`."""
    lines: List[bytes] = []
    for line in wanted.splitlines(keepends=True):
        lines.append(line)
        if line.startswith(b"exit "):
            text = without_stored(lines)[: -len(line)]
            behind = b"".join(lines[:-1])[len(text) :]
            yield Wanted(text.decode("utf-8", "surrogateescape"), behind, int(line[5:]))
            lines = []


def has_text_alone(words: Sequence[str], wanted: Wanted) -> bool:
    """Returns whether a run has no object: its words ask for help, or no answer was found."""
    is_command = bool(words) and words[0] in json_answers.COMMANDS and "--json" not in words
    is_help = "Usage: countygroups" in wanted.text or wanted.text.startswith("countygroups ")
    return not is_command or is_help or wanted.status == 2 or wanted.text.startswith(STAYS)


def bad_name(words: Sequence[str], files: Files) -> Optional[str]:
    """Returns the refusal of a census file for a name that isn't UTF-8, or None.

    Without `--json` and without a table the names aren't read.
    """
    if words[0] not in json_answers.WITH_NAMES or named_by(words, "--people") is not None:
        return None
    geo, segment = (formats.held_by(words, files, it) for it in ("--geo", "--segment"))
    try:
        check.read_named_counties(geo, segment, formats.number_by(words, "--state", 37), True)
    except check.End as end:
        return end.text if "BadName" in end.text else None
    return None


def object_line(words: Sequence[str], files: Files, wanted: Wanted) -> Tuple[bytes, int]:
    """Returns the line and the status of a run with `--json`, by what is wanted without."""
    refusal = bad_name(words, files)
    if refusal is not None:
        return json_answers.compact({"message": refusal}), 4
    return formats.object_line(words, files, wanted.text), wanted.status


def whole_cases() -> Iterator[cases.Case]:
    """Yields the cases that want whole texts of the program, and that a few megabytes hold."""
    for stem in cases.stems([str(TOP / "cases")]):
        case = cases.Case(stem)
        is_large = bool(case.forms.sizes) or case.forms.times is not None or case.memory
        if not (case.program or case.lines or is_large):
            yield case


class OfCases(unittest.TestCase):
    """Runs of the cases with `--json`."""

    def setUp(self) -> None:
        it = tempfile.TemporaryDirectory(prefix="test-json-", dir=ROOMS)
        self.addCleanup(it.cleanup)
        self.room, self.compared = os.path.realpath(it.name), 0

    def compare(
        self, case: cases.Case, words: List[str], files: Files, wanted: Wanted, wrote: Wanted
    ) -> None:
        """Wants a run of these words with `--json` to have written the object of a text."""
        line, status = object_line(words, files, wanted)
        name, found = os.path.relpath(case.stem, TOP), os.fsencode(wrote.text)
        self.assertEqual((found, wrote.status), (line, status), name)
        again = json_answers.compact(json.loads(found))
        self.assertEqual(again, found, f"{name}: the line isn't compact")
        if named_by(words, "--record") is None and status == wanted.status:
            self.assertEqual(wrote.behind, wanted.behind, name)
        self.compared += 1

    def compare_told(self, case: cases.Case, given: bytes, wanted: bytes) -> None:
        """Compares the run of a case text, whose first line gets the word `--json`."""
        first, mark, rest = given.partition(b"\n")
        try:
            words, files = case_parts(given)
        except UnicodeDecodeError:
            return
        (only,) = wanted_runs(wanted)
        if has_text_alone(words, only):
            return
        folder = fresh_folder(self.room, {})
        made = run(TESTED.program, [], folder, first + b" --json" + mark + rest)
        (wrote,) = wanted_runs(made.wrote + b"exit %d\n" % made.status)
        self.compare(case, words, files, only, wrote)

    def compare_runs(self, case: cases.Case) -> None:
        """Compares the runs of a case over files. Those that take no `--json` are run as always."""
        folder, files = fresh_folder(self.room, case.files), {**case.files, **case.stored}
        for words, wanted in zip(case.runs, wanted_runs(case.wanted)):
            is_alone = has_text_alone(words, wanted)
            asked = words if is_alone else [*words, "--json"]
            with as_given(folder, case.files, case.forms):
                made = run(TESTED.program, asked, folder, case.given)
            if not is_alone:
                wrote = os.fsdecode(made.wrote)
                self.compare(case, words, files, wanted, Wanted(wrote, b"", made.status))

    def test_case_texts(self) -> None:
        for case in whole_cases():
            for given, wanted in case.cut() if case.runs == [[]] else ():
                with self.subTest(os.path.relpath(case.stem, TOP)):
                    self.compare_told(case, given, wanted)
        self.assertGreater(self.compared, 500)

    def test_runs_over_files(self) -> None:
        for case in whole_cases():
            if case.runs != [[]]:
                with self.subTest(os.path.relpath(case.stem, TOP)):
                    self.compare_runs(case)
        self.assertGreater(self.compared, 30)


DATA = TOP / "data" / "nc2020"
COUNTIES = ["--geo", str(DATA / "nc2020geo.pl"), "--segment", str(DATA / "nc000012020.pl")]
SENATE = [*COUNTIES, "--chamber", "50"]
BORDERED = [*SENATE, "--adjacency", str(DATA / "county_borders.txt")]


class ByJq(unittest.TestCase):
    """What `jq` picks of answers of the Senate by the census of 2020."""

    jq: str
    room: tempfile.TemporaryDirectory[str]
    solved: bytes
    proved: List[str]

    @classmethod
    def setUpClass(cls) -> None:
        cls.jq = program_there("jq")
        cls.room = tempfile.TemporaryDirectory(prefix="test-json-")
        cls.addClassCleanup(cls.room.cleanup)
        cls.proved = ["--certificate", os.path.join(cls.room.name, "senate.certificate")]
        cls.solved = cls.said(["solve", *BORDERED, *cls.proved, "--json"], 0)

    @staticmethod
    def said(words: List[str], status: int) -> bytes:
        """Runs the program, wants this status, and returns its standard output."""
        made = subprocess.run(
            [TESTED.program, *words], capture_output=True, timeout=MOST_SECONDS, check=False
        )
        if made.returncode != status:
            raise AssertionError(f"{words}: status {made.returncode}, {made.stderr.decode()}")
        return made.stdout

    def picked(self, answer: bytes, by: str) -> str:
        """Returns what `jq -e` picks from an answer, without the last line's end."""
        made = subprocess.run(
            [self.jq, "-e", "-r", by], input=answer, capture_output=True, timeout=60, check=False
        )
        self.assertEqual(made.returncode, 0, made.stderr.decode())
        return made.stdout.decode().rstrip("\n")

    def test_a_report(self) -> None:
        self.assertEqual(self.picked(self.solved, ".answer"), "best")
        counts = self.picked(self.solved, '.counts | map(tostring) | join(" ")')
        self.assertEqual(counts, "2 9 9 1 0 0 2 1 0 1 0 0 0 0 0 0 1")
        self.assertEqual(self.picked(self.solved, ".groups | length"), "26")
        self.assertEqual(self.picked(self.solved, "[.groups[].seats] | add"), "50")
        self.assertEqual(self.picked(self.solved, ".names | length"), "100")
        self.assertEqual(self.picked(self.solved, '.names["37001"]'), "Alamance County")
        checked = self.said(["check", *BORDERED, *self.proved, "--json"], 0)
        self.assertEqual(checked, self.solved)

    def test_the_groups_with_names(self) -> None:
        """The seats, the people and the counties' names of each group are picked by one filter."""
        names = '[$names[.counties[]]] | join(", ")'
        by = f'.names as $names | .groups[] | "\\(.seats) \\(.people) \\({names})"'
        lines = self.picked(self.solved, by).splitlines()
        self.assertEqual(lines[:2], ["1 215999 Johnston County", "1 204576 Onslow County"])
        self.assertEqual(lines[7], "6 1190402 Granville County, Wake County")
        self.assertEqual(len(lines), 26)

    def test_a_list(self) -> None:
        listed = self.said(["list", *BORDERED, *self.proved, "--json"], 0)
        self.assertEqual(self.picked(listed, ".best_groupings"), "16")
        self.assertEqual(self.picked(listed, ".shared_groups | length"), "17")
        self.assertEqual(self.picked(listed, ".every_choice"), "true")
        self.assertEqual(
            self.picked(listed, "[.regions[].alternatives | length] | @csv"), "2,2,2,2"
        )

    def test_sizes(self) -> None:
        sizes = self.said(["size", *SENATE, "--json"], 0)
        self.assertEqual(self.picked(sizes, ".people"), "10439388")
        self.assertEqual(self.picked(sizes, ".district | .least, .greatest"), "198349\n219227")
        self.assertEqual(self.picked(sizes, ".sizes | length"), "100")

    def test_a_message(self) -> None:
        cut = ["--certificate", os.devnull, "--json"]
        said = self.said(["check", *BORDERED, *cut], 1)
        self.assertEqual(self.picked(said, ".message"), "no Text CutShort line 1")


if __name__ == "__main__":
    run_tests(__doc__)
