#!/usr/bin/env python3
"""Tries the choice of edits of `tools/gate_room.py` in small repositories that it makes.

usage: python3 tools/test_gate_room.py

It needs git for the tests of history, and says so where git isn't there.
"""
import os
import shutil
import unittest

import gate_room
from gate_room import History
from refusal import Refused
from trial_repository import InRepository, write

DAY = 86_400
# 1 December 2026, 12:00 UTC: day 335 of the year, and 335 modulo 3 is 2.
NOON = 1_796_126_400
NAMES = ["ash", "birch", "cedar", "elm", "fir", "hazel"]


def dates(date: int) -> dict[str, str]:
    """Returns what tells git that a commit is of a date, in seconds of Unix time."""
    author = f"{NOON - 50 * DAY} +0000"
    return {"GIT_AUTHOR_DATE": author, "GIT_COMMITTER_DATE": f"{date} +0000"}


class TestDue(unittest.TestCase):
    """The choice by what changed and by the day."""

    def test_without_history_all_are_due(self) -> None:
        self.assertEqual(gate_room.due(["fir", "ash"], None), ["ash", "fir"])

    def test_a_third_by_the_day(self) -> None:
        for day, wanted in ((3, ["ash", "elm"]), (4, ["birch", "fir"]), (365, ["cedar", "hazel"])):
            self.assertEqual(gate_room.due(NAMES, History(frozenset(), day)), wanted)

    def test_three_days_in_turn_try_each_crate(self) -> None:
        days = [gate_room.due(NAMES, History(frozenset(), day)) for day in (101, 102, 103)]
        self.assertEqual(sorted(name for day in days for name in day), NAMES)

    def test_changed_crates_stand_beside_the_third(self) -> None:
        history = History(frozenset({"birch", "ash", "no_edits"}), 3)
        self.assertEqual(gate_room.due(NAMES, history), ["ash", "birch", "elm"])

    def test_files_that_concern_an_edit(self) -> None:
        paths = [
            "crates/ash/src/lib.rt",
            "crates/elm/must-fail/a.edit",
            "crates/fir/tried/a.edit",
            "crates/hazel/stdout",
            "docs/src/ash/a",
            "crates/birch/specs/A.antt",
            "",
        ]
        self.assertEqual(gate_room.crates_in(paths), {"ash", "elm", "birch"})

    def test_commits_on_the_border_of_three_days_count(self) -> None:
        log = f"\0{NOON}\n\ncrates/a\n\0{NOON - 3 * DAY}\n\ncrates/b\n\0{NOON - 3 * DAY - 1}\n\nc\n"
        self.assertEqual(gate_room.late_paths(log, NOON - 3 * DAY), ["crates/a", "crates/b"])


class TestHistory(InRepository):
    """The choice in repositories of four crates with edits."""

    def setUp(self) -> None:
        super().setUp()
        for name in NAMES[:4]:
            write(f"{self.top}/crates/{name}/src/lib.rt", "1")
            write(f"{self.top}/crates/{name}/must-fail/a.edit", "1")
            write(f"{self.top}/crates/{name}/tried/b.edit", "1")
            write(f"{self.top}/crates/{name}/out/lib", "1")
        write(f"{self.top}/crates.txt", "".join(f"{name}:\n" for name in NAMES[:4]))
        write(f"{self.top}/HANDLES", "Handles allowed: none.\n")
        write(f"{self.top}/.gitignore", "out/\n")
        self.git("init", "-q", "-b", "main")
        self.commit_at(NOON - 10 * DAY)

    def commit_at(self, date: int) -> None:
        """Commits all files at a date."""
        self.commit("a change", **dates(date))

    def change(self, path: str, date: int) -> None:
        """Changes a file and commits it at a date."""
        write(f"{self.top}/{path}", str(date))
        self.commit_at(date)

    def history(self) -> History:
        """Returns the history, which has to be there."""
        found = gate_room.history_of(self.top)
        assert found is not None
        return found

    def test_the_newest_commit_says_which_day_it_is(self) -> None:
        self.change("crates/birch/src/lib.rt", NOON - 4 * DAY)
        self.change("crates/ash/src/lib.rt", NOON - 2 * DAY)
        self.change("crates/elm/tried/b.edit", NOON - 2 * DAY)
        self.change("docs/a", NOON)
        self.assertEqual(self.history(), History(frozenset({"ash"}), 335))

    def test_what_is_not_committed_counts(self) -> None:
        self.commit_at(NOON)
        write(f"{self.top}/crates/ash/src/lib.rt", "changed")
        write(f"{self.top}/crates/elm/must-fail/new.edit", "new")
        self.assertEqual(self.history().changed, {"ash", "elm"})

    def test_a_merge_counts_on_its_own_day(self) -> None:
        self.git("checkout", "-q", "-b", "side")
        self.change("crates/cedar/src/lib.rt", NOON - 9 * DAY)
        self.git("checkout", "-q", "main")
        self.change("crates/elm/src/lib.rt", NOON - 8 * DAY)
        self.git("merge", "-q", "--no-edit", "side", **dates(NOON))
        self.assertEqual(self.history().changed, {"cedar"})

    def test_without_whole_history_there_is_none(self) -> None:
        self.commit_at(NOON)
        shallow = f"{self.room}/shallow"
        self.git("clone", "-q", "--depth", "1", f"file://{self.top}", shallow)
        self.assertIsNone(gate_room.history_of(shallow))
        shutil.copytree(self.top, f"{self.room}/plain", ignore=shutil.ignore_patterns(".git"))
        self.assertIsNone(gate_room.history_of(f"{self.room}/plain"))

    def test_a_folder_inside_of_another_repository_has_none(self) -> None:
        shutil.copytree(f"{self.top}/crates", f"{self.top}/inside/crates")
        self.assertIsNone(gate_room.history_of(f"{self.top}/inside"))

    def test_the_folder_has_the_due_edits_alone(self) -> None:
        gate_room.make_room(self.top, f"{self.room}/copy", ["ash"], False)
        found = gate_room.crates_with(f"{self.room}/copy", ("must-fail", "tried", "out"))
        self.assertEqual(found, ["ash"])
        top = sorted(os.listdir(f"{self.room}/copy"))
        self.assertEqual(top, ["HANDLES", "crates", "crates.txt"])
        self.assertEqual(sorted(os.listdir(f"{self.room}/copy/crates")), NAMES[:4])

    def test_all_edits_stand_side_by_side(self) -> None:
        gate_room.make_room(self.top, f"{self.room}/copy", NAMES[:4], True)
        edits = sorted(os.listdir(f"{self.room}/copy/crates/ash/must-fail"))
        self.assertEqual(edits, ["a.edit", "b.edit"])

    def test_the_choice_of_all_or_none(self) -> None:
        all_edits = gate_room.chosen(["oak", "ash"], True, False)
        self.assertEqual(all_edits, (["ash", "oak"], "--all-edits"))
        self.assertEqual(gate_room.chosen(["oak", "ash"], False, True), ([], "--no-edits"))

    def test_one_name_in_both_folders_is_refused(self) -> None:
        write(f"{self.top}/crates/ash/tried/a.edit", "1")
        with self.assertRaisesRegex(Refused, "a.edit"):
            gate_room.make_room(self.top, f"{self.room}/copy", NAMES[:4], True)

    def test_a_source_outside_of_the_crates_is_refused(self) -> None:
        write(f"{self.top}/docs/lib.rt", "1")
        with self.assertRaisesRegex(Refused, "docs/lib.rt"):
            gate_room.make_room(self.top, f"{self.room}/copy", [], False)

    def test_a_folder_with_something_in_it_is_refused(self) -> None:
        with self.assertRaisesRegex(Refused, "empty"):
            gate_room.make_room(self.top, self.top, [], False)


if __name__ == "__main__":
    unittest.main()
