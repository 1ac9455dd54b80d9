#!/usr/bin/env python3
"""Tries `tools/compare_dist.py` in small repositories with a `dist/` that it makes.

usage: python3 tools/test_compare_dist.py

It needs git, and says so where git isn't there. No program is built: a text stands for it.
"""
from __future__ import annotations

import contextlib
import io
import os
import shutil
import unittest
from typing import Optional
from unittest import mock

import compare_dist
import dist_folder
from refusal import Refused
from trial_repository import InRepository, write

KIT = "rattle-kit-0 logic 0"


class TestCompareDist(InRepository):
    """A repository with one crate, and a `dist/` of its first commit."""

    def setUp(self) -> None:
        super().setUp()
        self.built = f"{self.room}/built"
        self.kit: Optional[str] = KIT
        patch = mock.patch.object(dist_folder, "kit_line", self.kit_line)
        patch.start()
        self.addCleanup(patch.stop)
        write(f"{self.top}/crates/ash/src/lib.rt", "first")
        write(f"{self.top}/.gitignore", "out/\n")
        write(self.built, "program")
        write(f"{self.room}/log", "rt: ok\n7 passed, 0 failed\n")
        self.git("init", "-q", "-b", "main")
        self.commit("the first")
        write(f"{self.top}/dist/{compare_dist.NATIVE}", "program")
        write(f"{self.top}/dist/{compare_dist.WASM}", "wasm")
        dist_folder.seal(self.top, f"{self.top}/dist", f"{self.room}/log")
        self.commit("dist")

    def kit_line(self) -> Optional[str]:
        """Stands for the line of `rt version`."""
        return self.kit

    def compare(self, program: str = "", wasm: str = "", static: str = "") -> tuple[str, list[str]]:
        """Returns what is said, and what is wrong."""
        said = io.StringIO()
        with contextlib.redirect_stdout(said):
            given = (program or None, wasm or None, static or None)
            wrong = compare_dist.compare(self.top, *given)
        return said.getvalue(), wrong

    def test_the_same_bytes_pass(self) -> None:
        write(f"{self.room}/wasm", "wasm")
        said, wrong = self.compare(self.built, f"{self.room}/wasm")
        self.assertEqual(wrong, [])
        self.assertEqual(said.count("byte for byte"), 2)

    def test_a_byte_of_dist_that_differs_fails(self) -> None:
        write(f"{self.top}/dist/{compare_dist.NATIVE}", "progrbm")
        _, wrong = self.compare()
        self.assertEqual(len(wrong), 2)
        self.assertIn("SHA256SUMS", wrong[0])

    def test_a_byte_that_differs_fails_though_its_sum_is_right(self) -> None:
        write(f"{self.top}/dist/{compare_dist.NATIVE}", "progrbm")
        dist_folder.seal(self.top, f"{self.top}/dist", f"{self.room}/log")
        _, wrong = self.compare(self.built)
        self.assertEqual(len(wrong), 1)
        self.assertIn("differ first at byte 6", wrong[0])

    def test_another_wasm_fails(self) -> None:
        write(f"{self.room}/wasm", "wasm ")
        _, wrong = self.compare(self.built, f"{self.room}/wasm")
        self.assertIn("differ first at byte 5", wrong[0])

    def test_a_static_program(self) -> None:
        said, wrong = self.compare(static=self.built)
        self.assertEqual(wrong, [])
        self.assertIn(f"dist/ has no {compare_dist.STATIC}", said)
        write(f"{self.top}/dist/{compare_dist.STATIC}", "programs")
        dist_folder.seal(self.top, f"{self.top}/dist", f"{self.room}/log")
        _, wrong = self.compare(static=self.built)
        self.assertIn("differ first at byte 8", wrong[0])

    def test_a_file_without_a_sum_and_a_missing_file_fail(self) -> None:
        write(f"{self.top}/dist/more", "")
        os.remove(f"{self.top}/dist/{compare_dist.WASM}")
        _, wrong = self.compare(self.built)
        self.assertEqual([line.rpartition(" ")[2] for line in wrong], [compare_dist.WASM, "more"])

    def test_a_crate_that_changed_passes_and_is_told(self) -> None:
        write(f"{self.top}/crates/ash/src/lib.rt", "second")
        self.commit("the second")
        write(f"{self.top}/crates/ash/src/lib.rt", "third")
        self.commit("the third")
        write(self.built, "another program")
        said, wrong = self.compare(self.built)
        self.assertEqual(wrong, [])
        self.assertIn("dist/ is behind crates/ by:", said)
        self.assertLess(said.index("the third"), said.index("the second"))
        self.assertNotIn("the first", said)

    def test_a_change_that_is_not_committed_is_told(self) -> None:
        write(f"{self.top}/crates/ash/src/new.rt", "new")
        self.assertIn("what isn't committed", self.compare(self.built)[0])

    def test_what_was_built_is_no_change(self) -> None:
        write(f"{self.top}/crates/ash/out/ash", "built")
        self.assertEqual(self.compare(self.built)[1], [])
        self.assertIn("byte for byte", self.compare(self.built)[0])

    def test_another_kit_passes_and_is_told(self) -> None:
        write(self.built, "another program")
        for kit, words in (("another kit", "the kit here is `another kit`"), (None, "no `rt`")):
            self.kit = kit
            said, wrong = self.compare(self.built)
            self.assertEqual(wrong, [])
            self.assertIn(words, said)

    def test_a_shallow_clone_is_compared(self) -> None:
        self.git("clone", "-q", "--depth", "1", f"file://{self.top}", f"{self.room}/shallow")
        self.top = f"{self.room}/shallow"
        self.assertIn("byte for byte", self.compare(self.built)[0])

    def test_a_shallow_clone_of_other_crates_passes(self) -> None:
        write(f"{self.top}/crates/ash/src/lib.rt", "second")
        self.commit("the second")
        self.git("clone", "-q", "--depth", "1", f"file://{self.top}", f"{self.room}/shallow")
        self.top = f"{self.room}/shallow"
        said, wrong = self.compare(self.built)
        self.assertEqual(wrong, [])
        self.assertIn("doesn't have their commit", said)

    def test_files_without_a_repository_are_compared(self) -> None:
        shutil.rmtree(f"{self.top}/.git")
        self.assertIn("byte for byte", self.compare(self.built)[0])
        write(f"{self.top}/crates/ash/src/lib.rt", "second")
        self.assertIn("doesn't have their commit", self.compare(self.built)[0])

    def test_a_build_that_is_none_is_refused(self) -> None:
        write(f"{self.top}/dist/BUILD", "crates x\n")
        with self.assertRaisesRegex(Refused, "one line each"):
            dist_folder.read_build(f"{self.top}/dist")


if __name__ == "__main__":
    unittest.main()
