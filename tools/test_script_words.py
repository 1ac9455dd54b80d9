"""Tests of `script_words.py`: the texts of a tolerance. They need no program.

usage: python3 tools/test_script_words.py
"""
from __future__ import annotations

import argparse
import contextlib
import io
import unittest
from fractions import Fraction
from typing import List

import script_words


class Tolerances(unittest.TestCase):
    """Tests of the texts that give a tolerance, by the rules of the program's help."""

    def given(self, words: List[str]) -> Fraction:
        """Returns the tolerance that words of a script give."""
        parser = script_words.ScriptWords("usage: script")
        parser.add_tolerance()
        parser.add_part_and_of()
        found = parser.parse_args(words)
        parser.check_tolerance(found)
        assert isinstance(found.tolerance, Fraction)
        return found.tolerance

    def test_texts_that_give_a_tolerance(self) -> None:
        for text, wanted in (
            ("5%", (1, 20)),
            ("0.05", (1, 20)),
            ("1/20", (1, 20)),
            ("005/00100", (1, 20)),
            ("5.000%", (1, 20)),
            ("4.5%", (9, 200)),
            ("0", (0, 1)),
            ("0.0%", (0, 1)),
            ("1/2", (1, 2)),
            ("0.1%", (1, 1000)),
            ("499/1000", (499, 1000)),
            ("0.050000000", (1, 20)),
        ):
            self.assertEqual(self.given(["--tolerance", text]), Fraction(*wanted), text)

    def test_texts_that_give_none(self) -> None:
        texts = ["", ".05", "5.", "5 %", " 5%", "5%\n", "-1/20", "+5%", "5%%", "%", "1/3%", "1%/3"]
        texts += ["1/0", "0/0", "1/", "/20", "1/2/3", "0.5/1", "501", "1/1001", "0.0005", "0.05%"]
        texts += ["0000000001/20", "0.0000000000", "1e-2", "1,5%", "\u0665%", "five", "0x1", "1_0%"]
        for text in texts:
            with self.assertRaises(argparse.ArgumentTypeError, msg=text):
                script_words.tolerance_from(text)

    def test_words_of_both_forms(self) -> None:
        self.assertEqual(self.given([]), Fraction(1, 20))
        self.assertEqual(self.given(["--of", "10"]), Fraction(1, 10))
        self.assertEqual(self.given(["--part", "0"]), 0)
        self.assertEqual(self.given(["--part", "2", "--of", "40"]), Fraction(1, 20))
        for words in (
            ["--tolerance", "5%", "--part", "1"],
            ["--of", "20", "--tolerance", "5%"],
            ["--tolerance", "51%"],
            ["--tolerance", "500"],
            ["--part", "11"],
        ):
            with contextlib.redirect_stderr(io.StringIO()) as said:
                self.assertRaisesRegex(SystemExit, "2", self.given, words)
            self.assertIn("error: ", said.getvalue())

    def test_the_words_of_a_program(self) -> None:
        words = script_words.tolerance_words(Fraction("0.045"))
        self.assertEqual(words, ["--part", "9", "--of", "200"])


if __name__ == "__main__":
    unittest.main()
