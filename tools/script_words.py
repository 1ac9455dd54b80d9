"""Reads the words of a script by what its doc string says of them."""
from __future__ import annotations

import argparse
import re
from fractions import Fraction
from typing import Callable, List, Optional

# The most that the part and the whole of a tolerance in lowest terms may be.
MOST_PART, MOST_WHOLE = 500, 1000
DIGITS = "([0-9]{1,9})"
TOLERANCE = re.compile(rf"{DIGITS}(?:/{DIGITS}|(?:\.{DIGITS})?(%?))")


class ScriptWords(argparse.ArgumentParser):
    """A parser of a script's words. Its help is the doc string of the script.

    The doc string has a paragraph that begins with `usage: `. It is printed if words are wrong.
    """

    def __init__(self, told: Optional[str]) -> None:
        """Makes a parser that knows no word but that for help. `told` is the doc string."""
        self.told = told or ""
        usage = self.told.partition("usage: ")[2].partition("\n\n")[0]
        super().__init__(usage=usage.replace("%", "%%"))

    def add_counts(self) -> None:
        """Adds the words of the counts: --geo and --segment, or --people in their place."""
        for name in ("geo", "segment", "people"):
            self.add_argument(f"--{name}")

    def check_counts(self, given: argparse.Namespace) -> None:
        """Ends with status 2 unless `given` has --geo and --segment alone, or --people alone."""
        has = [given.geo is not None, given.segment is not None, given.people is not None]
        if has not in ([True, True, False], [False, False, True]):
            self.error("give --geo and --segment, or --people")

    def add_tolerance(self) -> None:
        """Adds the word of the tolerance: --tolerance."""
        self.add_argument("--tolerance", metavar="TOLERANCE", type=tolerance_from)

    def add_part_and_of(self) -> None:
        """Adds the words --part and --of, which may stand in the place of --tolerance."""
        self.add_argument("--part", metavar="PART", type=number_from(0, MOST_PART))
        self.add_argument("--of", metavar="OF", type=number_from(1, MOST_WHOLE))

    def check_tolerance(self, given: argparse.Namespace) -> None:
        """Makes `given.tolerance` the tolerance that `given` has in one form, or five percent.

        Ends with status 2 if `given` has both forms, or if the tolerance is more than a half.
        """
        part, whole = vars(given).get("part"), vars(given).get("of")
        if given.tolerance is None:
            given.tolerance = Fraction(1 if part is None else part, 20 if whole is None else whole)
        elif (part, whole) != (None, None):
            self.error("give --tolerance, or --part and --of")
        if given.tolerance > Fraction(1, 2):
            self.error("the tolerance may be a half at most")

    def format_help(self) -> str:
        """Returns the doc string."""
        return self.told


def number_from(least: int, most: int) -> Callable[[str], int]:
    """Returns a reader of the words that are a number from `least` to `most`, below 10,000."""

    def read(word: str) -> int:
        """Returns the number that `word` has."""
        if not re.fullmatch(r"[0-9]{1,4}", word) or not least <= int(word) <= most:
            raise argparse.ArgumentTypeError(f"{word} is no number from {least} to {most}")
        return int(word)

    return read


def tolerance_from(word: str) -> Fraction:
    """Returns the tolerance that `word` has: a percentage, a decimal or a fraction.

    Raises `argparse.ArgumentTypeError` if it is none, or if it isn't at most 500 over at most 1,000
    in lowest terms.
    """
    found = TOLERANCE.fullmatch(word)
    if found:
        before, below, behind, percent = found.groups("")
        whole = int(below) if below else 10 ** len(behind) * (100 if percent else 1)
        tolerance = Fraction(int(before + behind), whole) if whole else None
        if tolerance and (tolerance.numerator > MOST_PART or tolerance.denominator > MOST_WHOLE):
            tolerance = None
        if tolerance is not None:
            return tolerance
    told = f"fraction in lowest terms of at most {MOST_PART}/{MOST_WHOLE}, as 5%, 0.05 or 1/20"
    raise argparse.ArgumentTypeError(f"{word} is no percentage, decimal or {told}")


def tolerance_words(tolerance: Fraction) -> List[str]:
    """Returns the words that give a program the tolerance, also one that knows no --tolerance."""
    return ["--part", str(tolerance.numerator), "--of", str(tolerance.denominator)]
