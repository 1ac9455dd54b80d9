"""What `solve` answers of North Carolina 2020 within its default steps at other tolerances, and
what `check` says of each certificate.

usage: python3 bench/tolerances.py PROGRAM

Senate and House (data/nc2020) at one tenth, one fiftieth and one hundredth. A row has the answer,
the seconds of processor time with the files' reading in them, the lines of the certificate, and
whether `check` printed what `solve` printed, with its seconds.
"""
from __future__ import annotations

import os
import sys
import tempfile

from chambers import solve_and_check, words_of
from states import CAROLINA

HEADS = ["Chamber", "Tolerance", "Answer", "Seconds", "Lines", "Checked, seconds"]


def row(program: str, chamber: int, tolerance: tuple[int, int], folder: str) -> str:
    """Returns a row of the table."""
    part, whole = tolerance
    words = [*words_of(CAROLINA, 37, chamber), "--part", str(part), "--of", str(whole)]
    answer, _, seconds, lines, checked = solve_and_check(program, words, folder, least=False)
    return f"| {chamber} | {part}/{whole} | {answer} | {seconds} | {lines} | {checked} |"


def main() -> None:
    """Prints the table."""
    if len(sys.argv) != 2:
        sys.exit(__doc__)
    program = os.path.abspath(sys.argv[1])
    print(f"| {' | '.join(HEADS)} |\n{'|---' * len(HEADS)}|")
    with tempfile.TemporaryDirectory() as folder:
        for tolerance in ((1, 10), (1, 50), (1, 100)):
            for chamber in (50, 120):
                print(row(program, chamber, tolerance, folder), flush=True)


if __name__ == "__main__":
    main()
