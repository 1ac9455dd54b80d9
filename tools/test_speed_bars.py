#!/usr/bin/env python3
"""Tests which counts of instructions bench/speed_bars.py takes as within their bars.

usage: tools/test_speed_bars.py
"""
from __future__ import annotations

import os
import sys
import unittest

sys.path.insert(
    0, os.path.join(os.path.dirname(os.path.dirname(os.path.abspath(__file__))), "bench")
)
from speed_bars import CHAMBERS, Count, faults, read_bars  # noqa: E402

BARS = {"Iowa 50": {"solve": 1000, "check": 100}}


class Bars(unittest.TestCase):
    """Counts beside bars of 1,000 and 100 instructions."""

    def test_as_many_pass(self) -> None:
        """The counts of the bars themselves, half as many again, and fewer are no fault."""
        for solve, check in ((1000, 100), (1500, 150), (400, 40)):
            self.assertEqual(faults("Iowa 50", Count(solve, check), BARS), [])

    def test_twice_as_many_fail(self) -> None:
        """A loss by a factor of two is seen, of either command."""
        self.assertIn("solve of Iowa 50", faults("Iowa 50", Count(2000, 100), BARS)[0])
        self.assertIn("check of Iowa 50", faults("Iowa 50", Count(1000, 200), BARS)[0])

    def test_a_slow_check_fails(self) -> None:
        """A check that takes more than half of the search is a fault, whatever its bar."""
        bars = {"Iowa 50": {"solve": 1000, "check": 600}}
        self.assertIn("of what solve took", faults("Iowa 50", Count(1000, 600), bars)[0])

    def test_each_chamber_has_bars(self) -> None:
        """The stored bars are those of the chambers."""
        bars = read_bars()
        self.assertEqual(list(bars), list(CHAMBERS))
        self.assertTrue(all(it["solve"] > 0 and it["check"] > 0 for it in bars.values()))


if __name__ == "__main__":
    unittest.main()
