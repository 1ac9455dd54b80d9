#!/usr/bin/env python3
"""Tests the program that is compiled for WebAssembly: its heap, its hosts, its launcher and a page.

usage: python3 tools/test_web.py [--wasm FILE] [--refusing FILE] [--native FILE] [--all]
                                 [--only WORD] [--seed N] [--jobs N]

--wasm FILE      the program's WebAssembly; without it dist/countygroups.wasm
--refusing FILE  the same over a heap that refuses a request (tools/wasm.sh makes it), for the sweep
--native FILE    the program that is built for this machine, whose bytes are compared
--all            all cases, and files of full size, where else a sample by the seed is run
--only WORD      the tests whose names have the word
--jobs N         how many classes of tests run at once, and how many cases of each; without it 2

It needs Node 20 or later. What else is missing is said, and the tests that need it are passed over.
Statuses: 0 all is as wanted, 1 something isn't, 2 these words can't be run.
"""
import sys
from pathlib import Path

TESTS = Path(__file__).resolve().parent.parent / "web" / "test"
sys.path.insert(0, str(TESTS))

from run_tests import run_tests  # noqa: E402
from script_words import ScriptWords  # noqa: E402
from web_setting import SETTING  # noqa: E402


def read_words() -> str:
    """Takes the words of the command into the setting, and returns that of `--only`."""
    parser = ScriptWords(__doc__)
    parser.add_argument("--wasm", type=Path, default=SETTING.wasm)
    parser.add_argument("--refusing", type=Path)
    parser.add_argument("--native", type=Path)
    parser.add_argument("--all", action="store_true")
    parser.add_argument("--only", default="")
    parser.add_argument("--seed", type=int, default=SETTING.seed)
    parser.add_argument("--jobs", type=int, default=SETTING.jobs)
    asked = parser.parse_args()
    SETTING.wasm, SETTING.is_all = asked.wasm.resolve(), asked.all
    SETTING.refusing = asked.refusing and asked.refusing.resolve()
    SETTING.native = asked.native and asked.native.resolve()
    SETTING.seed, SETTING.jobs = asked.seed, asked.jobs
    return str(asked.only)


def main() -> int:
    """Runs the tests."""
    ran = run_tests(TESTS, read_words(), SETTING.jobs)
    return 0 if ran.count and not ran.failed else 1


if __name__ == "__main__":
    sys.exit(main())
