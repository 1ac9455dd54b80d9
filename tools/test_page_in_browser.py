#!/usr/bin/env python3
"""Opens docs/page.html in a headless Chromium, and compares it with the program.

usage: python3 tools/test_page_in_browser.py [--page FILE] [--program FILE] [--wasm FILE]
           [--pictures FOLDER] [--only WORD] [--jobs N]

--page FILE        the page; without it docs/page.html. If it isn't there, --program and --wasm
                   make one
--program FILE     the program that is built for this machine, whose bytes are compared
--wasm FILE        the same for browsers; without it dist/countygroups.wasm
--pictures FOLDER  leaves pictures of the page there: wide, narrow, dark and printed, and after runs
--only WORD        the tests whose names have the word
--jobs N           how many classes of tests run at once, each with its own browser; without it 2

If a Chromium or a Firefox isn't installed, its tests don't run, and a line says so. Statuses: 0 all
is as wanted, 1 something isn't or no test has the word, 2 these words can't be run.
"""
import contextlib
import sys
from pathlib import Path

TESTS = Path(__file__).resolve().parent.parent / "web" / "page" / "test"
sys.path.insert(0, str(TESTS))

from page_setting import ROOM, SETTING, page  # noqa: E402
from installed import NotThere  # noqa: E402
from run_tests import run_tests  # noqa: E402
from script_words import ScriptWords  # noqa: E402


def read_words() -> str:
    """Takes the words of the command into the setting, and returns that of `--only`."""
    parser = ScriptWords(__doc__)
    parser.add_argument("--page", type=Path, default=SETTING.page)
    parser.add_argument("--program", type=Path)
    parser.add_argument("--wasm", type=Path, default=SETTING.wasm)
    parser.add_argument("--pictures", type=Path)
    parser.add_argument("--only", default="")
    parser.add_argument("--jobs", type=int, default=SETTING.jobs)
    asked = parser.parse_args()
    SETTING.page, SETTING.wasm = asked.page.resolve(), asked.wasm.resolve()
    SETTING.program = asked.program and asked.program.resolve()
    SETTING.pictures, SETTING.jobs = asked.pictures, asked.jobs
    return str(asked.only)


def main() -> int:
    """Runs the tests."""
    word = read_words()
    with contextlib.suppress(NotThere):
        # (made once for all classes; if that can't be, the tests say so)
        page()
    ran = run_tests(TESTS, word, SETTING.jobs)
    ROOM.cleanup()
    # (where a browser is missing, none may have run)
    return 0 if (ran.count or ran.missing) and not ran.failed else 1


if __name__ == "__main__":
    sys.exit(main())
