"""What the sources of web/ are held to: types, lengths, and one list of the host calls.

The lengths are those of all scripts in Python, too.
"""
from __future__ import annotations

import ast
import re
import subprocess
import unittest
from pathlib import Path

from web_setting import HOST, TOP, WEB, run_node, wasm

from installed import program_there

MOST_LINES = 40
MOST_COLUMNS = 100
OPENS = re.compile(
    r"^(?P<indent> *)" r"(?:(?:export )?(?:async )?function |(?:async )?\w+\(.*\) \{$|.*=> \{$)"
)
NO_FUNCTION = re.compile(r"^ *(?:if|for|while|switch|else|try|catch|return)\b")


def functions_of(text: str) -> list[tuple[str, int]]:
    """Returns the first line of each function in a script, and how many lines it has."""
    lines = text.split("\n")
    found = []
    for place, line in enumerate(lines):
        opens = OPENS.match(line)
        if not opens or NO_FUNCTION.match(line):
            continue
        end = f"{opens['indent']}}}"
        rest = lines[place + 1 :]
        length = next((i for i, one in enumerate(rest, 2) if one.startswith(end)), 1)
        found.append((line.strip(), length))
    return found


def sources(*patterns: str) -> list[Path]:
    """Returns the files below the top folder that match one of the patterns."""
    return sorted(path for pattern in patterns for path in TOP.glob(pattern))


def python_files() -> list[Path]:
    """Returns the Python files that `tools/check_python.sh` checks."""
    return sources("cases/*.py", "tools/*.py", "bench/*.py", "web/test/*.py", "web/page/test/*.py")


class Sources(unittest.TestCase):
    """The files themselves."""

    def test_types(self) -> None:
        words = [program_there("tsc"), "-p", str(WEB / "jsconfig.json")]
        done = subprocess.run(words, capture_output=True, text=True, check=False)
        self.assertEqual((done.returncode, done.stdout), (0, ""))

    def test_functions_are_short(self) -> None:
        seen = 0
        for path in sources("web/host/*.mjs", "web/page/*.mjs", "web/test/*.mjs"):
            for name, length in functions_of(path.read_text(encoding="utf-8")):
                seen += 1
                self.assertLessEqual(length, MOST_LINES, f"{path.name}: {name}")
        self.assertGreater(seen, 100)

    def test_python_functions_are_short(self) -> None:
        for path in python_files():
            for node in ast.walk(ast.parse(path.read_text(encoding="utf-8"))):
                if isinstance(node, ast.FunctionDef) and node.end_lineno:
                    length = node.end_lineno - node.lineno + 1
                    self.assertLessEqual(length, MOST_LINES, f"{path.name}: {node.name}")

    def test_lines_are_short(self) -> None:
        own = sources("web/**/*.mjs", "web/**/*.c", "web/types/*.ts")
        for path in [*own, *python_files()]:
            for number, line in enumerate(path.read_text(encoding="utf-8").split("\n"), 1):
                self.assertLessEqual(len(line), MOST_COLUMNS, f"{path.name}, line {number}")

    def test_html_is_made_by_one_template(self) -> None:
        pages = [path for path in sources("web/page/*.mjs") if path.name != "html.mjs"]
        self.assertGreater(len(pages), 40)
        for path in pages:
            text = path.read_text(encoding="utf-8")
            for way in ("innerHTML", "outerHTML", "insertAdjacentHTML", "document.write"):
                self.assertNotIn(way, text, path.name)

    def test_heap_is_short(self) -> None:
        self.assertLess(len((WEB / "heap.c").read_text(encoding="utf-8").splitlines()), 150)


class Calls(unittest.TestCase):
    """One list of the calls: that which the linker is told, the host's, and the module's."""

    def listed(self) -> set[str]:
        """Returns the calls of `calls.txt`."""
        return set((HOST / "calls.txt").read_text(encoding="ascii").split())

    def test_the_host_has_the_listed_calls(self) -> None:
        done = run_node(WEB / "test" / "call_names.mjs", HOST / "calls.mjs")
        self.assertEqual(set(done.stdout.split()), self.listed(), done.stderr)

    def test_the_module_imports_only_these(self) -> None:
        done = run_node(WEB / "test" / "imported_names.mjs", wasm())
        names = set(done.stdout.split())
        self.assertTrue(names, done.stderr)
        self.assertLessEqual(names, self.listed())
