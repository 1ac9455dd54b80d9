#!/usr/bin/env python3
"""Tries `tools/prove.sh` and `tools/release.sh` in a small repository, with a stand-in for the kit.

usage: python3 tools/test_release.py

It needs git, and says so where git isn't there. Nothing is proved. The stand-in's `rt ci` makes two
programs, and says what the test wants. Its compiler has clang compile a module, and links it. If
the kit is there, `tools/kit_links.sh` is tried with the kit itself.
"""
from __future__ import annotations

import os
import shutil
import subprocess
import tempfile
import unittest

import dist_folder
from trial_repository import WHO, InRepository, write

TOOLS = os.path.join(dist_folder.TOP, "tools")
NEEDED = (
    "compare_dist.py",
    "dist_folder.py",
    "gate_room.py",
    "kit_links.sh",
    "program_module.py",
    "prove.sh",
    "refusal.py",
    "release.sh",
)
RT = """#!/usr/bin/env bash
set -e
kit=$(cd "$(dirname "$0")/.." && pwd)
case $1 in
    doc) echo "$kit/START-HERE.md" ;;
    version) echo "rattle-kit-0 logic 0" ;;
    ci)
        for name in other countygroups; do
            mkdir -p "crates/$name/out"
            (echo "#!/bin/sh"; echo "# object of module of $name") >"crates/$name/out/$name"
            chmod +x "crates/$name/out/$name"
        done
        cat "$kit/said"
        ;;
esac
"""
RATTLE = """#!/usr/bin/env bash
set -e
verb=$1
name=$3
while [ $# -gt 1 ]; do
    case $1 in
        --toolchain) toolchain=$2 ;;
        -o) made=$2 ;;
    esac
    shift
done
if [ "$verb" = check ]; then
    touch "$made"
else
    room=$(mktemp -d)
    echo "module of $name" >"$room/module.bc"
    (cd "$room" && env -i "$toolchain/bin/clang" -x ir module.bc -o module.o)
    cp "$room/module.o" "$made"
fi
"""
LINK = """#!/usr/bin/env bash
(echo "#!/bin/sh"; cat "$7") >"$6"
chmod +x "$6"
"""
CLANG = """#!/usr/bin/env bash
sed 's/^/# object of /' "$3" >"$5"
"""
WASM = """#!/usr/bin/env bash
sed 's/^/wasm of /' "$1" >"$2"
cp "$2" "$3"
"""
STATIC = """#!/usr/bin/env bash
sed 's/^/musl with /' "$1" >"$2"
chmod +x "$2"
"""
LAUNCHER = """import sys
for name in ("countygroups.mjs", "countygroups.cmd"):
    open(f"{sys.argv[1]}/{name}", "w").close()
"""
PAGE = """import os
os.makedirs("docs", exist_ok=True)
open("docs/page.html", "w").close()
"""
PAGE_TEST = """import os
assert os.path.exists("docs/page.html")
"""


def read(path: str) -> str:
    """Returns the text of the file at `path`."""
    with open(path, encoding="utf-8") as file:
        return file.read()


class TestRelease(InRepository):
    """A repository with two programs and their edits, and a kit that stands beside it."""

    def setUp(self) -> None:
        super().setUp()
        self.kit = f"{self.room}/kit"
        write(f"{self.kit}/bin/rt", RT, True)
        write(f"{self.kit}/bin/rtlib.py", "")
        write(f"{self.kit}/bin/rattle", RATTLE, True)
        write(f"{self.kit}/bin/rattle-link", LINK, True)
        write(f"{self.kit}/toolchain/bin/clang", CLANG, True)
        write(f"{self.kit}/toolchain/lib/libc.so", "")
        write(f"{self.kit}/said", "rt: ok\n9 passed, 0 failed\n")
        for name in NEEDED:
            shutil.copy(f"{TOOLS}/{name}", self.folder("tools"))
        write(f"{self.top}/tools/wasm.sh", WASM, True)
        write(f"{self.top}/tools/static_program.sh", STATIC, True)
        for name in ("cases/cases.py", "tools/test_packages.py"):
            write(f"{self.top}/{name}", "")
        write(f"{self.top}/tools/launcher.py", LAUNCHER)
        write(f"{self.top}/tools/make_page.py", PAGE)
        write(f"{self.top}/tools/test_page_in_browser.py", PAGE_TEST)
        write(f"{self.top}/test.sh", "#!/bin/sh\n", True)
        for name in ("countygroups", "other"):
            write(f"{self.top}/crates/{name}/src/main.rt", name)
        write(f"{self.top}/crates/other/must-fail/a.edit", "a")
        write(f"{self.top}/crates/other/tried/b.edit", "b")
        write(f"{self.top}/crates.txt", "countygroups:\nother:\n")
        write(f"{self.top}/HANDLES", "Handles allowed: none.\n")
        write(f"{self.top}/.gitignore", "out/\n__pycache__\n")
        self.git("init", "-q", "-b", "main")
        self.commit("the first")

    def folder(self, name: str) -> str:
        """Makes a folder of the repository, and returns its path."""
        os.makedirs(f"{self.top}/{name}", exist_ok=True)
        return f"{self.top}/{name}"

    def run_words(self, *words: str) -> subprocess.CompletedProcess[str]:
        """Runs words in the repository, with the kit on the path."""
        path = f"{self.kit}/bin:{os.environ['PATH']}"
        how = {**os.environ, **WHO, "PATH": path}
        return subprocess.run(words, cwd=self.top, env=how, capture_output=True, text=True)

    def prove(self, *words: str) -> subprocess.CompletedProcess[str]:
        """Proves into the folder `proved` beside the repository."""
        places = (f"{self.room}/proved", f"{self.room}/log")
        kept = ("--module", f"{self.room}/m.bc", "--object", f"{self.room}/m.o")
        return self.run_words("tools/prove.sh", *places, *kept, *words)

    def release(self) -> subprocess.CompletedProcess[str]:
        """Releases what was proved into that folder."""
        places = ("--room", f"{self.room}/proved", "--log", f"{self.room}/log")
        kept = ("--module", f"{self.room}/m.bc", "--object", f"{self.room}/m.o")
        return self.run_words("tools/release.sh", *places, *kept)

    def test_the_module_of_the_program_is_kept(self) -> None:
        self.assertEqual(self.prove().returncode, 0)
        self.assertEqual(read(f"{self.room}/m.bc"), "module of countygroups\n")
        self.assertEqual(read(f"{self.room}/m.o"), "# object of module of countygroups\n")
        self.assertEqual(read(f"{self.room}/log"), "rt: ok\n9 passed, 0 failed\n")

    def test_a_second_build_that_differs_is_refused(self) -> None:
        write(f"{self.kit}/bin/rattle-link", LINK.replace("#!/bin/sh", "#!/bin/bash"), True)
        ran = self.prove()
        self.assertEqual(ran.returncode, 1)
        self.assertIn("the second build differs", ran.stderr)
        self.assertFalse(os.path.exists(f"{self.room}/m.bc"))

    def test_a_program_that_does_not_compile_is_refused(self) -> None:
        write(f"{self.kit}/bin/rattle", "#!/bin/sh\necho too little\nexit 1\n", True)
        ran = self.prove()
        self.assertEqual(ran.returncode, 1)
        self.assertIn("`rattle check` fails: too little", ran.stderr)

    def test_an_edit_that_shows_nothing_fails(self) -> None:
        write(f"{self.kit}/said", "rt: other: BAD EDIT\n9 passed, 0 failed\n")
        ran = self.prove()
        self.assertEqual(ran.returncode, 1)
        self.assertIn("shows nothing", ran.stderr)

    def test_a_release_proves_and_makes_all_files(self) -> None:
        write(f"{self.top}/dist/old", "old")
        ran = self.run_words("tools/release.sh")
        self.assertEqual(ran.returncode, 0, ran.stderr)
        names = [
            "BUILD",
            "SHA256SUMS",
            "countygroups-x86_64-linux",
            "countygroups-x86_64-linux-static",
            "countygroups.cmd",
            "countygroups.mjs",
            "countygroups.wasm",
        ]
        self.assertEqual(sorted(os.listdir(f"{self.top}/dist")), names)
        wasm = read(f"{self.top}/dist/countygroups.wasm")
        self.assertEqual(wasm, "wasm of module of countygroups\n")
        static = read(f"{self.top}/dist/countygroups-x86_64-linux-static")
        self.assertEqual(static, "musl with # object of module of countygroups\n")
        tree = self.run_words("git", "rev-parse", "HEAD:crates").stdout
        wanted = f"crates {tree}kit rattle-kit-0 logic 0\nproof 9 passed, 0 failed\n"
        self.assertEqual(read(f"{self.top}/dist/BUILD"), wanted)
        self.assertTrue(os.path.exists(f"{self.top}/docs/page.html"))
        sums = self.run_words("sh", "-c", "cd dist && sha256sum --strict -c SHA256SUMS")
        self.assertEqual(sums.returncode, 0, sums.stdout)

    def test_a_finished_proof_is_taken(self) -> None:
        self.prove("--all-edits")
        ran = self.release()
        self.assertEqual(ran.returncode, 0, ran.stderr)
        self.assertIn("byte for byte", ran.stdout)

    def test_a_proof_without_all_edits_is_refused(self) -> None:
        self.prove()
        ran = self.release()
        self.assertEqual(ran.returncode, 1)
        self.assertIn("crates/other/must-fail/b.edit differs", ran.stderr)
        self.assertFalse(os.path.exists(f"{self.top}/dist"))

    def test_a_proof_without_edits(self) -> None:
        self.prove("--no-edits")
        self.assertFalse(os.path.exists(f"{self.room}/proved/crates/other/must-fail"))

    def test_a_proof_of_other_crates_is_refused(self) -> None:
        self.prove("--all-edits")
        write(f"{self.top}/crates/other/src/main.rt", "changed")
        self.assertIn("as it is committed", self.release().stderr)
        self.commit("a change")
        self.assertIn("crates/other/src/main.rt differs", self.release().stderr)

    def test_a_proof_that_failed_is_refused(self) -> None:
        write(f"{self.kit}/said", "rt: FAILED\n8 passed, 1 failed\n")
        self.prove("--all-edits")
        self.assertIn("isn't that all passed", self.release().stderr)

    def test_tests_that_fail_are_no_release(self) -> None:
        write(f"{self.top}/test.sh", "#!/bin/sh\nexit 1\n", True)
        self.prove("--all-edits")
        self.assertEqual(self.release().returncode, 1)
        self.assertFalse(os.path.exists(f"{self.top}/dist"))


NO_WORDS: dict[str, str] = {}
PASSED_ON = """#!/usr/bin/env bash
exec -a "${0%-script}" "$(dirname "$(readlink -f "$(dirname "$0")/ld.lld")")/clang" "$@"
"""


@unittest.skipUnless(shutil.which("rt"), "the kit isn't there")
class TestKitLinks(unittest.TestCase):
    """The kit behind links, with a script that hands the words on to its clang."""

    def setUp(self) -> None:
        self.room = tempfile.mkdtemp(prefix="test-kit-links-")
        self.addCleanup(shutil.rmtree, self.room)
        write(f"{self.room}/script", PASSED_ON)
        words = [f"{TOOLS}/kit_links.sh", f"{self.room}/kit", f"{self.room}/script"]
        subprocess.run(words, check=True)

    def call(self, *words: str) -> subprocess.CompletedProcess[str]:
        """Calls clang as the kit's command does: by a name, and without an environment."""
        clang = f"{self.room}/kit/toolchain/bin/clang"
        return subprocess.run(words, executable=clang, env=NO_WORDS, capture_output=True, text=True)

    def test_names_are_listed(self) -> None:
        ran = self.call("llvm-nm", "-D", "--undefined-only", "-j", "/bin/sh")
        self.assertEqual((ran.returncode, ran.stderr), (0, ""))
        self.assertIn("__libc_start_main", ran.stdout)

    def test_other_words_go_to_the_script(self) -> None:
        ran = self.call("clang", "--version")
        self.assertEqual(ran.returncode, 0)
        self.assertIn("clang version", ran.stdout)


if __name__ == "__main__":
    unittest.main()
