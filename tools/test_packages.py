#!/usr/bin/env python3
"""Tests the packages: each is made, installed in a room of its own, and used from another folder.

usage: python3 tools/test_packages.py [--packages FOLDER]

--packages FOLDER  the packages that `tools/packages.sh FOLDER` left. Without it they are made, and
                   made once more, since the same files have to give the same bytes

A kind of which the tool isn't installed is passed over, and a line says so. The published figures
are those of Cooper, Esselstyn, Herschlag, Mattingly and Tippett (docs/explanation/borders.md).
"""
from __future__ import annotations

import os
import re
import shutil
import subprocess
import sys
import tarfile
import tempfile
import unittest
import zipfile
from pathlib import Path

import r_check
import versions
from class_room import InRoom
from installed import NotThere, pass_over, program_there
from refusal import Refused

TOP = Path(__file__).resolve().parent.parent
DATA = TOP / "data" / "nc2020"
NATIVE = TOP / "dist" / "countygroups-x86_64-linux"
# The same object linked with musl, which the packages for Python and R have if it is there.
STATIC = Path(f"{NATIVE}-static")
INSIDE = STATIC if STATIC.is_file() else NATIVE
# What has the calls of the Python module wasmtime, by Node.
WASMTIME = TOP / "python" / "tests" / "wasm_stand_in"
VERSION = versions.versions(TOP)[versions.FIRST]
# What no package may take from this machine.
LEFT_OUT = ("COUNTYGROUPS", "PYTHONPATH", "R_LIBS", "PYTHONHOME", "VIRTUAL_ENV")
# What an analyst runs first, with the border list of the package. It prints the published figures.
PYTHON = f"""
import countygroups
census = countygroups.read_census("{DATA}/nc2020geo.pl", "{DATA}/nc000012020.pl")
answer = countygroups.solve(census, 50)
best = answer.best_groupings
print(countygroups.__version__, answer.check(), len(best), len(best.shared))
print(countygroups.find_program().command[-1])
"""
R = f"""
library(countygroups)
census <- read_census("{DATA}/nc2020geo.pl", "{DATA}/nc000012020.pl")
answer <- county_groups(census, 50)
best <- best_groupings(answer)
version <- as.character(packageVersion("countygroups"))
cat(version, check_certificate(answer)$outcome, best$number, nrow(best$shared), "\\n")
cat(tail(find_program(), 1), "\\n")
"""
FIGURES = f"{VERSION} best 16 17"
# What `R CMD check --as-cran` runs, and the package of Debian that has it.
R_CHECKS = {"checkbashisms": "devscripts", "qpdf": "qpdf", "pandoc": "pandoc"}
LATEX = "LaTeX as texlive-latex-recommended and texlive-fonts-recommended"
# A block of Python in a document, with what it prints.
BLOCK = re.compile(r"^```python\n(.*?)^```\n(?:\n```text\n(.*?)^```\n)?", re.M | re.S)
QUIETLY = ("--quiet", "--no-index")
GIVEN: dict[str, Path] = {}


def environment() -> dict[str, str]:
    """Returns the environment without what would bring another program or package."""
    return {key: value for key, value in os.environ.items() if key not in LEFT_OUT}


def ran(
    *words: "str | Path", folder: "Path | None" = None, more: "dict[str, str] | None" = None
) -> str:
    """Runs a command and returns its standard output. `more` changes the environment.

    Raises `AssertionError` if it fails.
    """
    env = {**environment(), **(more or {})}
    done = subprocess.run(
        [str(word) for word in words], cwd=folder, env=env, capture_output=True, text=True
    )
    if done.returncode:
        raise AssertionError(f"{words} ended with {done.returncode}:\n{done.stdout}{done.stderr}")
    return done.stdout


def need(name: str, package: str) -> None:
    """Passes the test over if a program isn't installed."""
    if not shutil.which(name):
        what = f"there is no `{name}`: Debian has it as the package {package}"
        pass_over(what)
        raise NotThere(what)


def made(kind: str, folder: Path) -> Path:
    """Makes the packages of a kind in `folder`, unless they were given, and returns the folder."""
    if "packages" in GIVEN:
        return GIVEN["packages"]
    ran(TOP / "tools" / "packages.sh", folder, kind)
    return folder


class Packages(InRoom):
    """Tests that share the packages of a kind, in `room / "packages"`."""

    kind = ""
    tool = ("", "")
    packages: Path

    @classmethod
    def setUpClass(cls) -> None:
        if not cls.kind:
            raise unittest.SkipTest("it has no kind")
        need(*cls.tool)
        super().setUpClass()
        cls.packages = made(cls.kind, cls.room / "packages")

    def found(self, pattern: str) -> Path:
        """Returns the one package whose name fits a pattern."""
        paths = list(self.packages.glob(pattern))
        self.assertEqual(len(paths), 1, pattern)
        return paths[0]

    def compare_with_another_run(self, patterns: list[str]) -> None:
        """Makes the packages once more, and compares their bytes."""
        if "packages" in GIVEN:
            self.skipTest("the packages were given")
        again = self.room / "again"
        ran(TOP / "tools" / "packages.sh", again, self.kind)
        for pattern in patterns:
            first = self.found(pattern)
            self.assertEqual(first.read_bytes(), (again / first.name).read_bytes(), first.name)


class PythonPackages(Packages):
    """Tests both wheels, each in an environment of its own."""

    kind = "python"
    tool = ("python3", "python3")

    def installed(self, source: Path) -> Path:
        """Installs a wheel or a folder in an environment of its own, and returns its programs."""
        room = Path(tempfile.mkdtemp(dir=self.room))
        ran(sys.executable, "-m", "venv", "--without-pip", room / "env")
        python = room / "env" / "bin" / "python"
        ran(sys.executable, "-m", "pip", f"--python={python}", "install", *QUIETLY, source)
        return room / "env" / "bin"

    def test_native(self) -> None:
        """As a user does it: `python3 -m venv`, `pip install`, and the command."""
        room = Path(tempfile.mkdtemp(dir=self.room))
        ran(sys.executable, "-m", "venv", room / "env")
        programs = room / "env" / "bin"
        ran(programs / "pip", "install", *QUIETLY, self.found("*manylinux*.whl"))
        self.assertTrue(ran(programs / "countygroups", "--version").startswith("countygroups "))
        figures, program = ran(programs / "python", "-c", PYTHON, folder=self.room).splitlines()
        self.assertEqual(figures, FIGURES)
        self.assertTrue(program.startswith(str(self.room)), program)
        self.assertEqual(Path(program).read_bytes(), INSIDE.read_bytes())

    def test_by_node(self) -> None:
        program_there("node")
        programs = self.installed(self.found("*-none-any.whl"))
        self.assertTrue(ran(programs / "countygroups", "--version").startswith("countygroups "))
        figures, program = ran(programs / "python", "-c", PYTHON, folder=self.room).splitlines()
        self.assertEqual(figures, FIGURES)
        self.assertTrue(program.endswith("countygroups/bin/countygroups.mjs"), program)

    def test_by_wasmtime(self) -> None:
        """Without Node the module wasmtime runs it: here what stands in for that, by a Node."""
        node = program_there("node")
        programs = self.installed(self.found("*-none-any.whl"))
        tools = Path(tempfile.mkdtemp(dir=self.room))
        for name in ("cat", "rm"):
            (tools / name).symlink_to(str(shutil.which(name)))
        more = {"PATH": str(tools), "STAND_IN_NODE": node, "PYTHONPATH": str(WASMTIME)}
        figures, program = ran(
            programs / "python", "-c", PYTHON, folder=self.room, more=more
        ).splitlines()
        self.assertEqual(figures, FIGURES)
        self.assertTrue(program.endswith("countygroups/bin/countygroups.wasm"), program)
        told = ran(programs / "countygroups", "--version", more=more)
        self.assertTrue(told.startswith("countygroups "))

    def test_from_a_clone(self) -> None:
        """`pip install ./python` brings the program along, without a network or a build tool."""
        programs = self.installed(TOP / "python")
        program = ran(programs / "python", "-c", PYTHON, folder=self.room).splitlines()[1]
        self.assertTrue(program.startswith(str(self.room)), program)

    def test_readme(self) -> None:
        """The examples of README.md print what it has, by the wheel and from another folder."""
        words = [str(TOP / "tools" / "python_with.sh"), "geopandas", "matplotlib", "networkx"]
        python = subprocess.run(words, capture_output=True, text=True).stdout.strip()
        if not python:
            what = "geopandas, matplotlib and networkx aren't there: Debian has them as python3-*"
            pass_over(what)
            raise NotThere(what)
        room = Path(tempfile.mkdtemp(dir=self.room))
        ran(python, "-m", "venv", "--system-site-packages", room / "env")
        programs = room / "env" / "bin"
        ran(programs / "pip", "install", *QUIETLY, self.found("*manylinux*.whl"))
        (room / "data").symlink_to(TOP / "data")
        blocks = BLOCK.findall((TOP / "python" / "README.md").read_text(encoding="utf-8"))
        self.assertGreaterEqual(len(blocks), 6)
        source = "".join(block for block, _ in blocks)
        path = room / "readme.py"
        path.write_text(f"{source}print(countygroups.__file__)\n", encoding="utf-8")
        *lines, file = ran(programs / "python", path, folder=room).splitlines()
        self.assertEqual(lines, "".join(printed for _, printed in blocks).splitlines())
        self.assertTrue(file.startswith(str(room)), file)

    def test_source_archive(self) -> None:
        """A wheel that is made of the archive of sources is that of the repository."""
        room = Path(tempfile.mkdtemp(dir=self.room))
        code = f"import wheels; print(wheels.build_sdist({str(room)!r}))"
        name = ran(sys.executable, "-c", code, folder=TOP / "python" / "building").strip()
        words = ["-m", "pip", "wheel", "-q", "--no-index", "--no-deps", "-w", str(room)]
        ran(sys.executable, *words, "--config-settings", "program=native", room / name)
        wheel = self.found("*manylinux*.whl")
        self.assertEqual((room / wheel.name).read_bytes(), wheel.read_bytes())

    def test_what_is_inside(self) -> None:
        for pattern in ("*manylinux*.whl", "*-none-any.whl"):
            with zipfile.ZipFile(self.found(pattern)) as archive:
                names = {name.rsplit("/", 1)[1] for name in archive.namelist()}
                fields = archive.read(f"countygroups-{VERSION}.dist-info/METADATA").decode()
            self.assertLessEqual({"LICENSE-MIT", "LICENSE-APACHE", "NOTICE", "py.typed"}, names)
            self.assertLessEqual({"county_borders.txt", "borders_source.txt"}, names)
            self.assertIn(f"\nVersion: {VERSION}\n", fields)
            self.assertNotRegex(fields, r"\]\((?!https?:)")

    def test_name_has_the_library_that_is_needed(self) -> None:
        """The oldest C library of GNU with which the program starts is that of the wheel's name.

        The program that is linked with musl needs none.
        """
        need("objdump", "binutils")
        name = self.found("*manylinux*.whl").name
        if STATIC.is_file():
            self.assertIn("-manylinux_2_17_x86_64.musllinux_1_1_x86_64.whl", name)
            return
        found = re.findall(r"GLIBC_2\.([0-9]+)", ran("objdump", "-T", NATIVE))
        least = max(int(number) for number in found)
        self.assertIn(f"manylinux_2_{least}_x86_64", name)

    def test_same_bytes(self) -> None:
        self.compare_with_another_run(["*manylinux*.whl", "*-none-any.whl"])


class RPackage(Packages):
    """Tests the package for R, in a library of its own."""

    kind = "r"
    tool = ("R", "r-base-core")

    def use(self, source: Path) -> None:
        """Installs the package of an archive or a folder, and uses it."""
        library = Path(tempfile.mkdtemp(dir=self.room))
        ran("R", "CMD", "INSTALL", f"--library={library}", source)
        code = f'.libPaths(c("{library}", .libPaths()))\n{R}'
        figures, program = ran("Rscript", "-e", code, folder=self.room).splitlines()
        self.assertEqual(figures.strip(), FIGURES)
        self.assertEqual(Path(program.strip()).read_bytes(), INSIDE.read_bytes())
        self.assertTrue(program.startswith(str(library)), program)

    def test_archive(self) -> None:
        self.use(self.found("countygroups_*.tar.gz"))

    def test_from_a_clone(self) -> None:
        self.use(TOP / "r")

    def test_same_bytes(self) -> None:
        self.compare_with_another_run(["countygroups_*.tar.gz"])

    def test_vignette(self) -> None:
        """It is HTML if R has what builds it, and else a plain text. The programs stay packed."""
        there = 'cat(all(sapply(c("knitr", "markdown"), requireNamespace, quietly = TRUE)))'
        kind = "html" if ran("Rscript", "-e", there).endswith("TRUE") else "txt"
        with tarfile.open(self.found("countygroups_*.tar.gz")) as archive:
            names = archive.getnames()
            member = archive.extractfile(f"countygroups/inst/doc/countygroups.{kind}")
            text = member.read().decode() if member else ""
        self.assertIn("16 best groupings", text)
        self.assertNotIn("senate.png", text)
        programs = [Path(name) for name in names if "/inst/bin/" in name]
        self.assertEqual({path.suffix for path in programs}, {".gz"})

    def test_check(self) -> None:
        """`R CMD check --as-cran` notes nothing but a new submission, and runs the tests inside."""
        for name, package in R_CHECKS.items():
            need(name, package)
        if not r_check.has_latex():
            pass_over(f"the PDF of the manual of R's package: Debian has {LATEX}")
        log = r_check.log_of(self.found("countygroups_*.tar.gz"))
        wrong = [one for one in r_check.noted_in(log) if not r_check.is_passed_over(one)]
        self.assertEqual(wrong, [])
        for name in ("the path of four counties", "the Senate of 2020", "the House of 2020"):
            self.assertIn(f"ok: {name} \n", log)


class CheckOfR(unittest.TestCase):
    """Tests what `tools/r_check.py` reads of a log."""

    log = """\
* checking CRAN incoming feasibility ... NOTE
Maintainer: 'The countygroups authors <a@b.c>'

New submission
* checking for future file timestamps ... NOTE
unable to verify current time
* checking line endings in shell scripts ... OK
{}* checking tests ... OK
  Running 'plain.R'
* DONE
Status: {}
"""

    def wrong(self, lines: str, status: str) -> list[tuple[str, ...]]:
        """Returns what isn't passed over in a log with more lines."""
        found = r_check.noted_in(self.log.format(lines, status))
        return [tuple(one) for one in found if not r_check.is_passed_over(one)]

    def test_passed_over(self) -> None:
        self.assertEqual(self.wrong("", "2 NOTEs"), [])

    def test_found(self) -> None:
        for kind in ("NOTE", "WARNING", "ERROR"):
            status = "3 NOTEs" if kind == "NOTE" else f"1 {kind}, 2 NOTEs"
            lines = f"* checking Rd files ... {kind}\nwhy\n"
            self.assertEqual(
                self.wrong(lines, status), [("checking Rd files", kind, "why\n")], kind
            )
        step = "checking line endings in shell scripts"
        lines = " WARNING\n'qpdf' is needed\n"
        found = self.wrong(lines, "1 WARNING, 2 NOTEs")
        self.assertEqual(found, [(step, "WARNING", "'qpdf' is needed\n")])

    def test_more_than_a_new_submission(self) -> None:
        log = self.log.replace("New submission\n", "New submission\n\nUnknown field\n")
        found = r_check.noted_in(log.format("", "2 NOTEs"))
        self.assertEqual([r_check.is_passed_over(one) for one in found], [False, True])

    def test_lines_that_are_not_counted(self) -> None:
        with self.assertRaises(Refused):
            self.wrong("", "1 ERROR, 2 NOTEs")
        with self.assertRaises(Refused):
            r_check.noted_in("* checking tests ...\n")

    def test_check_that_died(self) -> None:
        """Its log ends behind the first note, without a status."""
        log = self.log.partition("* checking for future")[0] + "* checking dependencies ..."
        with self.assertRaisesRegex(Refused, "the check didn't end"):
            r_check.noted_in(log)


class NpmPackage(Packages):
    """Tests npm's package, installed without a network."""

    kind = "npm"
    tool = ("npm", "npm")

    def test_installed(self) -> None:
        archive = self.found("countygroups-*.tgz")
        words = ["npm", "install", "--silent", "--offline", "--no-audit", "--no-fund", "--prefix"]
        room = Path(tempfile.mkdtemp(dir=self.room))
        ran(*words, room, archive, folder=room)
        program = room / "node_modules" / ".bin" / "countygroups"
        self.assertTrue(ran(program, "--version", folder=self.room).startswith("countygroups "))
        names = ["LICENSE-APACHE", "LICENSE-MIT", "NOTICE", "README.md", "countygroups.mjs"]
        found = sorted(path.name for path in (room / "node_modules" / "countygroups").iterdir())
        self.assertEqual(found, [*names, "countygroups.wasm", "package.json"])

    def test_same_bytes(self) -> None:
        self.compare_with_another_run(["countygroups-*.tgz"])


class DebianPackage(Packages):
    """Tests Debian's package, in a root of its own."""

    kind = "debian"
    tool = ("dpkg-deb", "dpkg")

    def test_installed(self) -> None:
        root = Path(tempfile.mkdtemp(dir=self.room))
        archive = self.found("countygroups_*_amd64.deb")
        if os.geteuid() == 0:
            for name in ("updates", "info"):
                (root / "var" / "lib" / "dpkg" / name).mkdir(parents=True)
            (root / "var" / "lib" / "dpkg" / "status").touch()
            ran("dpkg", f"--root={root}", "--force-depends", "--install", archive)
        else:
            ran("dpkg-deb", "-x", archive, root)
        program = root / "usr" / "bin" / "countygroups"
        self.assertTrue(ran(program, "--version").startswith("countygroups "))
        for name in (
            "man/man1/countygroups.1.gz",
            "bash-completion/completions/countygroups",
            "zsh/vendor-completions/_countygroups",
            "fish/vendor_completions.d/countygroups.fish",
            "doc/countygroups/copyright",
        ):
            self.assertTrue((root / "usr" / "share" / name).is_file(), name)

    def test_program_solves(self) -> None:
        """The stripped program stores the certificate that the program of dist/ stores."""
        root = Path(tempfile.mkdtemp(dir=self.room))
        ran("dpkg-deb", "-x", self.found("countygroups_*_amd64.deb"), root)
        words: list[str | Path] = [
            "solve",
            "--geo",
            DATA / "nc2020geo.pl",
            "--segment",
            DATA / "nc000012020.pl",
        ]
        words += ["--chamber", "50", "--adjacency", DATA / "county_borders.txt", "--certificate"]
        texts = [
            ran(program, *words, root / "certificate") + (root / "certificate").read_text()
            for program in (NATIVE, root / "usr" / "bin" / "countygroups")
        ]
        self.assertEqual(texts[0], texts[1])

    def test_same_bytes(self) -> None:
        self.compare_with_another_run(["countygroups_*_amd64.deb"])


class StaticProgram(InRoom):
    """Tests the program that is linked with musl: that of COUNTYGROUPS_STATIC, or of dist/."""

    program = Path(os.environ.get("COUNTYGROUPS_STATIC", STATIC))

    def setUp(self) -> None:
        if not self.program.is_file():
            self.skipTest(f"there is no {self.program.name}")

    def test_needs_no_library(self) -> None:
        need("objdump", "binutils")
        self.assertNotIn("GLIBC", ran("objdump", "-T", self.program))
        self.assertNotRegex(ran("objdump", "-p", self.program), "NEEDED|INTERP")

    def test_runs_alone(self) -> None:
        """It solves the Senate in a root that has nothing but the program and the files."""
        if os.geteuid() != 0:
            self.skipTest("only root can change the root")
        root = Path(tempfile.mkdtemp(dir=self.room))
        names = ("nc2020geo.pl", "nc000012020.pl", "county_borders.txt")
        for path in (self.program, *(DATA / name for name in names)):
            shutil.copy(path, root)
        words = ["solve", "--geo", names[0], "--segment", names[1], "--adjacency", names[2]]
        words += ["--chamber", "50", "--certificate", "certificate"]
        printed = ran("chroot", root, f"/{self.program.name}", *words)
        self.assertIn("\nanswer best\ncounts 2 9 9 1 0 0 2 1 0 1 0 0 0 0 0 0 1\n", printed)
        self.assertTrue((root / "certificate").is_file())


class Versions(unittest.TestCase):
    """Tests that all places name one version."""

    def test_they_agree(self) -> None:
        self.assertEqual(set(versions.versions(TOP).values()), {VERSION})

    def test_one_that_differs_is_found(self) -> None:
        with tempfile.TemporaryDirectory() as room:
            for name in versions.PLACES:
                path = Path(room) / name
                path.parent.mkdir(parents=True, exist_ok=True)
                path.write_bytes((TOP / name).read_bytes())
            changed = Path(room) / "CITATION.cff"
            changed.write_text(changed.read_text().replace(VERSION, "9.9.9"), encoding="utf-8")
            self.assertEqual(versions.versions(Path(room))["CITATION.cff"], "9.9.9")


if __name__ == "__main__":
    if sys.argv[1:2] == ["--packages"] and len(sys.argv) > 2:
        GIVEN["packages"] = Path(sys.argv[2]).resolve()
        del sys.argv[1:3]
    unittest.main()
