#!/usr/bin/env python3
"""Stores the LLVM module of which the kit's clang made the proved program, and the object.

usage: program_module.py FOLDER MODULE [OBJECT]

FOLDER is where `rt ci` proved and built every crate. `rt ci` keeps no module. So the program's
crate is proved and compiled once more, over the libraries that lie there, by the same words. The
toolchain is the kit's own, but for a script in the place of its clang, which keeps a copy of each
module that it compiles. MODULE is stored only if the program of this second build is, byte for
byte, the one that `rt ci` built. OBJECT is the file of which the kit linked that program.

Statuses: 0 all is stored, 1 the second build fails or differs, 2 these words can't be
followed.
"""
from __future__ import annotations

import filecmp
import os
import shlex
import shutil
import subprocess
import sys
import tempfile
from dataclasses import dataclass

from refusal import Refused

TOOLS = os.path.dirname(os.path.abspath(__file__))
PROGRAM = "countygroups"
# The kit calls its clang without an environment, so the paths stand in the script.
CLANG = """#!/usr/bin/env bash
for word in "$@"; do
    case $word in *.bc) [ ! -f "$word" ] || cp "$word" {modules}/"${{word##*/}}" ;; esac
done
exec -a "${{0%-script}}" {clang} "$@"
"""


@dataclass(frozen=True)
class Repository:
    """What `rt ci` left in a folder: the libraries that each crate names."""

    folder: str
    names: dict[str, list[str]]

    def library(self, crate: str) -> str:
        """Returns the path of a crate's library."""
        return f"{self.folder}/crates/{crate}/out/rlib/{crate}.rlib"

    def below(self, crate: str) -> list[str]:
        """Returns the crates that `crate` stands on, each behind those that it names itself."""
        found: list[str] = []
        for name in self.names[crate]:
            if name in self.names:
                found += [it for it in [*self.below(name), name] if it not in found]
        return found


def read_repository(folder: str) -> Repository:
    """Returns the crates that `crates.txt` of the folder lists."""
    names: dict[str, list[str]] = {}
    with open(f"{folder}/crates.txt", encoding="utf-8") as file:
        for line in file:
            crate, colon, named = line.partition("#")[0].partition(":")
            if colon:
                names[crate.strip()] = named.split()
    if PROGRAM not in names:
        raise Refused(f"{folder}/crates.txt doesn't list {PROGRAM}")
    return Repository(folder, names)


def words_of(kit: str, repository: Repository, crate: str) -> list[str]:
    """Returns the words by which the kit's prover and compiler find a program's crate."""
    named = repository.names[crate]
    words = ["--crate-name", crate, "src/main.rt", "-L", f"dependency={kit}/rlibs"]
    for name in ["std", *(it for it in named if it not in repository.names)]:
        words += ["--extern", f"{name}={kit}/rlibs/{name}.rlib"]
    for name in (it for it in named if it in repository.names):
        words += ["--extern", f"{name}={repository.library(name)}"]
    for name in repository.below(crate):
        words += ["-L", f"dependency={os.path.dirname(repository.library(name))}"]
    return [*words, "--antt-project", f"{kit}/rattle/logic/antt-project.json"]


def call(words: list[str], folder: str) -> None:
    """Runs words in `folder`. Raises `Refused` with what they said if they fail."""
    ran = subprocess.run(
        words,
        cwd=folder,
        stdout=subprocess.PIPE,
        stderr=subprocess.STDOUT,
        stdin=subprocess.DEVNULL,
        text=True,
        errors="replace",
        check=False,
    )
    if ran.returncode:
        told = ran.stdout[-2000:]
        raise Refused(f"`{os.path.basename(words[0])} {words[1]}` fails: {told}")


def make_toolchain(kit: str, room: str) -> str:
    """Makes a toolchain whose clang keeps each module in the folder `modules` of `room`."""
    os.mkdir(f"{room}/modules")
    clang = shlex.quote(f"{kit}/toolchain/bin/clang")
    with open(f"{room}/clang", "w", encoding="utf-8") as file:
        file.write(CLANG.format(modules=shlex.quote(f"{room}/modules"), clang=clang))
    call([f"{TOOLS}/kit_links.sh", f"{room}/kit", f"{room}/clang"], room)
    return f"{room}/kit/toolchain"


def build(kit: str, repository: Repository, room: str) -> tuple[str, str]:
    """Builds the program in `room` once more. Returns the paths of module and object."""
    folder = f"{repository.folder}/crates/{PROGRAM}"
    words = words_of(kit, repository, PROGRAM)
    toolchain = ["--toolchain", make_toolchain(kit, room)]
    proved, made, program = f"{room}/checked", f"{room}/program.o", f"{room}/program"
    built = ["--logic-built", f"{kit}/logic_built"]
    call([f"{kit}/bin/rattle", "check", *words, *built, "-o", proved], folder)
    words += ["--crate-checked", proved, *toolchain, "--backend", "llvm", "-o", made]
    call([f"{kit}/bin/rattle", "build", *words], folder)
    link = ["--target", "x86_64-unknown-linux-gnu", "--toolchain", f"{kit}/toolchain"]
    link += ["-o", program, made, f"{kit}/c/libos_c.a", f"{kit}/c/liblibc_c.a"]
    call([f"{kit}/bin/rattle-link", *link], folder)
    if not filecmp.cmp(program, f"{folder}/out/{PROGRAM}", shallow=False):
        raise Refused(f"the second build differs from {folder}/out/{PROGRAM}")
    modules = os.listdir(f"{room}/modules")
    if len(modules) != 1:
        raise Refused(f"clang compiled {len(modules)} modules in place of one")
    return f"{room}/modules/{modules[0]}", made


def main(words: list[str]) -> int:
    """Follows the words, and returns the status to end with."""
    if len(words) not in (2, 3):
        print(__doc__, end="", file=sys.stderr)
        return 2
    folder, wanted = os.path.realpath(words[0]), words[1:]
    try:
        asked = subprocess.run(["rt", "doc"], capture_output=True, text=True, check=True)
        kit = os.path.dirname(asked.stdout.strip())
        with tempfile.TemporaryDirectory(prefix="program-module-") as room:
            for made, name in zip(build(kit, read_repository(folder), room), wanted):
                shutil.copyfile(made, name)
    except (Refused, OSError, subprocess.CalledProcessError) as error:
        print(f"program_module.py: {error}", file=sys.stderr)
        return 1
    return 0


if __name__ == "__main__":
    sys.exit(main(sys.argv[1:]))
