"""The command `countygroups`, which runs the program inside this package."""
from __future__ import annotations

import os
import subprocess
import sys

from .errors import ProgramNotFound
from .program import program_without_path


def main() -> int:
    """Runs the program with the words of the command, and returns its status.

    The path isn't looked at, since this command may be the one that lies there.
    """
    try:
        program = program_without_path()
    except ProgramNotFound as fault:
        print(f"countygroups: {fault}", file=sys.stderr)
        return 5
    if program is None:
        print("countygroups: There is no program in this package.", file=sys.stderr)
        return 5
    command = [*program.command, *sys.argv[1:]]
    if os.name == "posix":
        os.execv(command[0], command)
    return subprocess.call(command)


if __name__ == "__main__":
    sys.exit(main())
