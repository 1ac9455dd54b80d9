"""Runs a program so that nothing of it is left if its caller is ended."""
from __future__ import annotations

import math
import os
import select
import subprocess
import tempfile
import time
from pathlib import Path
from typing import IO, Callable, Sequence, Tuple

from .errors import TimeLimitError

try:
    import pty
    import tty
except ImportError:  # a system without pseudo terminals
    HAS_TERMINALS = False
else:
    HAS_TERMINALS = True

SHELL = "/bin/sh"
# How long a program writes nothing to a terminal before that is told.
IDLE_SECONDS = 0.25
# Runs the words behind the first one, which is their working folder. Standard input is a pipe that
# the caller holds open. Whatever ends the caller, the pipe ends with it: then the program is killed
# and the folder is removed.
WATCHED = """
folder=$1
shift
exec 3<&0
"$@" </dev/null 3<&- &
program=$!
{
    cat <&3
    trap "" TERM
    kill -s KILL "$program"
    cd /
    rm -rf -- "$folder"
} >/dev/null 2>&1 &
watcher=$!
exec 3<&-
wait "$program"
status=$?
kill "$watcher" 2>/dev/null
exit "$status"
"""

Ended = Tuple[int, bytes, bytes]
Write = Callable[[bytes], object]


class Watched:
    """Is a program that is started in a folder, as a context that ends it."""

    def __init__(
        self, command: Sequence[str], folder: Path, output: IO[bytes], errors: "int | IO[bytes]"
    ) -> None:
        """Starts `command` in `folder`. Its two outputs go to `output` and `errors`.

        Raises `OSError` if it can't be started.
        """
        words = list(command)
        if os.path.isfile(SHELL):
            # (the shell says nothing of a program that isn't one)
            if not os.access(words[0], os.X_OK):
                raise PermissionError(13, os.strerror(13))
            words = [SHELL, "-c", WATCHED, "countygroups", str(folder), *words]
        self.process = subprocess.Popen(
            words, cwd=folder, stdin=subprocess.PIPE, stdout=output, stderr=errors
        )

    def __enter__(self) -> "subprocess.Popen[bytes]":
        """Returns the process."""
        return self.process

    def __exit__(self, *_: object) -> None:
        """Ends the program, if it still runs, and waits for its end."""
        assert self.process.stdin
        self.process.stdin.close()
        if not os.path.isfile(SHELL):
            self.process.kill()
        self.process.wait()


def run_watched(command: Sequence[str], folder: Path, seconds: float | None) -> Ended:
    """Runs a command in `folder`, and returns its status and what it wrote to its two outputs.

    If it takes longer than `seconds`, it is ended, and `TimeLimitError` is raised. Raises `OSError`
    if it can't be started.
    """
    with tempfile.TemporaryFile() as output, tempfile.TemporaryFile() as errors:
        with Watched(command, folder, output, errors) as process:
            try:
                status = process.wait(seconds)
            except subprocess.TimeoutExpired as fault:
                raise time_is_over(seconds) from fault
        for file in (output, errors):
            file.seek(0)
        return status, output.read(), errors.read()


def run_on_terminal(
    command: Sequence[str],
    folder: Path,
    seconds: float | None,
    write: Write,
    idle: Callable[[], object],
) -> Tuple[int, bytes]:
    """Runs a command whose standard error is a terminal, and gives `write` what it writes there.

    Calls `idle` after each quarter of a second in which it writes nothing. Returns its status and
    its standard output. `seconds` and errors are as in `run_watched`. If `write` or `idle` raises
    an error, the command is ended.
    """
    ours, theirs = pty.openpty()
    tty.setraw(theirs)
    ends_at = math.inf if seconds is None else time.monotonic() + seconds
    with open(ours, "rb", buffering=0) as reader, tempfile.TemporaryFile() as output:
        try:
            watched = Watched(command, folder, output, theirs)
        finally:
            os.close(theirs)
        with watched as process:
            while not is_closed(reader.fileno(), write, idle):
                if time.monotonic() > ends_at:
                    raise time_is_over(seconds)
            status = process.wait()
        output.seek(0)
        return status, output.read()


def is_closed(terminal: int, write: Write, idle: Callable[[], object]) -> bool:
    """Gives `write` the next bytes of a terminal, or calls `idle` if none come for a time.

    Returns whether the other end of the terminal is closed.
    """
    if not select.select([terminal], [], [], IDLE_SECONDS)[0]:
        idle()
        return False
    try:
        text = os.read(terminal, 65536)
    except OSError:
        return True
    write(text)
    return not text


def time_is_over(seconds: float | None) -> TimeLimitError:
    """Returns the error that says that `seconds` are over."""
    return TimeLimitError(f"There is no answer after {seconds} seconds, so the program was ended.")
