"""Runs a command, as the gate, and prints the processor seconds of all that it ran, those of each
crate's checks, and the figure of docs/benchmarks.md: all of them divided by those of `place_sets`.

python3 bench/gate_seconds.py .ci/run

A check is known by the words `--crate-name NAME` of its process, which is looked at five times a
second: the last fifth of a second of each check is left out of the crates' seconds, and stands in
the sum.
"""
from __future__ import annotations

import os
import resource
import subprocess
import sys
import time
from typing import Optional

TICKS = os.sysconf("SC_CLK_TCK")
# The seconds of a check, by its process, the start of that process, and the crate.
Found = dict[tuple[str, bytes, str], float]


def read(path: str) -> bytes:
    """Returns what a file holds, or nothing if it can't be read."""
    try:
        with open(path, "rb") as file:
            return file.read()
    except OSError:
        return b""


def status_fields(process: str) -> list[bytes]:
    """Returns the fields of a process's status, from its state on."""
    return read(f"/proc/{process}/stat").rpartition(b")")[2].split()


def crate_of(process: str) -> Optional[str]:
    """Returns the crate that a process checks, or None."""
    words = read(f"/proc/{process}/cmdline").split(b"\0")
    if b"--crate-name" not in words[:-1]:
        return None
    return words[words.index(b"--crate-name") + 1].decode(errors="replace")


def seconds_of(process: str) -> float:
    """Returns its own processor seconds, and those of children that it has waited for."""
    fields = status_fields(process)
    return sum(int(it) for it in fields[11:15]) / TICKS if len(fields) > 14 else 0.0


def parent_of(process: str) -> Optional[str]:
    """Returns the process that started this one, or None if that isn't known."""
    fields = status_fields(process)
    return fields[1].decode() if len(fields) > 1 else None


def look(found: Found, ours: str) -> None:
    """Notes the seconds of each check below this process.

    A process whose parent is a check of the same crate is in its parent's.
    """
    names = {it: crate_of(it) for it in os.listdir("/proc") if it.isdigit()}
    for process, crate in names.items():
        if crate and is_below(process, ours):
            parent = parent_of(process)
            if parent is None or names.get(parent) != crate:
                start = status_fields(process)[19:20]
                key = (process, bytes(start[0]) if start else b"", crate)
                found[key] = max(found.get(key, 0.0), seconds_of(process))


def is_below(process: Optional[str], ours: str) -> bool:
    """Returns whether a process is ours, or is below it by at most 31 steps."""
    for _ in range(32):
        if process is None or process in ("0", "1"):
            return False
        if process == ours:
            return True
        process = parent_of(process)
    return False


def by_crate(found: Found) -> dict[str, float]:
    """Returns the seconds of each crate."""
    crates: dict[str, float] = {}
    for (_, _, crate), seconds in found.items():
        crates[crate] = crates.get(crate, 0.0) + seconds
    return crates


def main() -> int:
    """Runs the command, prints the seconds, and returns the command's status."""
    if len(sys.argv) < 2:
        sys.exit(__doc__)
    began = time.time()
    running = subprocess.Popen(sys.argv[1:])
    found: Found = {}
    while running.poll() is None:
        look(found, str(os.getpid()))
        time.sleep(0.2)
    used = resource.getrusage(resource.RUSAGE_CHILDREN)
    every = used.ru_utime + used.ru_stime
    crates = by_crate(found)
    for crate, seconds in sorted(crates.items(), key=lambda it: -it[1]):
        print(f"{seconds:8.0f} {crate}")
    minutes, status = (time.time() - began) / 60, running.returncode
    told = f"{minutes:.0f} minutes by the clock, status {status}"
    print(f"{every:8.0f} processor seconds in all, {told}")
    if crates.get("place_sets"):
        print(f"figure: {every / crates['place_sets']:.0f}")
    return status


if __name__ == "__main__":
    sys.exit(main())
