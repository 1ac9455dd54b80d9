"""Runs the program's WebAssembly by the Python module wasmtime.

It is run as a script of its own, with the path of countygroups.wasm and then the program's words.
`web/host/calls.txt` of the repository names the calls that the WebAssembly makes.
"""
from __future__ import annotations

import errno
import os
import signal
import sys
import time
from typing import Any, Callable, Dict, Sequence, Tuple, TypeVar

# What a call of the system gives that moves bytes: the bytes, or how many.
Moved = TypeVar("Moved")
# The numbers of errors as Linux has them, for which the program is compiled.
LINUX = {
    "EPERM": 1,
    "ENOENT": 2,
    "EINTR": 4,
    "EIO": 5,
    "ENXIO": 6,
    "EBADF": 9,
    "EAGAIN": 11,
    "ENOMEM": 12,
    "EACCES": 13,
    "EBUSY": 16,
    "EEXIST": 17,
    "EXDEV": 18,
    "ENODEV": 19,
    "ENOTDIR": 20,
    "EISDIR": 21,
    "EINVAL": 22,
    "ENFILE": 23,
    "EMFILE": 24,
    "ENOTTY": 25,
    "ETXTBSY": 26,
    "EFBIG": 27,
    "ENOSPC": 28,
    "ESPIPE": 29,
    "EROFS": 30,
    "EMLINK": 31,
    "EPIPE": 32,
    "ENAMETOOLONG": 36,
    "ENOSYS": 38,
    "ENOTEMPTY": 39,
    "ELOOP": 40,
    "EOVERFLOW": 75,
    "EOPNOTSUPP": 95,
    "ETIMEDOUT": 110,
    "ESTALE": 116,
    "EDQUOT": 122,
}
NAMES = {number: name for name, number in LINUX.items()}
# The types of the calls: what they take and what they give. 4 is an `i32`, and 8 an `i64`.
CALLS: Dict[str, Tuple[Tuple[int, ...], int]] = {
    "read": ((4, 8, 8), 8),
    "write": ((4, 8, 8), 8),
    "__write": ((4, 8, 8), 8),
    "open": ((8, 4, 8), 4),
    "close": ((4,), 4),
    "rename": ((8, 8), 4),
    "unlink": ((8,), 4),
    "readlink": ((8, 8, 8), 8),
    "lchown": ((8, 4, 4), 4),
    "fsync": ((4,), 4),
    "fdatasync": ((4,), 4),
    "ftruncate": ((4, 8), 4),
    "fchmod": ((4, 4), 4),
    "flock": ((4, 4), 4),
    "lseek": ((4, 8, 4), 8),
    "statx": ((4, 8, 4, 4, 8), 4),
    "isatty": ((4,), 4),
    "clock_gettime": ((4, 8), 4),
    "rattle_arg": ((8, 8, 8), 8),
    "rattle_errno": ((), 4),
    "rattle_set_errno": ((4,), 0),
    "__sysv_signal": ((4, 8), 8),
    "__xpg_strerror_r": ((4, 8, 8), 4),
}
# The flags of `open` as Linux has them.
ACCESS, READ, WRITE, CREATE, EXCLUSIVE = 3, 0, 1, 0o100, 0o200
# What `statx` is asked for: a path from the working folder, a link, or an open file.
FROM_FOLDER, OF_NAME, OF_LINK, OF_FILE = -100, 0, 0x100, 0x1000
# The length of `struct statx`, and the mask of the fields that are filled.
STATUS_LENGTH, STATUS_FILLED = 256, 0x31B
REAL_TIME, MONOTONIC = 0, 1
NO_WORD, WORD_TOO_LONG = -1, -2
# The most bytes that are moved at once, and how long a pipe that isn't ready is left alone.
MOST_MOVED, PAUSE = 1 << 20, 0.002
# Windows changes line ends otherwise.
AS_IT_IS = getattr(os, "O_BINARY", 0)
# The status of a shell for a program that was aborted, and for one that can't be started.
ABORTED, NOT_STARTED = 134, 126


class Memory:
    """Is the memory of an instance, once there is one."""

    def __init__(self) -> None:
        self.store: Any = None
        self.memory: Any = None

    def read(self, at: int, length: int) -> bytes:
        """Returns bytes of the memory."""
        return bytes(self.memory.read(self.store, at, at + length))

    def write(self, at: int, content: bytes) -> None:
        """Puts bytes into the memory."""
        if content:
            self.memory.write(self.store, content, at)

    def name(self, at: int) -> bytes:
        """Returns the bytes before the first 0 at a place."""
        found = b""
        while b"\0" not in found:
            # (a name may end close to the end of the memory)
            found += self.read(at + len(found), 1)
        return found[:-1]


class Calls:
    """Has the calls of the program. One that fails returns -1 and leaves the error's number."""

    def __init__(self, words: Sequence[bytes], memory: Memory) -> None:
        self.words = words
        self.memory = memory
        self.errno = 0

    def call(self, name: str) -> Callable[..., int | None]:
        """Returns the call of a name."""
        act: Callable[..., int | None] = getattr(self, f"do_{name.lstrip('_')}")
        failed = 0 if name == "isatty" else -1

        def run(*given: int) -> int | None:
            """Runs the call, and leaves the number of its error if it fails."""
            try:
                return act(*given)
            except OSError as fault:
                self.errno = LINUX.get(errno.errorcode.get(fault.errno or 0, ""), LINUX["EIO"])
                return failed

        return run

    def do_read(self, file: int, at: int, length: int) -> int:
        """Reads the next bytes of a file. 0 is the end."""
        found = patiently(lambda: os.read(file, min(length, MOST_MOVED)))
        self.memory.write(at, found)
        return len(found)

    def do_write(self, file: int, at: int, length: int) -> int:
        """Writes bytes to a file, and returns how many."""
        content = self.memory.read(at, min(length, MOST_MOVED))
        return patiently(lambda: os.write(file, content))

    def do_open(self, name: int, flags: int, more: int) -> int:
        """Opens a file to read it, to create it, or to write into a device or a pipe."""
        path = self.memory.name(name)
        if flags & ACCESS == READ:
            return os.open(path, os.O_RDONLY | AS_IT_IS)
        if flags & ACCESS == WRITE and not flags & CREATE:
            return os.open(path, os.O_WRONLY | os.O_TRUNC | AS_IT_IS)
        if not flags & CREATE or not flags & EXCLUSIVE:
            raise OSError(errno.EINVAL, "a file is opened to be read, written or created")
        # (`open` is variadic in C, so its mode is in the memory)
        mode = int.from_bytes(self.memory.read(more, 4), "little")
        return os.open(path, os.O_RDWR | os.O_CREAT | os.O_EXCL | AS_IT_IS, mode)

    def do_close(self, file: int) -> int:
        """Closes a file."""
        os.close(file)
        return 0

    def do_rename(self, source: int, target: int) -> int:
        """Puts a file under another name, in one step."""
        os.replace(self.memory.name(source), self.memory.name(target))
        return 0

    def do_unlink(self, name: int) -> int:
        """Removes a name."""
        os.unlink(self.memory.name(name))
        return 0

    def do_readlink(self, name: int, at: int, room: int) -> int:
        """Gives the path that a symbolic link has."""
        path = os.readlink(self.memory.name(name))[:room]
        self.memory.write(at, path)
        return len(path)

    def do_lchown(self, name: int, owner: int, group: int) -> int:
        """Gives a name an owner and a group, where the system has owners."""
        change = getattr(os, "lchown", None)
        if change:
            change(self.memory.name(name), owner, group)
        return 0

    def do_fsync(self, file: int) -> int:
        """Returns once the device has what was written."""
        os.fsync(file)
        return 0

    do_fdatasync = do_fsync

    def do_ftruncate(self, _file: int, _length: int) -> int:
        """Fails, since the program never cuts a file."""
        raise OSError(errno.ENOSYS, "")

    def do_fchmod(self, file: int, mode: int) -> int:
        """Gives a file permissions, where the system has them."""
        change = getattr(os, "fchmod", None)
        if change:
            change(file, mode)
        return 0

    def do_flock(self, _file: int, _what: int) -> int:
        """Fails, as in the other hosts, which have no locks."""
        raise OSError(errno.ENOSYS, "")

    def do_lseek(self, _file: int, _offset: int, _from: int) -> int:
        """Fails, so that standard input is to the program as a pipe is."""
        raise OSError(errno.ESPIPE, "")

    def do_isatty(self, file: int) -> int:
        """Returns whether a file is a terminal."""
        if not os.isatty(file):
            raise OSError(errno.ENOTTY, "")
        return 1

    def do_statx(self, file: int, name: int, flags: int, _mask: int, at: int) -> int:
        """Gives the mode, the size, the owner, and the numbers of a file and of its device."""
        path = self.memory.name(name)
        if flags == OF_FILE and not path:
            found = os.fstat(file)
        elif file == FROM_FOLDER and flags == OF_NAME:
            found = os.stat(path)
        elif file == FROM_FOLDER and flags == OF_LINK:
            found = os.lstat(path)
        else:
            raise OSError(errno.EINVAL, "statx is asked of a path, a link or an open file")
        self.memory.write(at, status_of(found))
        return 0

    def do_clock_gettime(self, clock: int, at: int) -> int:
        """Gives the time of day, or that of a clock that only goes forward."""
        if clock not in (REAL_TIME, MONOTONIC):
            raise OSError(errno.EINVAL, "there is no such clock")
        now = time.time_ns() if clock == REAL_TIME else time.monotonic_ns()
        parts = divmod(now, 10**9)
        self.memory.write(at, b"".join(part.to_bytes(8, "little") for part in parts))
        return 0

    def do_rattle_arg(self, place: int, at: int, room: int) -> int:
        """Gives a word of the command."""
        if place >= len(self.words):
            return NO_WORD
        word = self.words[place]
        self.memory.write(at, word[:room])
        return WORD_TOO_LONG if room < len(word) else len(word)

    def do_rattle_errno(self) -> int:
        """Returns the number of the last error."""
        return self.errno

    def do_rattle_set_errno(self, number: int) -> None:
        """Sets the number of the last error."""
        self.errno = number

    def do_sysv_signal(self, _number: int, _handler: int) -> int:
        """Does nothing: Python itself makes an error of a write to a closed pipe."""
        return 0

    def do_xpg_strerror_r(self, number: int, at: int, room: int) -> int:
        """Gives a text for an error."""
        text = NAMES.get(number, f"error {number}").encode() + b"\0"
        self.memory.write(at, text[:room])
        return 0


def patiently(act: Callable[[], Moved]) -> Moved:
    """Returns what `act` returns. Waits for a pipe that another process has set not to wait."""
    while True:
        try:
            return act()
        except BlockingIOError:
            time.sleep(PAUSE)


def status_of(found: os.stat_result) -> bytes:
    """Returns what is known of a file, as Linux's `struct statx` has it."""
    content = bytearray(STATUS_LENGTH)

    def put(at: int, length: int, number: int) -> None:
        """Puts a number at its place."""
        content[at : at + length] = (number % 2 ** (8 * length)).to_bytes(length, "little")

    put(0, 4, STATUS_FILLED)
    put(20, 4, found.st_uid)
    put(24, 4, found.st_gid)
    put(28, 2, found.st_mode)
    put(32, 8, found.st_ino)
    put(40, 8, found.st_size)
    put(136, 4, found.st_dev >> 32)
    put(140, 4, found.st_dev)
    return bytes(content)


def run(path: str, words: Sequence[str]) -> int:
    """Runs the WebAssembly of a path with these words, and returns its exit status."""
    import wasmtime

    engine = wasmtime.Engine()
    store = wasmtime.Store(engine)
    linker = wasmtime.Linker(engine)
    memory = Memory()
    given = [b"countygroups", *map(os.fsencode, words)]
    calls = Calls(given, memory)
    types: Dict[int, Any] = {4: [wasmtime.ValType.i32()], 8: [wasmtime.ValType.i64()], 0: []}
    for name, (takes, gives) in CALLS.items():
        kind = wasmtime.FuncType([types[one][0] for one in takes], types[gives])
        linker.define_func("env", name, kind, calls.call(name))
    instance = linker.instantiate(store, wasmtime.Module.from_file(engine, path))
    exports = instance.exports(store)
    memory.store, memory.memory = store, exports["memory"]
    return int(exports["main"](store, len(given), 0))


def main() -> int:
    """Runs what the words of this script name, and returns the status to end with."""
    # (Python looks for a signal only between its own steps, and the program takes many)
    signal.signal(signal.SIGINT, signal.SIG_DFL)
    try:
        import wasmtime
    except ImportError as fault:
        print(f"countygroups: the Python module wasmtime can't be used: {fault}", file=sys.stderr)
        return NOT_STARTED
    try:
        return run(sys.argv[1], sys.argv[2:])
    except (wasmtime.WasmtimeError, wasmtime.Trap) as fault:
        print(f"countygroups: the program stopped: {fault}", file=sys.stderr)
        return ABORTED


if __name__ == "__main__":
    sys.exit(main())
