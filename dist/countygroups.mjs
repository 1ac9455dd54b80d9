#!/bin/sh
":" //; (: 3>&1) 2>/dev/null || exec 1</dev/null; exec node "$0" "$@"
import fs from "node:fs";
import tty from "node:tty";
const module_errno = (() => {
/**
 * The numbers of errors that a host call can leave.
 *
 * The program is compiled for Linux, so it knows errors by Linux's numbers. A host on another
 * system, or in a browser, translates its own errors to these.
 */

/** The numbers by their names. */
const ERRNO = Object.freeze({
  EPERM: 1,
  ENOENT: 2,
  EINTR: 4,
  EIO: 5,
  ENXIO: 6,
  EBADF: 9,
  EAGAIN: 11,
  ENOMEM: 12,
  EACCES: 13,
  EBUSY: 16,
  EEXIST: 17,
  EXDEV: 18,
  ENODEV: 19,
  ENOTDIR: 20,
  EISDIR: 21,
  EINVAL: 22,
  ENFILE: 23,
  EMFILE: 24,
  ENOTTY: 25,
  ETXTBSY: 26,
  EFBIG: 27,
  ENOSPC: 28,
  ESPIPE: 29,
  EROFS: 30,
  EMLINK: 31,
  EPIPE: 32,
  ENAMETOOLONG: 36,
  ENOSYS: 38,
  ENOTEMPTY: 39,
  ELOOP: 40,
  EOVERFLOW: 75,
  EOPNOTSUPP: 95,
  ETIMEDOUT: 110,
  ESTALE: 116,
  EDQUOT: 122,
});

/** The errors by their names, as a table that any name can be looked up in. */
const BY_NAME = new Map(Object.entries(ERRNO));

/** The names by their numbers. */
const NAMES = new Map(Object.entries(ERRNO).map(([name, number]) => [number, name]));

/**
 * Returns the number of the error that is called `name`, or `EIO` if the table doesn't have it.
 *
 * @param {unknown} name
 * @returns {number}
 */
function errnoOf(name) {
  const known = typeof name === "string" ? BY_NAME.get(name) : undefined;
  return known ?? ERRNO.EIO;
}

/**
 * Returns a text for the error of number `errno`: its name, or its number if it has no name here.
 *
 * @param {number} errno
 * @returns {string}
 */
function textOfErrno(errno) {
  return NAMES.get(errno) ?? `error ${errno}`;
}
return { ERRNO, errnoOf, textOfErrno };
})();
const module_file_store = (() => {
/**
 * The interface between the host calls and the files that they work on.
 *
 * `node_files.mjs` has it for the machine's files, and `browser_files.mjs` for files that a page
 * was given. The calls are synchronous, because the program waits for each. A file that is open
 * has a number; 0, 1 and 2 are standard input, standard output and standard error. Names are
 * bytes, as the program gives them: UTF-8 in all names that it makes.
 */

/**
 * What is known of a file.
 *
 * @typedef {object} FileStatus
 * @property {number} mode The type and the permissions, as POSIX's `st_mode` has them.
 * @property {bigint} size The number of bytes.
 * @property {number} owner The number of its owner, or 0 if owners aren't known.
 * @property {number} group The number of its group, or 0 if groups aren't known.
 * @property {bigint} device The number of its device, from 0 to 2^64 - 1.
 * @property {bigint} number Its own number on the device, from 0 to 2^64 - 1. 0 if files have none.
 */

/**
 * Files by name and by number. Each call throws a `HostError` if it fails.
 *
 * @typedef {object} FileStore
 * @property {(name: Uint8Array) => number} openToRead
 *   Opens the file `name` at its first byte, and returns its number.
 * @property {(name: Uint8Array, mode: number) => number} create
 *   Creates the file `name` with the permissions `mode`, opens it for writing, and returns its
 *   number. `EEXIST` if the name is taken.
 * @property {(name: Uint8Array) => number} openToWrite
 *   Opens the device or the pipe `name` for writing, and returns its number. A regular file is
 *   emptied.
 * @property {(file: number, mode: number) => void} setMode
 *   Gives `file` the permissions `mode`.
 * @property {(name: Uint8Array, owner: number, group: number) => void} setOwner
 *   Gives the file `name` this owner and this group. -1 leaves what there is.
 * @property {(name: Uint8Array) => Uint8Array} pathOfLink
 *   Returns the path that the symbolic link `name` has. `EINVAL` if it is no link.
 * @property {(file: number, into: Uint8Array) => number} read
 *   Puts the next bytes of `file` at the start of `into`, and returns how many. 0 is the end.
 * @property {(file: number, bytes: Uint8Array) => number} write
 *   Writes the first bytes of `bytes` to `file`, and returns how many.
 * @property {(file: number) => void} close
 *   Closes `file`.
 * @property {(file: number) => void} sync
 *   Returns once the device has what was written to `file`.
 * @property {(from: Uint8Array, to: Uint8Array) => void} rename
 *   Puts the file `from` under the name `to`, in one step. A file that had that name is gone.
 * @property {(name: Uint8Array) => void} unlink
 *   Removes the name `name`.
 * @property {(name: Uint8Array) => FileStatus} statusOfName
 *   Returns what is known of what `name` leads to.
 * @property {(name: Uint8Array) => FileStatus} statusOfLink
 *   Returns what is known of `name` itself, if it is a symbolic link, and else as `statusOfName`.
 * @property {(file: number) => FileStatus} statusOfFile
 *   Returns what is known of `file`.
 * @property {(file: number) => boolean} isTerminal
 *   Returns whether `file` is a terminal.
 */

/** The type of a file in a `mode`: these bits, and the two values of them that the hosts make. */
const FILE_TYPE = Object.freeze({ FOLDER: 0o040000, PLAIN: 0o100000 });

/** Why a host call failed. */
class HostError extends Error {
  /**
   * @param {number} errno The number of the error, one of `ERRNO`.
   * @param {string} [why] What is known of the cause, for a person.
   */
  constructor(errno, why = "") {
    super(why || `a host call failed with error ${errno}`);
    this.name = "HostError";
    this.errno = errno;
  }
}
return { FILE_TYPE, HostError };
})();
const module_node_files = (() => {
/** The files of the machine, by Node. */

const { ERRNO, errnoOf } = module_errno;
const { HostError } = module_file_store;

/**
 * @typedef {import("./file_store.mjs").FileStatus} FileStatus
 * @typedef {import("./file_store.mjs").FileStore} FileStore
 */

/** The most bytes that one call of Node moves. */
const MOST_MOVED = 1 << 30;

/** How many milliseconds pass before a pipe that isn't ready is asked again. */
const PAUSE = 2;

/**
 * Returns what `call` returns. An error of Node's becomes a `HostError` of the same name.
 *
 * @template T
 * @param {() => T} call
 * @returns {T}
 */
function withErrno(call) {
  try {
    return call();
  } catch (error) {
    const { code, message } = /** @type {{ code?: unknown, message?: string }} */ (error);
    throw new HostError(errnoOf(code), message);
  }
}

/**
 * Returns what `call` returns, as above. Another process can have set a pipe not to wait; then this
 * function waits until the pipe is ready.
 *
 * @template T
 * @param {() => T} call
 * @returns {T}
 */
function withPatience(call) {
  for (;;) {
    try {
      return withErrno(call);
    } catch (error) {
      if (!(error instanceof HostError) || error.errno !== ERRNO.EAGAIN) {
        throw error;
      }
      Atomics.wait(new Int32Array(new SharedArrayBuffer(4)), 0, 0, PAUSE);
    }
  }
}

/**
 * Reads as Node does. On Windows the end of a pipe is an error of Node's, and here it is the end.
 *
 * @param {number} file
 * @param {Uint8Array} into
 * @param {number} room
 * @returns {number}
 */
function readSync(file, into, room) {
  try {
    return fs.readSync(file, into, 0, room, null);
  } catch (error) {
    if (/** @type {{ code?: unknown }} */ (error).code === "EOF") {
      return 0;
    }
    throw error;
  }
}

/**
 * Returns what Node's `status` says.
 *
 * @param {import("node:fs").Status} status
 * @returns {FileStatus}
 */
function fileStatus({ mode, size, uid, gid, dev, ino }) {
  return {
    mode: Number(mode),
    size,
    owner: Number(uid),
    group: Number(gid),
    device: BigInt.asUintN(64, dev),
    number: BigInt.asUintN(64, ino),
  };
}

/**
 * The store over the machine's files. Pipes, devices and standard input are read as they come.
 *
 * @implements {FileStore}
 */
class NodeFiles {
  /** @param {Uint8Array} name */
  openToRead(name) {
    return withErrno(() => fs.openSync(Buffer.from(name), fs.constants.O_RDONLY));
  }

  /**
   * @param {Uint8Array} name
   * @param {number} mode
   */
  create(name, mode) {
    const { O_RDWR, O_CREAT, O_EXCL } = fs.constants;
    return withErrno(() => fs.openSync(Buffer.from(name), O_RDWR | O_CREAT | O_EXCL, mode));
  }

  /** @param {Uint8Array} name */
  openToWrite(name) {
    const { O_WRONLY, O_TRUNC } = fs.constants;
    return withErrno(() => fs.openSync(Buffer.from(name), O_WRONLY | O_TRUNC));
  }

  /**
   * @param {number} file
   * @param {number} mode
   */
  setMode(file, mode) {
    withErrno(() => fs.fchmodSync(file, mode));
  }

  /**
   * @param {Uint8Array} name
   * @param {number} owner
   * @param {number} group
   */
  setOwner(name, owner, group) {
    withErrno(() => fs.lchownSync(Buffer.from(name), owner, group));
  }

  /** @param {Uint8Array} name */
  pathOfLink(name) {
    return withErrno(() => fs.readlinkSync(Buffer.from(name), "buffer"));
  }

  /**
   * @param {number} file
   * @param {Uint8Array} into
   */
  read(file, into) {
    return withPatience(() => readSync(file, into, Math.min(into.length, MOST_MOVED)));
  }

  /**
   * @param {number} file
   * @param {Uint8Array} bytes
   */
  write(file, bytes) {
    const length = Math.min(bytes.length, MOST_MOVED);
    return withPatience(() => fs.writeSync(file, bytes, 0, length, null));
  }

  /** @param {number} file */
  close(file) {
    withErrno(() => fs.closeSync(file));
  }

  /** @param {number} file */
  sync(file) {
    withErrno(() => fs.fsyncSync(file));
  }

  /**
   * @param {Uint8Array} from
   * @param {Uint8Array} to
   */
  rename(from, to) {
    withErrno(() => fs.renameSync(Buffer.from(from), Buffer.from(to)));
  }

  /** @param {Uint8Array} name */
  unlink(name) {
    withErrno(() => fs.unlinkSync(Buffer.from(name)));
  }

  /** @param {Uint8Array} name */
  statusOfName(name) {
    return fileStatus(withErrno(() => fs.statSync(Buffer.from(name), { bigint: true })));
  }

  /** @param {Uint8Array} name */
  statusOfLink(name) {
    return fileStatus(withErrno(() => fs.lstatSync(Buffer.from(name), { bigint: true })));
  }

  /** @param {number} file */
  statusOfFile(file) {
    return fileStatus(withErrno(() => fs.fstatSync(file, { bigint: true })));
  }

  /** @param {number} file */
  isTerminal(file) {
    return tty.isatty(file);
  }
}
return { NodeFiles };
})();
const module_calls = (() => {
/**
 * The host calls: what the program imports, over a file store.
 *
 * The program is compiled for 64 bits with C's conventions. So a pointer, a size and a count come
 * and go as a `bigint`, and an `int` as a number. A call that fails returns -1 and leaves the
 * number of its error, which the program asks for by `rattle_errno`.
 */

const { ERRNO, textOfErrno } = module_errno;
const { HostError } = module_file_store;

/** @typedef {import("./file_store.mjs").FileStore} FileStore */

/**
 * A process, as its calls see it.
 *
 * @typedef {object} Process
 * @property {FileStore} store Its files.
 * @property {Uint8Array[]} words The bytes of its words, the program's name first.
 * @property {WebAssembly.Memory | null} memory Its memory, once the instance is there.
 * @property {number} errno The error of the last call that failed.
 */

/** The flags of `open` that the program gives, as Linux has them. */
const OPEN = Object.freeze({ ACCESS: 3, READ: 0, WRITE: 1, CREATE: 0o100, EXCLUSIVE: 0o200 });

/** What `statx` is asked for: a path from the folder of the process, a link, or an open file. */
const STATX = Object.freeze({ FROM_FOLDER: -100, OF_NAME: 0, OF_LINK: 0x100, OF_FILE: 0x1000 });

/** The fields of `struct statx` that are filled: where they lie, and the mask that says so. */
const STATX_FIELDS = Object.freeze({
  LENGTH: 256,
  MASK: 0,
  OWNER: 20,
  GROUP: 24,
  MODE: 28,
  NUMBER: 32,
  SIZE: 40,
  DEVICE_MAJOR: 136,
  DEVICE_MINOR: 140,
  FILLED: 0x31b,
});

/** The clocks of `clock_gettime`. */
const CLOCK = Object.freeze({ REAL_TIME: 0, MONOTONIC: 1 });

/** What `rattle_arg` answers where there is no such word, and where the room is too small. */
const NO_WORD = -1n;
const WORD_TOO_LONG = -2n;

/**
 * Returns the memory of `process`. It is asked for at each call, since memory that grows is a new
 * buffer.
 *
 * @param {Process} process
 * @returns {ArrayBuffer}
 */
function bufferOf(process) {
  if (process.memory === null) {
    throw new Error("the program called its host before its memory was there");
  }
  return process.memory.buffer;
}

/**
 * Returns the `length` bytes of the memory of `process` at `at`, which are written through.
 *
 * @param {Process} process
 * @param {bigint} at
 * @param {bigint} length
 * @returns {Uint8Array}
 */
function bytesAt(process, at, length) {
  return new Uint8Array(bufferOf(process), Number(at), Number(length));
}

/**
 * Returns a copy of the bytes before the first 0 at `at`, as a C string has them.
 *
 * @param {Process} process
 * @param {bigint} at
 * @returns {Uint8Array}
 */
function nameAt(process, at) {
  const bytes = new Uint8Array(bufferOf(process), Number(at));
  return bytes.slice(0, bytes.indexOf(0));
}

/**
 * Returns what `call` returns. If it throws a `HostError`, its number is left in `process`, and
 * `failed` is returned.
 *
 * @template T
 * @param {Process} process
 * @param {T} failed
 * @param {() => T} call
 * @returns {T}
 */
function answer(process, failed, call) {
  try {
    return call();
  } catch (error) {
    if (!(error instanceof HostError)) {
      throw error;
    }
    process.errno = error.errno;
    return failed;
  }
}

/**
 * Runs `call`, and returns 0. If it throws a `HostError`, its number is left in `process`, and -1
 * is returned.
 *
 * @param {Process} process
 * @param {() => void} call
 * @returns {number}
 */
function perform(process, call) {
  return answer(process, -1, () => {
    call();
    return 0;
  });
}

/**
 * Opens a file of `store` as `flags` say, to read it, to create it, or to write into a device or a
 * pipe, and returns its number.
 *
 * @param {FileStore} store
 * @param {Uint8Array} name
 * @param {number} flags
 * @param {() => number} mode Gives the permissions of a file that is created.
 * @returns {number}
 */
function openAsAsked(store, name, flags, mode) {
  if ((flags & OPEN.ACCESS) === OPEN.READ) {
    return store.openToRead(name);
  }
  if ((flags & OPEN.ACCESS) === OPEN.WRITE && (flags & OPEN.CREATE) === 0) {
    return store.openToWrite(name);
  }
  const asked = OPEN.CREATE | OPEN.EXCLUSIVE;
  if ((flags & asked) !== asked) {
    throw new HostError(ERRNO.EINVAL, "a file is opened to be read, written or created");
  }
  return store.create(name, mode());
}

/**
 * Makes the calls that move bytes: `read`, and `write` by its two names.
 *
 * @param {Process} process
 */
function byteCalls(process) {
  const { store } = process;
  /** @type {(file: number, at: bigint, length: bigint) => bigint} */
  const read = (file, at, length) =>
    answer(process, -1n, () => BigInt(store.read(file, bytesAt(process, at, length))));
  /** @type {(file: number, at: bigint, length: bigint) => bigint} */
  const write = (file, at, length) =>
    answer(process, -1n, () => BigInt(store.write(file, bytesAt(process, at, length))));
  return { read, write, __write: write };
}

/**
 * Makes the calls on files by number: `close`, `fsync`, `fdatasync`, `ftruncate`, `fchmod`,
 * `flock`, `lseek`, `isatty`.
 *
 * No store can move the place at which standard input is read, as `lseek` asks. So standard input
 * is to the program as a pipe is. Nor has a store advisory locks, which `flock` asks for. The
 * program is linked with `ftruncate`, but never cuts a file.
 *
 * @param {Process} process
 */
function numberCalls(process) {
  const { store } = process;
  /** @type {(file: number) => number} */
  const close = (file) => perform(process, () => store.close(file));
  /** @type {(file: number) => number} */
  const fsync = (file) => perform(process, () => store.sync(file));
  /** @type {(file: number, mode: number) => number} */
  const fchmod = (file, mode) => perform(process, () => store.setMode(file, mode));
  const missing = () =>
    perform(process, () => {
      throw new HostError(ERRNO.ENOSYS);
    });
  const lseek = () =>
    answer(process, -1n, () => {
      throw new HostError(ERRNO.ESPIPE);
    });
  /** @type {(file: number) => number} */
  const isatty = (file) =>
    answer(process, 0, () => {
      if (!store.isTerminal(file)) {
        throw new HostError(ERRNO.ENOTTY);
      }
      return 1;
    });
  return {
    close, fsync, fdatasync: fsync, ftruncate: missing, fchmod, flock: missing, lseek, isatty,
  };
}

/**
 * Makes the calls on files by name: `open`, `rename`, `unlink`, `readlink`, `lchown`.
 *
 * `open` is variadic in C, so its mode stands in memory, at the pointer that comes last.
 *
 * @param {Process} process
 */
function nameCalls(process) {
  const { store } = process;
  /** @type {(name: bigint, flags: number, more: bigint) => number} */
  const open = (name, flags, more) =>
    answer(process, -1, () => {
      const mode = () => new DataView(bufferOf(process)).getUint32(Number(more), true);
      return openAsAsked(store, nameAt(process, name), flags, mode);
    });
  /** @type {(from: bigint, to: bigint) => number} */
  const rename = (from, to) =>
    perform(process, () => store.rename(nameAt(process, from), nameAt(process, to)));
  /** @type {(name: bigint) => number} */
  const unlink = (name) => perform(process, () => store.unlink(nameAt(process, name)));
  /** @type {(name: bigint, at: bigint, room: bigint) => bigint} */
  const readlink = (name, at, room) =>
    answer(process, -1n, () => {
      const path = store.pathOfLink(nameAt(process, name));
      const length = BigInt(Math.min(path.length, Number(room)));
      bytesAt(process, at, length).set(path.subarray(0, Number(length)));
      return length;
    });
  /** @type {(name: bigint, owner: number, group: number) => number} */
  const lchown = (name, owner, group) =>
    perform(process, () => store.setOwner(nameAt(process, name), owner, group));
  return { open, rename, unlink, readlink, lchown };
}

/**
 * Returns what `store` knows of what `statx` is asked for by its first three arguments.
 *
 * @param {FileStore} store
 * @param {number} file
 * @param {Uint8Array} path
 * @param {number} flags
 * @returns {import("./file_store.mjs").FileStatus}
 */
function statusAsAsked(store, file, path, flags) {
  if (flags === STATX.OF_FILE && path.length === 0) {
    return store.statusOfFile(file);
  }
  if (file === STATX.FROM_FOLDER && flags === STATX.OF_NAME) {
    return store.statusOfName(path);
  }
  if (file === STATX.FROM_FOLDER && flags === STATX.OF_LINK) {
    return store.statusOfLink(path);
  }
  throw new HostError(ERRNO.EINVAL, "statx is asked of a path, a link or an open file");
}

/**
 * Makes `statx`. It fills the mode, the size, the owner, the group and the numbers of the file and
 * of its device, and says by its mask that it fills no more.
 *
 * @param {Process} process
 */
function statusCalls(process) {
  const { store } = process;
  /** @type {(file: number, name: bigint, flags: number, mask: number, at: bigint) => number} */
  const statx = (file, name, flags, _mask, at) =>
    perform(process, () => {
      const status = statusAsAsked(store, file, nameAt(process, name), flags);
      const places = STATX_FIELDS;
      bytesAt(process, at, BigInt(places.LENGTH)).fill(0);
      const fields = new DataView(bufferOf(process), Number(at), places.LENGTH);
      fields.setUint32(places.MASK, places.FILLED, true);
      fields.setUint32(places.OWNER, status.owner, true);
      fields.setUint32(places.GROUP, status.group, true);
      fields.setUint16(places.MODE, status.mode, true);
      fields.setBigUint64(places.NUMBER, status.number, true);
      fields.setBigUint64(places.SIZE, status.size, true);
      fields.setUint32(places.DEVICE_MAJOR, Number(status.device >> 32n), true);
      fields.setUint32(places.DEVICE_MINOR, Number(status.device & 0xffffffffn), true);
    });
  return { statx };
}

/**
 * Makes the calls for errors: `rattle_errno`, `rattle_set_errno`, `__xpg_strerror_r`.
 *
 * @param {Process} process
 */
function errorCalls(process) {
  const rattle_errno = () => process.errno;
  /** @type {(errno: number) => void} */
  const rattle_set_errno = (errno) => {
    process.errno = errno;
  };
  /** @type {(errno: number, at: bigint, room: bigint) => number} */
  const __xpg_strerror_r = (errno, at, room) => {
    const text = new TextEncoder().encode(`${textOfErrno(errno)}\0`);
    bytesAt(process, at, room).set(text.subarray(0, Number(room)));
    return 0;
  };
  return { rattle_errno, rattle_set_errno, __xpg_strerror_r };
}

/**
 * Makes the calls for what a process is started with: `rattle_arg` for its words, and
 * `__sysv_signal`. The program asks by it that a write to a closed pipe is an error and no signal,
 * which it is in every host.
 *
 * @param {Process} process
 */
function startCalls(process) {
  /** @type {(index: bigint, at: bigint, room: bigint) => bigint} */
  const rattle_arg = (index, at, room) => {
    const word = process.words[Number(index)];
    if (word === undefined) {
      return NO_WORD;
    }
    const length = Math.min(word.length, Number(room));
    bytesAt(process, at, BigInt(length)).set(word.subarray(0, length));
    return length < word.length ? WORD_TOO_LONG : BigInt(length);
  };
  const __sysv_signal = () => 0n;
  return { rattle_arg, __sysv_signal };
}

/**
 * Makes `clock_gettime`, for the time of day and for a clock that only goes forward.
 *
 * @param {Process} process
 */
function clockCalls(process) {
  /** @type {(clock: number, at: bigint) => number} */
  const clock_gettime = (clock, at) =>
    perform(process, () => {
      if (clock !== CLOCK.REAL_TIME && clock !== CLOCK.MONOTONIC) {
        throw new HostError(ERRNO.EINVAL, "there is no such clock");
      }
      const milliseconds = clock === CLOCK.REAL_TIME ? Date.now() : performance.now();
      const seconds = Math.floor(milliseconds / 1000);
      const nanoseconds = Math.floor((milliseconds - seconds * 1000) * 1e6);
      const time = new DataView(bufferOf(process), Number(at), 16);
      time.setBigInt64(0, BigInt(seconds), true);
      time.setBigInt64(8, BigInt(nanoseconds), true);
    });
  return { clock_gettime };
}

/**
 * Makes all calls that the program imports, for `process`.
 *
 * @param {Process} process
 */
function makeCalls(process) {
  return {
    ...byteCalls(process),
    ...numberCalls(process),
    ...nameCalls(process),
    ...statusCalls(process),
    ...errorCalls(process),
    ...startCalls(process),
    ...clockCalls(process),
  };
}
return { makeCalls };
})();
const module_process = (() => {
/** A run of the program: a fresh instance of its module, with files and words of its own. */

const { makeCalls } = module_calls;

/** @typedef {import("./file_store.mjs").FileStore} FileStore */

/** The name by which the program is called. */
const PROGRAM = "countygroups";

/**
 * Runs the program to its end, and returns its exit status.
 *
 * @param {object} run
 * @param {WebAssembly.Module} run.module The program's module.
 * @param {(string | Uint8Array)[]} run.words The words after the program's name.
 * @param {FileStore} run.store The files that it works on, standard input and output among them.
 * @returns {number}
 * @throws {WebAssembly.RuntimeError | RangeError} If the program stops without an end of its own,
 *   as where its stack is used up.
 */
function runProcess({ module, words, store }) {
  const encoder = new TextEncoder();
  const bytes = [PROGRAM, ...words].map((word) =>
    typeof word === "string" ? encoder.encode(word) : word,
  );
  /** @type {import("./calls.mjs").Process} */
  const process = { store, words: bytes, memory: null, errno: 0 };
  const instance = new WebAssembly.Instance(module, { env: makeCalls(process) });
  const { memory, main } = /** @type {{ memory: WebAssembly.Memory, main: Main }} */ (
    /** @type {unknown} */ (instance.exports)
  );
  process.memory = memory;
  return main(bytes.length, 0n);
}

/** @typedef {(count: number, words: bigint) => number} Main C's `main`. */
return { runProcess };
})();
const module_launcher = (() => {
/**
 * The program by Node: the same words, files and statuses as the program that is built for a
 * machine. Its module, countygroups.wasm, lies beside this file.
 *
 * One thing differs: Node opens the null device in the place of a standard stream that is closed.
 * So closed standard input is empty. If the launcher is called by its own name, a shell sees before
 * Node that standard output is closed, and the run ends with 5 (`tools/launcher.py`). If Node is
 * called with the launcher's name, what is written to closed standard output is lost.
 */

const { NodeFiles } = module_node_files;
const { runProcess } = module_process;

// (`process` is the global one: an import of "node:process" would make Node's own standard streams,
// which set pipes not to wait)

/** The status of a shell for a program that was aborted. No answer has it. */
const ABORTED = 134;

/** The status for a Node or a folder that can't run the program. No answer has it. */
const NOT_STARTED = 126;

/** What stands in a word for bytes that are no UTF-8. */
const REPLACED = "\ufffd";

/**
 * Returns the words after the name of this file. Node replaces bytes that are no UTF-8, so where
 * it may have, the words are those that Linux tells.
 *
 * @returns {(string | Uint8Array)[]}
 */
function words() {
  const given = process.argv.slice(2);
  if (!given.some((word) => word.includes(REPLACED)) || process.platform !== "linux") {
    return given;
  }
  const parts = [];
  const told = fs.readFileSync("/proc/self/cmdline");
  for (let begin = 0, end = told.indexOf(0); end >= 0; end = told.indexOf(0, begin)) {
    parts.push(told.subarray(begin, end));
    begin = end + 1;
  }
  return parts.slice(-given.length);
}

/**
 * Says on standard error why the program didn't run, and ends with `status`.
 *
 * @param {string} why
 * @param {number} status
 * @returns {never}
 */
function refuse(why, status) {
  fs.writeSync(2, `countygroups: ${why}\n`);
  process.exit(status);
}

/**
 * Returns the program's module.
 *
 * @returns {WebAssembly.Module}
 */
function readModule() {
  const file = new URL("countygroups.wasm", import.meta.url);
  try {
    return new WebAssembly.Module(fs.readFileSync(file));
  } catch (error) {
    return refuse(`countygroups.wasm beside the launcher can't be used: ${error}`, NOT_STARTED);
  }
}

/** Runs the program with the words of this process, and ends as it ends. */
function main() {
  const module = readModule();
  let status = ABORTED;
  try {
    status = runProcess({ module, words: words(), store: new NodeFiles() });
  } catch (error) {
    refuse(`the program stopped: ${error}`, ABORTED);
  }
  process.exit(status);
}

main();
})();
