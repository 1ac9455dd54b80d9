/**
 * The host calls: what the program imports, over a file store.
 *
 * The program is compiled for 64 bits with C's conventions. So a pointer, a size and a count come
 * and go as a `bigint`, and an `int` as a number. A call that fails returns -1 and leaves the
 * number of its error, which the program asks for by `rattle_errno`.
 */

import { ERRNO, textOfErrno } from "./errno.mjs";
import { HostError } from "./file_store.mjs";

/** @typedef {import("./file_store.mjs").FileStore} FileStore */

/**
 * A process, as its calls see it.
 *
 * @typedef {object} Process
 * @property {FileStore} store Its files.
 * @property {Uint8Array[]} words The bytes of its words, the program's name first.
 * @property {WebAssembly.Memory | null} memory Its memory, once the instance is there.
 * @property {number} errno The error of the last call that failed.
 */

/** The flags of `open` that the program gives, as Linux has them. */
const OPEN = Object.freeze({ ACCESS: 3, READ: 0, WRITE: 1, CREATE: 0o100, EXCLUSIVE: 0o200 });

/** What `statx` is asked for: a path from the folder of the process, a link, or an open file. */
const STATX = Object.freeze({ FROM_FOLDER: -100, OF_NAME: 0, OF_LINK: 0x100, OF_FILE: 0x1000 });

/** The fields of `struct statx` that are filled: where they lie, and the mask that says so. */
const STATX_FIELDS = Object.freeze({
  LENGTH: 256,
  MASK: 0,
  OWNER: 20,
  GROUP: 24,
  MODE: 28,
  NUMBER: 32,
  SIZE: 40,
  DEVICE_MAJOR: 136,
  DEVICE_MINOR: 140,
  FILLED: 0x31b,
});

/** The clocks of `clock_gettime`. */
const CLOCK = Object.freeze({ REAL_TIME: 0, MONOTONIC: 1 });

/** What `rattle_arg` answers where there is no such word, and where the room is too small. */
const NO_WORD = -1n;
const WORD_TOO_LONG = -2n;

/**
 * Returns the memory of `process`. It is asked for at each call, since memory that grows is a new
 * buffer.
 *
 * @param {Process} process
 * @returns {ArrayBuffer}
 */
function bufferOf(process) {
  if (process.memory === null) {
    throw new Error("the program called its host before its memory was there");
  }
  return process.memory.buffer;
}

/**
 * Returns the `length` bytes of the memory of `process` at `at`, which are written through.
 *
 * @param {Process} process
 * @param {bigint} at
 * @param {bigint} length
 * @returns {Uint8Array}
 */
function bytesAt(process, at, length) {
  return new Uint8Array(bufferOf(process), Number(at), Number(length));
}

/**
 * Returns a copy of the bytes before the first 0 at `at`, as a C string has them.
 *
 * @param {Process} process
 * @param {bigint} at
 * @returns {Uint8Array}
 */
function nameAt(process, at) {
  const bytes = new Uint8Array(bufferOf(process), Number(at));
  return bytes.slice(0, bytes.indexOf(0));
}

/**
 * Returns what `call` returns. If it throws a `HostError`, its number is left in `process`, and
 * `failed` is returned.
 *
 * @template T
 * @param {Process} process
 * @param {T} failed
 * @param {() => T} call
 * @returns {T}
 */
function answer(process, failed, call) {
  try {
    return call();
  } catch (error) {
    if (!(error instanceof HostError)) {
      throw error;
    }
    process.errno = error.errno;
    return failed;
  }
}

/**
 * Runs `call`, and returns 0. If it throws a `HostError`, its number is left in `process`, and -1
 * is returned.
 *
 * @param {Process} process
 * @param {() => void} call
 * @returns {number}
 */
function perform(process, call) {
  return answer(process, -1, () => {
    call();
    return 0;
  });
}

/**
 * Opens a file of `store` as `flags` say, to read it, to create it, or to write into a device or a
 * pipe, and returns its number.
 *
 * @param {FileStore} store
 * @param {Uint8Array} name
 * @param {number} flags
 * @param {() => number} mode Gives the permissions of a file that is created.
 * @returns {number}
 */
function openAsAsked(store, name, flags, mode) {
  if ((flags & OPEN.ACCESS) === OPEN.READ) {
    return store.openToRead(name);
  }
  if ((flags & OPEN.ACCESS) === OPEN.WRITE && (flags & OPEN.CREATE) === 0) {
    return store.openToWrite(name);
  }
  const asked = OPEN.CREATE | OPEN.EXCLUSIVE;
  if ((flags & asked) !== asked) {
    throw new HostError(ERRNO.EINVAL, "a file is opened to be read, written or created");
  }
  return store.create(name, mode());
}

/**
 * Makes the calls that move bytes: `read`, and `write` by its two names.
 *
 * @param {Process} process
 */
function byteCalls(process) {
  const { store } = process;
  /** @type {(file: number, at: bigint, length: bigint) => bigint} */
  const read = (file, at, length) =>
    answer(process, -1n, () => BigInt(store.read(file, bytesAt(process, at, length))));
  /** @type {(file: number, at: bigint, length: bigint) => bigint} */
  const write = (file, at, length) =>
    answer(process, -1n, () => BigInt(store.write(file, bytesAt(process, at, length))));
  return { read, write, __write: write };
}

/**
 * Makes the calls on files by number: `close`, `fsync`, `fdatasync`, `ftruncate`, `fchmod`,
 * `flock`, `lseek`, `isatty`.
 *
 * No store can move the place at which standard input is read, as `lseek` asks. So standard input
 * is to the program as a pipe is. Nor has a store advisory locks, which `flock` asks for. The
 * program is linked with `ftruncate`, but never cuts a file.
 *
 * @param {Process} process
 */
function numberCalls(process) {
  const { store } = process;
  /** @type {(file: number) => number} */
  const close = (file) => perform(process, () => store.close(file));
  /** @type {(file: number) => number} */
  const fsync = (file) => perform(process, () => store.sync(file));
  /** @type {(file: number, mode: number) => number} */
  const fchmod = (file, mode) => perform(process, () => store.setMode(file, mode));
  const missing = () =>
    perform(process, () => {
      throw new HostError(ERRNO.ENOSYS);
    });
  const lseek = () =>
    answer(process, -1n, () => {
      throw new HostError(ERRNO.ESPIPE);
    });
  /** @type {(file: number) => number} */
  const isatty = (file) =>
    answer(process, 0, () => {
      if (!store.isTerminal(file)) {
        throw new HostError(ERRNO.ENOTTY);
      }
      return 1;
    });
  return {
    close, fsync, fdatasync: fsync, ftruncate: missing, fchmod, flock: missing, lseek, isatty,
  };
}

/**
 * Makes the calls on files by name: `open`, `rename`, `unlink`, `readlink`, `lchown`.
 *
 * `open` is variadic in C, so its mode stands in memory, at the pointer that comes last.
 *
 * @param {Process} process
 */
function nameCalls(process) {
  const { store } = process;
  /** @type {(name: bigint, flags: number, more: bigint) => number} */
  const open = (name, flags, more) =>
    answer(process, -1, () => {
      const mode = () => new DataView(bufferOf(process)).getUint32(Number(more), true);
      return openAsAsked(store, nameAt(process, name), flags, mode);
    });
  /** @type {(from: bigint, to: bigint) => number} */
  const rename = (from, to) =>
    perform(process, () => store.rename(nameAt(process, from), nameAt(process, to)));
  /** @type {(name: bigint) => number} */
  const unlink = (name) => perform(process, () => store.unlink(nameAt(process, name)));
  /** @type {(name: bigint, at: bigint, room: bigint) => bigint} */
  const readlink = (name, at, room) =>
    answer(process, -1n, () => {
      const path = store.pathOfLink(nameAt(process, name));
      const length = BigInt(Math.min(path.length, Number(room)));
      bytesAt(process, at, length).set(path.subarray(0, Number(length)));
      return length;
    });
  /** @type {(name: bigint, owner: number, group: number) => number} */
  const lchown = (name, owner, group) =>
    perform(process, () => store.setOwner(nameAt(process, name), owner, group));
  return { open, rename, unlink, readlink, lchown };
}

/**
 * Returns what `store` knows of what `statx` is asked for by its first three arguments.
 *
 * @param {FileStore} store
 * @param {number} file
 * @param {Uint8Array} path
 * @param {number} flags
 * @returns {import("./file_store.mjs").FileStatus}
 */
function statusAsAsked(store, file, path, flags) {
  if (flags === STATX.OF_FILE && path.length === 0) {
    return store.statusOfFile(file);
  }
  if (file === STATX.FROM_FOLDER && flags === STATX.OF_NAME) {
    return store.statusOfName(path);
  }
  if (file === STATX.FROM_FOLDER && flags === STATX.OF_LINK) {
    return store.statusOfLink(path);
  }
  throw new HostError(ERRNO.EINVAL, "statx is asked of a path, a link or an open file");
}

/**
 * Makes `statx`. It fills the mode, the size, the owner, the group and the numbers of the file and
 * of its device, and says by its mask that it fills no more.
 *
 * @param {Process} process
 */
function statusCalls(process) {
  const { store } = process;
  /** @type {(file: number, name: bigint, flags: number, mask: number, at: bigint) => number} */
  const statx = (file, name, flags, _mask, at) =>
    perform(process, () => {
      const status = statusAsAsked(store, file, nameAt(process, name), flags);
      const places = STATX_FIELDS;
      bytesAt(process, at, BigInt(places.LENGTH)).fill(0);
      const fields = new DataView(bufferOf(process), Number(at), places.LENGTH);
      fields.setUint32(places.MASK, places.FILLED, true);
      fields.setUint32(places.OWNER, status.owner, true);
      fields.setUint32(places.GROUP, status.group, true);
      fields.setUint16(places.MODE, status.mode, true);
      fields.setBigUint64(places.NUMBER, status.number, true);
      fields.setBigUint64(places.SIZE, status.size, true);
      fields.setUint32(places.DEVICE_MAJOR, Number(status.device >> 32n), true);
      fields.setUint32(places.DEVICE_MINOR, Number(status.device & 0xffffffffn), true);
    });
  return { statx };
}

/**
 * Makes the calls for errors: `rattle_errno`, `rattle_set_errno`, `__xpg_strerror_r`.
 *
 * @param {Process} process
 */
function errorCalls(process) {
  const rattle_errno = () => process.errno;
  /** @type {(errno: number) => void} */
  const rattle_set_errno = (errno) => {
    process.errno = errno;
  };
  /** @type {(errno: number, at: bigint, room: bigint) => number} */
  const __xpg_strerror_r = (errno, at, room) => {
    const text = new TextEncoder().encode(`${textOfErrno(errno)}\0`);
    bytesAt(process, at, room).set(text.subarray(0, Number(room)));
    return 0;
  };
  return { rattle_errno, rattle_set_errno, __xpg_strerror_r };
}

/**
 * Makes the calls for what a process is started with: `rattle_arg` for its words, and
 * `__sysv_signal`. The program asks by it that a write to a closed pipe is an error and no signal,
 * which it is in every host.
 *
 * @param {Process} process
 */
function startCalls(process) {
  /** @type {(index: bigint, at: bigint, room: bigint) => bigint} */
  const rattle_arg = (index, at, room) => {
    const word = process.words[Number(index)];
    if (word === undefined) {
      return NO_WORD;
    }
    const length = Math.min(word.length, Number(room));
    bytesAt(process, at, BigInt(length)).set(word.subarray(0, length));
    return length < word.length ? WORD_TOO_LONG : BigInt(length);
  };
  const __sysv_signal = () => 0n;
  return { rattle_arg, __sysv_signal };
}

/**
 * Makes `clock_gettime`, for the time of day and for a clock that only goes forward.
 *
 * @param {Process} process
 */
function clockCalls(process) {
  /** @type {(clock: number, at: bigint) => number} */
  const clock_gettime = (clock, at) =>
    perform(process, () => {
      if (clock !== CLOCK.REAL_TIME && clock !== CLOCK.MONOTONIC) {
        throw new HostError(ERRNO.EINVAL, "there is no such clock");
      }
      const milliseconds = clock === CLOCK.REAL_TIME ? Date.now() : performance.now();
      const seconds = Math.floor(milliseconds / 1000);
      const nanoseconds = Math.floor((milliseconds - seconds * 1000) * 1e6);
      const time = new DataView(bufferOf(process), Number(at), 16);
      time.setBigInt64(0, BigInt(seconds), true);
      time.setBigInt64(8, BigInt(nanoseconds), true);
    });
  return { clock_gettime };
}

/**
 * Makes all calls that the program imports, for `process`.
 *
 * @param {Process} process
 */
export function makeCalls(process) {
  return {
    ...byteCalls(process),
    ...numberCalls(process),
    ...nameCalls(process),
    ...statusCalls(process),
    ...errorCalls(process),
    ...startCalls(process),
    ...clockCalls(process),
  };
}
