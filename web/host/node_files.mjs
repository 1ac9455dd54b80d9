/** The files of the machine, by Node. */

import fs from "node:fs";
import tty from "node:tty";
import { ERRNO, errnoOf } from "./errno.mjs";
import { HostError } from "./file_store.mjs";

/**
 * @typedef {import("./file_store.mjs").FileStatus} FileStatus
 * @typedef {import("./file_store.mjs").FileStore} FileStore
 */

/** The most bytes that one call of Node moves. */
const MOST_MOVED = 1 << 30;

/** How many milliseconds pass before a pipe that isn't ready is asked again. */
const PAUSE = 2;

/**
 * Returns what `call` returns. An error of Node's becomes a `HostError` of the same name.
 *
 * @template T
 * @param {() => T} call
 * @returns {T}
 */
function withErrno(call) {
  try {
    return call();
  } catch (error) {
    const { code, message } = /** @type {{ code?: unknown, message?: string }} */ (error);
    throw new HostError(errnoOf(code), message);
  }
}

/**
 * Returns what `call` returns, as above. Another process can have set a pipe not to wait; then this
 * function waits until the pipe is ready.
 *
 * @template T
 * @param {() => T} call
 * @returns {T}
 */
function withPatience(call) {
  for (;;) {
    try {
      return withErrno(call);
    } catch (error) {
      if (!(error instanceof HostError) || error.errno !== ERRNO.EAGAIN) {
        throw error;
      }
      Atomics.wait(new Int32Array(new SharedArrayBuffer(4)), 0, 0, PAUSE);
    }
  }
}

/**
 * Reads as Node does. On Windows the end of a pipe is an error of Node's, and here it is the end.
 *
 * @param {number} file
 * @param {Uint8Array} into
 * @param {number} room
 * @returns {number}
 */
function readSync(file, into, room) {
  try {
    return fs.readSync(file, into, 0, room, null);
  } catch (error) {
    if (/** @type {{ code?: unknown }} */ (error).code === "EOF") {
      return 0;
    }
    throw error;
  }
}

/**
 * Returns what Node's `status` says.
 *
 * @param {import("node:fs").Status} status
 * @returns {FileStatus}
 */
function fileStatus({ mode, size, uid, gid, dev, ino }) {
  return {
    mode: Number(mode),
    size,
    owner: Number(uid),
    group: Number(gid),
    device: BigInt.asUintN(64, dev),
    number: BigInt.asUintN(64, ino),
  };
}

/**
 * The store over the machine's files. Pipes, devices and standard input are read as they come.
 *
 * @implements {FileStore}
 */
export class NodeFiles {
  /** @param {Uint8Array} name */
  openToRead(name) {
    return withErrno(() => fs.openSync(Buffer.from(name), fs.constants.O_RDONLY));
  }

  /**
   * @param {Uint8Array} name
   * @param {number} mode
   */
  create(name, mode) {
    const { O_RDWR, O_CREAT, O_EXCL } = fs.constants;
    return withErrno(() => fs.openSync(Buffer.from(name), O_RDWR | O_CREAT | O_EXCL, mode));
  }

  /** @param {Uint8Array} name */
  openToWrite(name) {
    const { O_WRONLY, O_TRUNC } = fs.constants;
    return withErrno(() => fs.openSync(Buffer.from(name), O_WRONLY | O_TRUNC));
  }

  /**
   * @param {number} file
   * @param {number} mode
   */
  setMode(file, mode) {
    withErrno(() => fs.fchmodSync(file, mode));
  }

  /**
   * @param {Uint8Array} name
   * @param {number} owner
   * @param {number} group
   */
  setOwner(name, owner, group) {
    withErrno(() => fs.lchownSync(Buffer.from(name), owner, group));
  }

  /** @param {Uint8Array} name */
  pathOfLink(name) {
    return withErrno(() => fs.readlinkSync(Buffer.from(name), "buffer"));
  }

  /**
   * @param {number} file
   * @param {Uint8Array} into
   */
  read(file, into) {
    return withPatience(() => readSync(file, into, Math.min(into.length, MOST_MOVED)));
  }

  /**
   * @param {number} file
   * @param {Uint8Array} bytes
   */
  write(file, bytes) {
    const length = Math.min(bytes.length, MOST_MOVED);
    return withPatience(() => fs.writeSync(file, bytes, 0, length, null));
  }

  /** @param {number} file */
  close(file) {
    withErrno(() => fs.closeSync(file));
  }

  /** @param {number} file */
  sync(file) {
    withErrno(() => fs.fsyncSync(file));
  }

  /**
   * @param {Uint8Array} from
   * @param {Uint8Array} to
   */
  rename(from, to) {
    withErrno(() => fs.renameSync(Buffer.from(from), Buffer.from(to)));
  }

  /** @param {Uint8Array} name */
  unlink(name) {
    withErrno(() => fs.unlinkSync(Buffer.from(name)));
  }

  /** @param {Uint8Array} name */
  statusOfName(name) {
    return fileStatus(withErrno(() => fs.statSync(Buffer.from(name), { bigint: true })));
  }

  /** @param {Uint8Array} name */
  statusOfLink(name) {
    return fileStatus(withErrno(() => fs.lstatSync(Buffer.from(name), { bigint: true })));
  }

  /** @param {number} file */
  statusOfFile(file) {
    return fileStatus(withErrno(() => fs.fstatSync(file, { bigint: true })));
  }

  /** @param {number} file */
  isTerminal(file) {
    return tty.isatty(file);
  }
}
