/**
 * The interface between the host calls and the files that they work on.
 *
 * `node_files.mjs` has it for the machine's files, and `browser_files.mjs` for files that a page
 * was given. The calls are synchronous, because the program waits for each. A file that is open
 * has a number; 0, 1 and 2 are standard input, standard output and standard error. Names are
 * bytes, as the program gives them: UTF-8 in all names that it makes.
 */

/**
 * What is known of a file.
 *
 * @typedef {object} FileStatus
 * @property {number} mode The type and the permissions, as POSIX's `st_mode` has them.
 * @property {bigint} size The number of bytes.
 * @property {number} owner The number of its owner, or 0 if owners aren't known.
 * @property {number} group The number of its group, or 0 if groups aren't known.
 * @property {bigint} device The number of its device, from 0 to 2^64 - 1.
 * @property {bigint} number Its own number on the device, from 0 to 2^64 - 1. 0 if files have none.
 */

/**
 * Files by name and by number. Each call throws a `HostError` if it fails.
 *
 * @typedef {object} FileStore
 * @property {(name: Uint8Array) => number} openToRead
 *   Opens the file `name` at its first byte, and returns its number.
 * @property {(name: Uint8Array, mode: number) => number} create
 *   Creates the file `name` with the permissions `mode`, opens it for writing, and returns its
 *   number. `EEXIST` if the name is taken.
 * @property {(name: Uint8Array) => number} openToWrite
 *   Opens the device or the pipe `name` for writing, and returns its number. A regular file is
 *   emptied.
 * @property {(file: number, mode: number) => void} setMode
 *   Gives `file` the permissions `mode`.
 * @property {(name: Uint8Array, owner: number, group: number) => void} setOwner
 *   Gives the file `name` this owner and this group. -1 leaves what there is.
 * @property {(name: Uint8Array) => Uint8Array} pathOfLink
 *   Returns the path that the symbolic link `name` has. `EINVAL` if it is no link.
 * @property {(file: number, into: Uint8Array) => number} read
 *   Puts the next bytes of `file` at the start of `into`, and returns how many. 0 is the end.
 * @property {(file: number, bytes: Uint8Array) => number} write
 *   Writes the first bytes of `bytes` to `file`, and returns how many.
 * @property {(file: number) => void} close
 *   Closes `file`.
 * @property {(file: number) => void} sync
 *   Returns once the device has what was written to `file`.
 * @property {(from: Uint8Array, to: Uint8Array) => void} rename
 *   Puts the file `from` under the name `to`, in one step. A file that had that name is gone.
 * @property {(name: Uint8Array) => void} unlink
 *   Removes the name `name`.
 * @property {(name: Uint8Array) => FileStatus} statusOfName
 *   Returns what is known of what `name` leads to.
 * @property {(name: Uint8Array) => FileStatus} statusOfLink
 *   Returns what is known of `name` itself, if it is a symbolic link, and else as `statusOfName`.
 * @property {(file: number) => FileStatus} statusOfFile
 *   Returns what is known of `file`.
 * @property {(file: number) => boolean} isTerminal
 *   Returns whether `file` is a terminal.
 */

/** The type of a file in a `mode`: these bits, and the two values of them that the hosts make. */
export const FILE_TYPE = Object.freeze({ FOLDER: 0o040000, PLAIN: 0o100000 });

/** Why a host call failed. */
export class HostError extends Error {
  /**
   * @param {number} errno The number of the error, one of `ERRNO`.
   * @param {string} [why] What is known of the cause, for a person.
   */
  constructor(errno, why = "") {
    super(why || `a host call failed with error ${errno}`);
    this.name = "HostError";
    this.errno = errno;
  }
}
