/**
 * Files that a page was given, in a worker of its browser.
 *
 * A file that was given is read by pieces, as the program asks for its bytes. A file that the
 * program makes is kept in memory. It counts as stored once it is renamed, and with all its bytes,
 * so that what is handed back is whole. The only folders are those of the names that were given,
 * and the one that all of them lie in.
 */

import { ERRNO } from "./errno.mjs";
import { FILE_TYPE, HostError } from "./file_store.mjs";
import { TerminalText, joined } from "./terminal_text.mjs";

/**
 * @typedef {import("./file_store.mjs").FileStatus} FileStatus
 * @typedef {import("./file_store.mjs").FileStore} FileStore
 */

/** How many bytes of a file are read at once. */
const PIECE = 1 << 20;

/** The permissions of each file and folder: its owner may read and write it. */
const PERMISSIONS = 0o644;

/** The errors of a browser by their names, as numbers. */
const READ_ERRORS = new Map([
  ["NotFoundError", ERRNO.ENOENT],
  ["SecurityError", ERRNO.EACCES],
]);

/** A file that the program made: its bytes, part by part. */
class MadeFile {
  constructor() {
    /** @type {Uint8Array[]} */
    this.parts = [];
    this.size = 0;
  }

  /** @param {Uint8Array} bytes */
  append(bytes) {
    this.parts.push(bytes.slice());
    this.size += bytes.length;
  }

  /** @returns {Uint8Array} */
  bytes() {
    this.parts = [joined(this.parts)];
    return this.parts[0];
  }
}

/** An open file that is read: how far it was read, and the piece that was read last. */
class Reader {
  /** @param {Blob} blob */
  constructor(blob) {
    this.blob = blob;
    this.at = 0;
    this.piece = new Uint8Array(0);
    this.begin = 0;
    this.files = new FileReaderSync();
  }

  /**
   * Puts the next bytes at the start of `into`, and returns how many.
   *
   * @param {Uint8Array} into
   */
  read(into) {
    if (this.at >= this.begin + this.piece.length && this.at < this.blob.size) {
      this.begin = this.at;
      this.piece = this.bytesFrom(this.at);
    }
    const from = this.at - this.begin;
    const part = this.piece.subarray(from, from + into.length);
    into.set(part);
    this.at += part.length;
    return part.length;
  }

  /** @param {number} at */
  bytesFrom(at) {
    try {
      return new Uint8Array(this.files.readAsArrayBuffer(this.blob.slice(at, at + PIECE)));
    } catch (error) {
      const { name, message } = /** @type {DOMException} */ (error);
      throw new HostError(READ_ERRORS.get(name) ?? ERRNO.EIO, message);
    }
  }
}

/**
 * Returns the text of a name. Names that aren't UTF-8 stand for no file.
 *
 * @param {Uint8Array} name
 */
function textOf(name) {
  try {
    return new TextDecoder("utf-8", { fatal: true, ignoreBOM: true }).decode(name);
  } catch {
    throw new HostError(ERRNO.ENOENT);
  }
}

/**
 * Returns what is known of a file or a folder of a page, which has neither an owner nor a number.
 *
 * @param {number} type
 * @param {bigint} size
 * @returns {FileStatus}
 */
function statusOf(type, size) {
  return { mode: type | PERMISSIONS, size, owner: 0, group: 0, device: 0n, number: 0n };
}

/**
 * The store over a page's files.
 *
 * @implements {FileStore}
 */
export class BrowserFiles {
  /**
   * @param {Map<string, Blob>} files The files that may be read, by name.
   * @param {Uint8Array} input The bytes of standard input.
   * @param {(line: string) => void} onProgress Is called with each line of progress.
   */
  constructor(files, input, onProgress) {
    /** @type {Map<string, Blob | MadeFile>} */
    this.files = new Map(files);
    /** @type {Set<string>} */
    this.renamed = new Set();
    this.output = new MadeFile();
    this.errors = new TerminalText(onProgress);
    /** @type {(Reader | MadeFile | null)[]} What is open, by its number. */
    this.open = [new Reader(new Blob([input])), this.output, null];
  }

  /**
   * Returns what was stored: each file that was renamed, and is there still.
   *
   * @returns {Map<string, Uint8Array>}
   */
  stored() {
    const found = new Map();
    for (const name of this.renamed) {
      const file = this.files.get(name);
      if (file instanceof MadeFile) {
        found.set(name, file.bytes());
      }
    }
    return found;
  }

  /** @param {string} name */
  isFolder(name) {
    const beginning = `${name}/`;
    return name === "." || [...this.files.keys()].some((one) => one.startsWith(beginning));
  }

  /** @param {string} name */
  file(name) {
    const found = this.files.get(name);
    if (found === undefined) {
      throw new HostError(this.isFolder(name) ? ERRNO.EISDIR : ERRNO.ENOENT);
    }
    return found;
  }

  /** @param {Reader | MadeFile} file */
  numberOf(file) {
    return this.open.push(file) - 1;
  }

  /** @param {Uint8Array} name */
  openToRead(name) {
    const file = this.file(textOf(name));
    return this.numberOf(new Reader(file instanceof MadeFile ? new Blob([file.bytes()]) : file));
  }

  /** @param {Uint8Array} name */
  create(name) {
    const text = textOf(name);
    const end = text.lastIndexOf("/");
    if (text === "" || (end >= 0 && !this.isFolder(text.slice(0, end)))) {
      throw new HostError(ERRNO.ENOENT);
    }
    if (this.files.has(text) || this.isFolder(text)) {
      throw new HostError(ERRNO.EEXIST);
    }
    const file = new MadeFile();
    this.files.set(text, file);
    return this.numberOf(file);
  }

  /**
   * A page has no device and no pipe.
   *
   * @returns {never}
   */
  openToWrite() {
    throw new HostError(ERRNO.ENODEV);
  }

  /** Leaves the permissions as they are, which are one for all files. */
  setMode() {}

  /** Leaves the owner as it is: nobody owns a page's files. */
  setOwner() {}

  /**
   * A page has no symbolic link.
   *
   * @returns {never}
   */
  pathOfLink() {
    throw new HostError(ERRNO.EINVAL);
  }

  /**
   * @param {number} file
   * @param {Uint8Array} into
   */
  read(file, into) {
    const reader = this.open[file];
    if (!(reader instanceof Reader)) {
      throw new HostError(ERRNO.EBADF);
    }
    return reader.read(into);
  }

  /**
   * @param {number} file
   * @param {Uint8Array} bytes
   */
  write(file, bytes) {
    const made = this.open[file];
    if (file === 2) {
      this.errors.write(bytes);
    } else if (made instanceof MadeFile) {
      made.append(bytes);
    } else {
      throw new HostError(ERRNO.EBADF);
    }
    return bytes.length;
  }

  /** @param {number} file */
  close(file) {
    if (!this.open[file]) {
      throw new HostError(ERRNO.EBADF);
    }
    this.open[file] = null;
  }

  /** Returns at once: a file in memory has all that was written to it. */
  sync() {}

  /**
   * @param {Uint8Array} from
   * @param {Uint8Array} to
   */
  rename(from, to) {
    const [old, name] = [textOf(from), textOf(to)];
    const file = this.file(old);
    if (name === "" || this.isFolder(name)) {
      throw new HostError(name === "" ? ERRNO.ENOENT : ERRNO.EISDIR);
    }
    this.files.delete(old);
    this.renamed.delete(old);
    this.files.set(name, file);
    this.renamed.add(name);
  }

  /** @param {Uint8Array} name */
  unlink(name) {
    const text = textOf(name);
    this.file(text);
    this.files.delete(text);
    this.renamed.delete(text);
  }

  /**
   * @param {Uint8Array} name
   * @returns {FileStatus}
   */
  statusOfName(name) {
    const text = textOf(name);
    if (this.isFolder(text)) {
      return statusOf(FILE_TYPE.FOLDER, 0n);
    }
    return statusOf(FILE_TYPE.PLAIN, BigInt(this.file(text).size));
  }

  /**
   * @param {Uint8Array} name
   * @returns {FileStatus}
   */
  statusOfLink(name) {
    return this.statusOfName(name);
  }

  /**
   * @param {number} file
   * @returns {FileStatus}
   */
  statusOfFile(file) {
    const open = this.open[file];
    if (!open) {
      throw new HostError(ERRNO.EBADF);
    }
    const size = open instanceof MadeFile ? open.size : open.blob.size;
    return statusOf(FILE_TYPE.PLAIN, BigInt(size));
  }

  /**
   * Standard error counts as a terminal, so that the program writes lines of progress.
   *
   * @param {number} file
   */
  isTerminal(file) {
    return file === 2;
  }
}
