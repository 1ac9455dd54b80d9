/**
 * The numbers of errors that a host call can leave.
 *
 * The program is compiled for Linux, so it knows errors by Linux's numbers. A host on another
 * system, or in a browser, translates its own errors to these.
 */

/** The numbers by their names. */
export const ERRNO = Object.freeze({
  EPERM: 1,
  ENOENT: 2,
  EINTR: 4,
  EIO: 5,
  ENXIO: 6,
  EBADF: 9,
  EAGAIN: 11,
  ENOMEM: 12,
  EACCES: 13,
  EBUSY: 16,
  EEXIST: 17,
  EXDEV: 18,
  ENODEV: 19,
  ENOTDIR: 20,
  EISDIR: 21,
  EINVAL: 22,
  ENFILE: 23,
  EMFILE: 24,
  ENOTTY: 25,
  ETXTBSY: 26,
  EFBIG: 27,
  ENOSPC: 28,
  ESPIPE: 29,
  EROFS: 30,
  EMLINK: 31,
  EPIPE: 32,
  ENAMETOOLONG: 36,
  ENOSYS: 38,
  ENOTEMPTY: 39,
  ELOOP: 40,
  EOVERFLOW: 75,
  EOPNOTSUPP: 95,
  ETIMEDOUT: 110,
  ESTALE: 116,
  EDQUOT: 122,
});

/** The errors by their names, as a table that any name can be looked up in. */
const BY_NAME = new Map(Object.entries(ERRNO));

/** The names by their numbers. */
const NAMES = new Map(Object.entries(ERRNO).map(([name, number]) => [number, name]));

/**
 * Returns the number of the error that is called `name`, or `EIO` if the table doesn't have it.
 *
 * @param {unknown} name
 * @returns {number}
 */
export function errnoOf(name) {
  const known = typeof name === "string" ? BY_NAME.get(name) : undefined;
  return known ?? ERRNO.EIO;
}

/**
 * Returns a text for the error of number `errno`: its name, or its number if it has no name here.
 *
 * @param {number} errno
 * @returns {string}
 */
export function textOfErrno(errno) {
  return NAMES.get(errno) ?? `error ${errno}`;
}
