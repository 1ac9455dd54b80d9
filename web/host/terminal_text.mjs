/**
 * Standard error as a terminal shows it, taken apart: lines of progress, and all other text.
 *
 * The program writes progress only if standard error is a terminal. A line of progress stands
 * behind a mark that clears the line of the terminal, and it has no end. The next mark writes it
 * over.
 */

/** The mark: to the beginning of the line, and clear it. */
const CLEAR = new TextEncoder().encode("\r\x1b[K");

/** The end of a line. */
const LINE_FEED = 10;

/**
 * Returns where the mark stands in `bytes` from `from` on, or -1.
 *
 * @param {Uint8Array} bytes
 * @param {number} from
 * @returns {number}
 */
function markIn(bytes, from) {
  let at = bytes.indexOf(CLEAR[0], from);
  while (at >= 0 && !CLEAR.every((byte, place) => bytes[at + place] === byte)) {
    at = bytes.indexOf(CLEAR[0], at + 1);
  }
  return at;
}

/**
 * Returns the bytes of all `parts`, one behind the other.
 *
 * @param {Uint8Array[]} parts
 * @returns {Uint8Array}
 */
export function joined(parts) {
  const whole = new Uint8Array(parts.reduce((length, part) => length + part.length, 0));
  let at = 0;
  for (const part of parts) {
    whole.set(part, at);
    at += part.length;
  }
  return whole;
}

/** Takes what is written to a terminal, and tells lines of progress as they come. */
export class TerminalText {
  /** @param {(line: string) => void} onProgress Is called with each line of progress. */
  constructor(onProgress) {
    this.onProgress = onProgress;
    /** @type {Uint8Array[]} What was written before the last mark, and is no progress. */
    this.parts = [];
    /** What was written since the last mark. */
    this.line = new Uint8Array(0);
    this.isBehindMark = false;
  }

  /**
   * Takes `bytes`, which were written in one call.
   *
   * @param {Uint8Array} bytes
   */
  write(bytes) {
    let begin = 0;
    for (let mark = markIn(bytes, 0); mark >= 0; mark = markIn(bytes, begin)) {
      this.line = joined([this.line, bytes.subarray(begin, mark)]);
      this.passMark();
      begin = mark + CLEAR.length;
    }
    this.line = joined([this.line, bytes.subarray(begin)]);
    if (this.isBehindMark && this.line.length > 0 && !this.line.includes(LINE_FEED)) {
      this.onProgress(new TextDecoder().decode(this.line));
    }
  }

  /** Writes over what stands behind the last mark, unless it has an end of line. */
  passMark() {
    if (!this.isBehindMark || this.line.includes(LINE_FEED)) {
      this.parts.push(this.line);
    }
    this.line = new Uint8Array(0);
    this.isBehindMark = true;
  }

  /**
   * Returns all that was written, without the lines of progress.
   *
   * @returns {Uint8Array}
   */
  text() {
    return joined([...this.parts, this.line]);
  }
}
