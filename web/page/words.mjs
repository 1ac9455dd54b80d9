// Numbers and lists in words, as the page writes them.

const SMALL_NUMBERS = [
  "no", "one", "two", "three", "four", "five", "six", "seven", "eight", "nine", "ten",
];

/**
 * Returns `value` rounded, with commas between thousands.
 * @param {number} value
 */
export function numberText(value) {
  return Math.round(value).toLocaleString("en-US");
}

/**
 * Returns `value` as a word up to ten, else in digits.
 * @param {number} value
 */
export function numberWord(value) {
  return SMALL_NUMBERS[value] ?? numberText(value);
}

/**
 * Returns the noun `one`, or `many` if `count` isn't one.
 * @param {number} count
 * @param {string} one
 * @param {string} [many]
 */
export function nounFor(count, one, many = `${one}s`) {
  return count === 1 ? one : many;
}

/**
 * Returns a number in digits with its noun.
 * @param {number} count
 * @param {string} one
 * @param {string} [many]
 */
export function counted(count, one, many) {
  return `${numberText(count)} ${nounFor(count, one, many)}`;
}

/**
 * Returns a number in words, up to ten, with its noun.
 * @param {number} count
 * @param {string} one
 * @param {string} [many]
 */
export function countedInWords(count, one, many) {
  return `${numberWord(count)} ${nounFor(count, one, many)}`;
}

/**
 * Returns `text` with a capital letter.
 * @param {string} text
 */
export function capital(text) {
  return text.slice(0, 1).toUpperCase() + text.slice(1);
}

/**
 * Returns `parts` as a list with "and" before the last.
 * @param {string[]} parts
 */
export function andList(parts) {
  if (parts.length < 3) return parts.join(" and ");
  return `${parts.slice(0, -1).join(", ")} and ${parts[parts.length - 1]}`;
}

/**
 * Returns a share, such as 0.0231, in percent with its sign: "+2.31".
 * @param {number} share
 */
export function signedPercent(share) {
  return `${share < 0 ? "−" : "+"}${Math.abs(share * 100).toFixed(2)}`;
}

/**
 * Returns in words how far a share lies from the ideal.
 * @param {number} share
 */
export function deviationWords(share) {
  const percent = Math.abs(share * 100);
  if (percent < 0.005) return "at the ideal";
  return `${percent.toFixed(2)} percent ${share < 0 ? "below" : "above"} the ideal`;
}

/**
 * Returns a time in milliseconds as seconds.
 * @param {number} milliseconds
 */
export function secondsText(milliseconds) {
  return `${(milliseconds / 1000).toFixed(milliseconds < 95 ? 2 : 1)} s`;
}

/**
 * Returns a number of bytes in words.
 * @param {number} bytes
 */
export function bytesText(bytes) {
  if (bytes < 1e4) return counted(bytes, "byte");
  if (bytes < 1e6) return `${numberText(bytes / 1e3)} KB`;
  return `${(bytes / 1e6).toFixed(bytes < 1e8 ? 1 : 0)} MB`;
}
