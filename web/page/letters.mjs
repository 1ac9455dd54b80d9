// The widths of letters, so that names can be placed before anything is drawn.

// Advance widths of Helvetica in thousandths of the size; Arial and Liberation Sans have the same.
const FIRST = 32;
const PLAIN = [
  278, 278, 355, 556, 556, 889, 667, 191, 333, 333, 389, 584, 278, 333, 278, 278,
  556, 556, 556, 556, 556, 556, 556, 556, 556, 556, 278, 278, 584, 584, 584, 556,
  1015, 667, 667, 722, 722, 667, 611, 778, 722, 278, 500, 667, 556, 833, 722, 778,
  667, 778, 722, 667, 611, 722, 667, 944, 667, 667, 611, 278, 278, 278, 469, 556,
  333, 556, 556, 500, 556, 556, 278, 556, 556, 222, 222, 500, 222, 833, 556, 556,
  556, 556, 333, 500, 278, 556, 500, 722, 500, 500, 500,
];
const BOLD = [
  278, 333, 474, 556, 556, 889, 722, 238, 333, 333, 389, 584, 278, 333, 278, 278,
  556, 556, 556, 556, 556, 556, 556, 556, 556, 556, 333, 333, 584, 584, 584, 611,
  975, 722, 722, 722, 722, 667, 611, 778, 722, 278, 556, 722, 611, 833, 722, 778,
  667, 778, 722, 667, 611, 722, 667, 944, 667, 667, 611, 333, 278, 333, 584, 556,
  333, 556, 611, 556, 611, 556, 333, 611, 611, 278, 278, 556, 278, 889, 611, 611,
  611, 611, 389, 556, 333, 611, 556, 778, 556, 556, 500,
];
const OTHER = 611;

/**
 * Returns the width of `text` in letters of `size`, in the unit of `size`.
 * @param {string} text
 * @param {number} size
 * @param {boolean} [isBold]
 */
export function textWidth(text, size, isBold = false) {
  const widths = isBold ? BOLD : PLAIN;
  let sum = 0;
  for (const letter of text.normalize("NFD")) {
    const code = letter.charCodeAt(0);
    const isMark = code >= 0x300 && code < 0x370;
    sum += isMark ? 0 : widths[code - FIRST] ?? OTHER;
  }
  return (sum * size) / 1000;
}
