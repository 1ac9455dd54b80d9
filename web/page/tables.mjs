// Reads tables that spreadsheets and other tools write: commas, semicolons, tabs or bars, with
// quotes.

/** @typedef {{header: string[], rows: string[][], separator: string}} Table */

const SEPARATORS = [",", ";", "\t", "|"];

/**
 * Returns the text of bytes in UTF-8 or UTF-16, without its byte order mark.
 * @param {Uint8Array} bytes
 */
export function decodedText(bytes) {
  const isLittle = bytes[0] === 0xff && bytes[1] === 0xfe;
  const isBig = bytes[0] === 0xfe && bytes[1] === 0xff;
  const encoding = isLittle ? "utf-16le" : isBig ? "utf-16be" : "utf-8";
  return new TextDecoder(encoding).decode(bytes);
}

/**
 * Returns the separator that the first line of `text` has most often outside quotes.
 * @param {string} text
 */
export function separatorOf(text) {
  const line = text.slice(0, 100000).split(/\r?\n/).find((one) => one.trim()) ?? "";
  const plain = line.replace(/"[^"]*"/g, "");
  let best = ",";
  let most = 0;
  for (const separator of SEPARATORS) {
    const count = plain.split(separator).length - 1;
    if (count > most) [best, most] = [separator, count];
  }
  return best;
}

/**
 * Returns the rows of a separated text. A field may stand between quotes; there, a quote is
 * doubled.
 * @param {string} text
 * @param {string} separator
 * @returns {string[][]}
 */
export function rowsOf(text, separator) {
  /** @type {string[][]} */
  const rows = [];
  let at = 0;
  /** @type {string[]} */
  let row = [];
  while (at < text.length) {
    const [field, next] = fieldAt(text, at, separator);
    row.push(field);
    at = next;
    if (text[at] === separator) {
      at += 1;
      if (at === text.length) row.push("");
      continue;
    }
    if (text[at] === "\r") at += 1;
    if (text[at] === "\n") at += 1;
    if (row.some((one) => one.trim())) rows.push(row);
    row = [];
  }
  if (row.some((one) => one.trim())) rows.push(row);
  return rows;
}

/**
 * Returns the field that begins at a place, and the place behind it.
 * @param {string} text
 * @param {number} at
 * @param {string} separator
 * @returns {[string, number]}
 */
function fieldAt(text, at, separator) {
  if (text[at] !== '"') {
    let end = at;
    while (end < text.length && text[end] !== separator && text[end] !== "\n") end += 1;
    const field = text.slice(at, end);
    return field.endsWith("\r") ? [field.slice(0, -1), end] : [field, end];
  }
  let field = "";
  let from = at + 1;
  for (;;) {
    const quote = text.indexOf('"', from);
    if (quote < 0) return [field + text.slice(from), text.length];
    field += text.slice(from, quote);
    if (text[quote + 1] !== '"') {
      let end = quote + 1;
      while (end < text.length && text[end] !== separator && text[end] !== "\n") end += 1;
      return [field, text[end - 1] === "\r" ? end - 1 : end];
    }
    field += '"';
    from = quote + 2;
  }
}

/**
 * Returns a table with its first row as header.
 * @param {string} text
 * @returns {Table}
 */
export function tableOf(text) {
  const separator = separatorOf(text);
  const [header = [], ...rows] = rowsOf(text, separator);
  return { header: header.map((one) => one.trim()), rows, separator };
}

/**
 * Returns the place of the first column that has one of `names`, whatever its capitals, or -1.
 * @param {string[]} header
 * @param {string[]} names
 */
export function columnOf(header, names) {
  const plain = header.map((one) => one.toLowerCase().replace(/[^a-z0-9]/g, ""));
  for (const name of names) {
    const place = plain.indexOf(name);
    if (place >= 0) return place;
  }
  return -1;
}

/**
 * Returns a field as CSV has it, with quotes where they are needed.
 * @param {string} field
 */
export function csvField(field) {
  return /[",\r\n]/.test(field) ? `"${field.replace(/"/g, '""')}"` : field;
}
