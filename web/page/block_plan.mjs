// Reads a block assignment file as other tools export it, and says what is wrong with one in a
// sentence.

import { BLOCK_COLUMNS, DISTRICT_COLUMNS } from "./file_kinds.mjs";
import { columnOf, decodedText, rowsOf, separatorOf } from "./tables.mjs";
import { counted, nounFor, numberText } from "./words.mjs";

/**
 * A block assignment file as a table. `header` is made up if the file has none. `firstLine` is the
 * line of the first row, from 1.
 * @typedef {{header: string[], rows: string[][], block: number, district: number,
 *   firstLine: number}} PlanTable
 */
/** @typedef {{lines: string, blocks: number, districts: Map<string, number>, note: string}} Plan */

const LONGEST_LABEL = 32;

/**
 * Returns the table of a file, with the columns of blocks and districts found by header or by
 * content.
 * @param {Blob} file
 * @returns {Promise<PlanTable>}
 */
export async function planTable(file) {
  const text = decodedText(new Uint8Array(await file.arrayBuffer()));
  const rows = rowsOf(text, separatorOf(text)).map((row) => row.map((field) => field.trim()));
  if (!rows.length) throw new Error("The file has no line.");
  const hasHeader = !rows[0].some((field) => /^\d{11,15}$/.test(field));
  const header = hasHeader ? rows[0] : rows[0].map((_, at) => `Column ${at + 1}`);
  const body = hasHeader ? rows.slice(1) : rows;
  const block = blockColumn(header, body);
  const district = districtColumn(header, block);
  return { header, rows: body, block, district, firstLine: hasHeader ? 2 : 1 };
}

/**
 * Returns the column of blocks: by what stands in it, else by its name, else the first.
 * @param {string[]} header
 * @param {string[][]} rows
 */
function blockColumn(header, rows) {
  const some = rows.slice(0, 200);
  const likely = header.findIndex((_, at) => (
    some.length > 0 && some.every((row) => /^\d{14,15}$/.test(row[at] ?? ""))));
  if (likely >= 0) return likely;
  return Math.max(0, columnOf(header, BLOCK_COLUMNS));
}

/**
 * Returns the column of districts: by its name, else the first that isn't the column of blocks.
 * @param {string[]} header
 * @param {number} block
 */
function districtColumn(header, block) {
  const named = columnOf(header.map((name, at) => (at === block ? "" : name)), DISTRICT_COLUMNS);
  if (named >= 0) return named;
  return header.findIndex((_, at) => at !== block);
}

/**
 * Returns the plan of a table as the program reads it. Throws a sentence if it can't be mended.
 * @param {PlanTable} table
 * @param {string} state  the state's two digits
 * @returns {Plan}
 */
export function planOf(table, state) {
  const { rows, block, district, firstLine } = table;
  if (district < 0) {
    throw new Error("The file has one column: it needs blocks and their districts.");
  }
  let padded = 0;
  /** @type {Map<string, number>} */
  const districts = new Map();
  const lines = rows.map((row, at) => {
    let code = (row[block] ?? "").replace(/\.0$/, "");
    if (/^\d{14}$/.test(code) && state.startsWith("0")) {
      code = `0${code}`;
      padded += 1;
    }
    if (!/^\d{15}$/.test(code)) throw new Error(codeProblem(table, firstLine + at, code));
    const label = (row[district] ?? "").replace(/\.0$/, "");
    checkLabel(label, firstLine + at);
    districts.set(label, (districts.get(label) ?? 0) + 1);
    return `${code}|${label}\n`;
  });
  const note = padded
    ? `${numberText(padded)} codes had lost the zero at their beginning, and have it again.` : "";
  return { lines: lines.join(""), blocks: rows.length, districts, note };
}

/**
 * Throws if a label can't be one.
 * @param {string} label
 * @param {number} line
 */
function checkLabel(label, line) {
  if (label.length <= LONGEST_LABEL && /^[\x20-\x7b\x7d\x7e]*$/.test(label)) return;
  throw new Error(`Line ${line}: a district is called “${label.slice(0, 40)}”. `
    + "A name has at most 32 plain letters, digits and signs.");
}

/**
 * Returns in a sentence what a column has that should have the codes of blocks.
 * @param {PlanTable} table
 * @param {number} line
 * @param {string} code
 */
function codeProblem({ rows, block, header }, line, code) {
  const where = `The column “${header[block]}”, line ${line}, has “${code.slice(0, 40)}”. `;
  const wanted = "The code of a block has 15 digits, such as 371830501001000.";
  if (/^\d(\.\d+)?E\+\d+$/i.test(code)) {
    return `${where}Excel wrote the codes as numbers, and their last digits are lost. `
      + "Export the file again, and don’t save it by Excel, or make the column text before.";
  }
  if (/^\d{14}$/.test(code)) {
    const lost = rows.filter((row) => /^\d{14}$/.test(row[block] ?? "")).length;
    return `${where}${counted(lost, "code")} ${nounFor(lost, "has", "have")} 14 digits: a zero at `
      + `the beginning is lost, or a digit. ${wanted}`;
  }
  if (/^\d{12}$/.test(code)) return `${where}These are block groups, not blocks. ${wanted}`;
  if (/^\d{11}$/.test(code)) return `${where}These are tracts or precincts, not blocks. ${wanted}`;
  if (/^\d{5}$/.test(code)) return `${where}These are counties, not blocks. ${wanted}`;
  if (!code) return `${where.replace(" has “”", " is empty")}${wanted}`;
  return `${where}These are precincts, not blocks. Export the plan by blocks. ${wanted}`;
}
