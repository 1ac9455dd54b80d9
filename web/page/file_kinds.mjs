// Says what a dropped file is by its first bytes, and what is wrong with one that can't be used.

import { columnOf, decodedText, tableOf } from "./tables.mjs";

/** @typedef {"geo" | "segment" | "adjacency" | "outlines" | "grouping" | "plan"} FileKind */
/** @typedef {"zip" | "gzip"} PackedKind */
/** @typedef {{kind: FileKind | PackedKind | null, problem: string}} Recognized */

const HEAD_BYTES = 1 << 16;

/** The names by which a column of counties, of groups or of blocks is known. */
export const COUNTY_COLUMNS = [
  "geoid", "geoid20", "countyfips", "fips", "county", "countyname", "name", "countygeoid",
];
export const GROUP_COLUMNS = [
  "group", "cluster", "groupid", "clusterid", "grouping", "countygroup", "countycluster",
];
export const BLOCK_COLUMNS = [
  "geoid20", "blockid", "block", "geoid", "geocode", "blockgeoid", "censusblock", "blockfips",
];
export const DISTRICT_COLUMNS = [
  "district", "assignment", "districtid", "dist", "districtno", "plan", "label", "sldust", "sldlst",
];

/**
 * Returns a file that can't be used, with the reason.
 * @param {string} problem
 * @returns {Recognized}
 */
function refused(problem) {
  return { kind: null, problem };
}

/**
 * Returns a file that was recognized.
 * @param {FileKind | PackedKind} kind
 * @returns {Recognized}
 */
function known(kind) {
  return { kind, problem: "" };
}

/**
 * Returns what a file is.
 * @param {File} file
 * @returns {Promise<Recognized>}
 */
export async function recognizedFile(file) {
  if (!file.size) return refused("The file is empty.");
  const bytes = new Uint8Array(await file.slice(0, HEAD_BYTES).arrayBuffer());
  return byMark(bytes, file.name) ?? byText(decodedText(bytes));
}

/**
 * Returns what a file is by the mark at its beginning, or null if it is a text.
 * @param {Uint8Array} bytes
 * @param {string} name
 */
function byMark(bytes, name) {
  const begins = (/** @type {number[]} */ mark) => mark.every((byte, at) => bytes[at] === byte);
  if (begins([0x50, 0x4b, 3, 4])) {
    return /\.xls[xmb]$/i.test(name)
      ? refused("This is an Excel workbook. Save the sheet as CSV, and drop that.") : known("zip");
  }
  if (begins([0x1f, 0x8b])) return known("gzip");
  if (begins([0xd0, 0xcf, 0x11, 0xe0])) {
    return refused("This is an old Excel workbook. Save the sheet as CSV, and drop that.");
  }
  if (begins([0x25, 0x50, 0x44, 0x46])) {
    return refused("This is a PDF, which has no table that a program could read.");
  }
  if (begins([0, 0, 0x27, 0x0a])) {
    return refused("This is the shapes of a shapefile. Convert it to GeoJSON, and drop that.");
  }
  if (/\.dbf$/i.test(name) && bytes[0] < 0x10) {
    return refused("This is the table of a shapefile. Save it as CSV, and drop that.");
  }
  return null;
}

/**
 * Returns what a text is by its first lines.
 * @param {string} text
 */
function byText(text) {
  const start = text.trimStart();
  if (start.startsWith("{")) return byJson(start);
  const lines = text.split(/\r?\n/).filter((line) => line.trim());
  if (!lines.length) return refused("The file has no line.");
  if (lines[0].includes("|")) return byBars(lines);
  const tabs = lines[0].split("\t");
  if (tabs.length >= 4 && /^"?\d{5}"?$/.test(tabs[1])) {
    return refused("This is the Census Bureau’s file of borders as it was until 2022, with tabs. "
      + "Take the one of 2023 or later, whose fields stand between bars: "
      + "county_adjacency2023.txt.");
  }
  return byTable(text, lines);
}

/**
 * Returns what a JSON text is.
 * @param {string} text
 */
function byJson(text) {
  if (!text.includes('"FeatureCollection"')) {
    return refused("This is JSON, but no GeoJSON with a list of features.");
  }
  if (!/"GEOID(20)?"/.test(text)) {
    return refused("The GeoJSON has no GEOID for its features: outlines of counties are wanted, "
      + "each with its five-digit code.");
  }
  return known("outlines");
}

/**
 * Returns what a text with bars is.
 * @param {string[]} lines
 */
function byBars(lines) {
  const first = lines[0].split("|");
  const fields = (lines[1] ?? lines[0]).split("|");
  const isGeo = first.length >= 15 && first[2] !== "000" && /^\d{3}$/.test(first[2])
    && /^\d{2}$/.test(first[12] || "00");
  if (isGeo) return known("geo");
  if (/^\d{15}$/.test(fields[0])) return known("plan");
  if (/^\d{1,3}$/.test(first[0]) && first.slice(1).every((code) => /^\d{5}$/.test(code))) {
    return known("grouping");
  }
  if (fields.length >= 4 && /^\d{5}$/.test(fields[1]) && /^\d{5}$/.test(fields[3])) {
    return known("adjacency");
  }
  if (/^0[2-9]$/.test(first[3])) {
    return refused(`This is segment ${Number(first[3])} of the counts. `
      + "The people are in segment 1, whose name has 00001.");
  }
  const isSegment = first.length >= 6 && /^\d+$/.test(first[4]) && /^\d+$/.test(first[5]);
  if (isSegment) return known("segment");
  return byTable(lines.join("\n"), lines);
}

/**
 * Returns what a table is by its columns.
 * @param {string} text
 * @param {string[]} lines
 */
function byTable(text, lines) {
  const { header, rows } = tableOf(text);
  const values = rows.slice(0, 50);
  const hasBlocks = header.some((_, column) => (
    values.filter((row) => isBlockLike(row[column] ?? "")).length > values.length / 2));
  if (hasBlocks || isBlockLike(header[0])) return known("plan");
  const isGrouping = columnOf(header, GROUP_COLUMNS) >= 0 && columnOf(header, COUNTY_COLUMNS) >= 0;
  if (isGrouping || /^\s*\d{1,3}[\s:|,]+\D/.test(lines[0])) return known("grouping");
  if (columnOf(header, DISTRICT_COLUMNS) >= 0) return known("plan");
  return refused("This is a text whose layout isn’t known here. A table of counties and people "
    + "goes under What if, Other counts of people.");
}

/**
 * Returns whether a field looks like the code of a block, also where a spreadsheet changed it.
 * @param {string} field
 */
function isBlockLike(field) {
  return /^\d{14,15}$/.test(field.trim()) || /^\d(\.\d+)?E\+1[34]$/i.test(field.trim());
}
