// Whether the files that a reader gave belong together: of one state, with the same records. What
// doesn't is refused in words before anything is solved.

import { STATES, stateName } from "./state_names.mjs";

/** @typedef {import("./given_files.mjs").Given} Given */

// Records of a state and its counties stand near the beginning, before tracts and blocks.
const HEAD_BYTES = 1 << 22;
const TAIL_BYTES = 1 << 12;

/**
 * Returns the lines at the beginning of a file, each as fields, without one that is cut.
 * @param {Blob} file
 */
async function headLines(file) {
  const text = new TextDecoder().decode(await file.slice(0, HEAD_BYTES).arrayBuffer());
  const lines = text.split("\n");
  if (file.size > HEAD_BYTES) lines.pop();
  return lines.filter((line) => line.trim()).map((line) => line.replace(/\r$/, "").split("|"));
}

/**
 * Returns the fields of the last line of a file.
 * @param {Blob} file
 */
async function lastLine(file) {
  const from = Math.max(0, file.size - TAIL_BYTES);
  const text = new TextDecoder().decode(await file.slice(from).arrayBuffer());
  return text.trimEnd().split("\n").pop()?.split("|") ?? [];
}

/**
 * Returns why a geographic header and counts don't belong together, or nothing.
 * @param {string[][]} geo
 * @param {string[][]} segment
 * @param {string[]} lastGeo
 * @param {string[]} lastSegment
 */
function whyOtherCounts(geo, segment, lastGeo, lastSegment) {
  const [of, by] = [geo[0]?.[1] ?? "", segment[0]?.[1] ?? ""];
  if (of !== by) return `The geographic header is of ${of}, and the counts are of ${by}.`;
  if (Number(lastGeo[7]) !== Number(lastSegment[4])) {
    return `The geographic header ends with record ${Number(lastGeo[7])}, and the counts end with `
      + `record ${Number(lastSegment[4])}: they aren’t of the same files.`;
  }
  const people = new Map(segment.map((fields) => [Number(fields[4]), fields[5]]));
  for (const fields of geo.filter((one) => one[2] === "050" && /^\d+$/.test(one[90] ?? ""))) {
    const count = people.get(Number(fields[7]));
    if (!/^\d+$/.test(count ?? "") || Number(count) === Number(fields[90])) continue;
    return `${fields[87] || fields[14]} has ${fields[90]} people by the geographic header, and `
      + `${count} by the counts: they aren’t of the same files.`;
  }
  return "";
}

/**
 * Returns why the file of borders isn't of the state, or nothing.
 * @param {string[][]} geo
 * @param {string} adjacency
 * @param {string} state  two digits
 */
function whyOtherBorders(geo, adjacency, state) {
  const counties = geo.filter((fields) => fields[2] === "050" && fields[12] === state)
    .map((fields) => fields[12] + fields[14]);
  const rows = adjacency.split("\n").map((line) => line.replace(/\r$/, "").split("|"));
  const known = new Set(rows.flatMap((row) => (row.length > 3 ? [row[1], row[3]] : [])));
  const missing = counties.filter((code) => !known.has(code));
  if (!counties.length || !missing.length) return "";
  const states = [...new Set([...known].map((code) => code.slice(0, 2)))].filter((code) => (
    STATES.has(code)));
  if (!states.includes(state)) {
    const whose = states.length === 1 ? stateName(states[0]) : "other states";
    return `The file of borders is of ${whose}, and the geographic header is of `
      + `${stateName(state)}.`;
  }
  return `The file of borders has no line of ${missing.length === 1 ? "the county" : "counties"} `
    + `${missing.slice(0, 5).join(", ")}${missing.length > 5 ? " and more" : ""}.`;
}

/**
 * Returns in a sentence why the given files don't belong together, or nothing.
 * @param {Given} given
 * @param {string} state  the two digits of the state that is to be solved
 */
export async function whyNotTogether(given, state) {
  const kinds = /** @type {const} */ (["geo", "segment", "adjacency"]);
  const [geoFile, segmentFile, borders] = kinds.map((kind) => (
    /** @type {File} */ (given.get(kind))));
  const geo = await headLines(geoFile);
  const own = geo.find((fields) => fields[2] === "050")?.[12];
  if (own && own !== state) {
    return `The geographic header is of ${stateName(own)}, and ${stateName(state)} is chosen.`;
  }
  const counts = whyOtherCounts(
    geo, await headLines(segmentFile), await lastLine(geoFile), await lastLine(segmentFile));
  return counts || whyOtherBorders(geo, await borders.text(), state);
}
