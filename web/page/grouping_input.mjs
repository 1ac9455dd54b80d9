// Reads a grouping that a reader pasted or dropped: the program's text, lines with names, or any
// table with a column of counties and one of groups.

import { peopleOf, shortName } from "./geography.mjs";
import { COUNTY_COLUMNS, GROUP_COLUMNS } from "./file_kinds.mjs";
import { columnOf, rowsOf, separatorOf } from "./tables.mjs";
import { likelySeats } from "./seats.mjs";
import { andList, capital } from "./words.mjs";

/** @typedef {import("./geography.mjs").Geography} Geography */
/** @typedef {{seats: number, counties: number[]}} GivenGroup */
/** @typedef {{groups: GivenGroup[], note: string}} GivenGrouping */

const SEAT_COLUMNS = ["seats", "districts", "numberofdistricts", "numseats", "nseats"];

/**
 * Returns the county of a name, in any letters and with "County" or "Co." or without, or of a code;
 * -1 if there is none.
 * @param {Geography} geography
 * @param {string} text
 */
export function countyOf(geography, text) {
  const plain = text.trim().replace(/\.0$/, "").replace(/\s+/g, " ");
  const code = /^\d{1,3}$/.test(plain) ? geography.code + plain.padStart(3, "0") : plain;
  const byCode = geography.placeOf.get(code);
  if (byCode !== undefined) return byCode;
  const short = (/** @type {string} */ name) => (
    shortName(name.toLowerCase().replace(/ co\.?$/, "").replace(/ county\b.*$/, "")));
  const wanted = short(plain);
  return geography.counties.findIndex((county) => short(county.name) === wanted);
}

/**
 * Returns the grouping of a text. Throws a sentence if it can't be read.
 * @param {Geography} geography
 * @param {string} text
 * @param {number} chamber
 * @returns {GivenGrouping}
 */
export function readGivenGrouping(geography, text, chamber) {
  const lines = text.split(/\r?\n/).map((line) => line.trim()).filter(Boolean);
  if (!lines.length) {
    throw new Error("There is no grouping yet: paste one, or drop a file on the box.");
  }
  const separator = separatorOf(text);
  const rows = rowsOf(text, separator);
  const county = columnOf(rows[0], COUNTY_COLUMNS);
  const group = columnOf(rows[0], GROUP_COLUMNS);
  if (county >= 0 && group >= 0) return fromTable(geography, rows, county, group, chamber);
  const isPairs = rows.every((row) => row.length === 2) && rows.length > 1
    && rows.slice(1).every((row) => countyOf(geography, row[0]) >= 0);
  if (isPairs) return fromTable(geography, rows, 0, 1, chamber);
  return { groups: lines.map((line, at) => groupOfLine(geography, line, at)), note: "" };
}

/**
 * Returns the group of a line: its seats, then its counties.
 * @param {Geography} geography
 * @param {string} line
 * @param {number} at
 * @returns {GivenGroup}
 */
function groupOfLine(geography, line, at) {
  const parts = line.match(/^(\d{1,3})[\s|:,;]+(.*)$/);
  if (!parts) {
    throw new Error(`Line ${at + 1} says “${line.slice(0, 60)}”. `
      + "A line begins with the seats of its group, then its counties.");
  }
  const words = parts[2].split(/[,|;]/).map((word) => word.trim()).filter(Boolean);
  const isCodes = words.length === 1 && /^\d{5}(\s+\d{5})*$/.test(words[0]);
  const names = isCodes ? words[0].split(/\s+/) : words;
  return { seats: Number(parts[1]), counties: countiesOf(geography, names) };
}

/**
 * Returns the counties of names. Throws if there is an unknown one.
 * @param {Geography} geography
 * @param {string[]} names
 */
function countiesOf(geography, names) {
  const places = names.map((name) => countyOf(geography, name));
  const unknown = names.filter((_, at) => places[at] < 0);
  if (unknown.length) {
    throw new Error(`No county of ${geography.name} is called ${andList(unknown.slice(0, 5))}.`);
  }
  return places;
}

/**
 * Returns the grouping of a table. Without a column of seats each group has those that its people
 * come nearest to.
 * @param {Geography} geography
 * @param {string[][]} rows
 * @param {number} county
 * @param {number} group
 * @param {number} chamber
 * @returns {GivenGrouping}
 */
function fromTable(geography, rows, county, group, chamber) {
  const seatColumn = columnOf(rows[0], SEAT_COLUMNS);
  const hasHeader = countyOf(geography, rows[0][county] ?? "") < 0;
  /** @type {Map<string, {names: string[], seats: number}>} */
  const groups = new Map();
  for (const row of hasHeader ? rows.slice(1) : rows) {
    const label = (row[group] ?? "").trim();
    if (!label || /^W\d+$/.test(label)) continue;
    const one = groups.get(label) ?? { names: [], seats: 0 };
    one.names.push(row[county] ?? "");
    one.seats = seatColumn >= 0 ? Number(row[seatColumn]) : 0;
    groups.set(label, one);
  }
  const found = [...groups.values()].map(({ names, seats }) => {
    const counties = countiesOf(geography, names);
    const likely = peopleOf(geography, counties) ? likelySeats(geography, counties, chamber) : 1;
    return { seats: seats || likely, counties };
  });
  const note = seatColumn >= 0 ? "" : "The table has no column of seats: each group was given "
    + "those that its people come nearest to.";
  return { groups: found, note: capital(note) };
}
