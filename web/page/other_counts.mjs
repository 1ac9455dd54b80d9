// Other counts of people: read from a pasted text or a table, and put into the Census files.

import { geographyOf } from "./geography.mjs";
import { countyOf } from "./grouping_input.mjs";
import { withFile } from "./program.mjs";
import { COUNTY_COLUMNS } from "./file_kinds.mjs";
import { columnOf, rowsOf, separatorOf } from "./tables.mjs";
import { counted, numberText } from "./words.mjs";

/** @typedef {import("./geography.mjs").Geography} Geography */
/** @typedef {import("./program.mjs").Files} Files */
/**
 * Counts of people by the places of counties, and what the reader should know of how they were
 * read.
 * @typedef {{people: Map<number, number>, note: string}} GivenCounts
 */

const PEOPLE_COLUMN = /^(pop|people|estimate|total|count(?!y)|p0010001)/;
const NUMBER = /^[\d,\s]{1,15}(\.0+)?$/;
// Fields of the geographic header: the level of a line, its record, its people.
const LEVEL = 2;
const RECORD = 7;
const POPULATION = 90;
// Fields of segment 1: the record, and the people.
const RECORD_OF_COUNTS = 4;
const PEOPLE = 5;

/**
 * Returns a geography with other people in some counties. Names, borders and the sheet stay.
 * @param {Geography} geography
 * @param {Map<number, number>} people
 * @returns {Geography}
 */
export function changedGeography(geography, people) {
  if (!people.size) return geography;
  const counties = geography.counties.map((county, place) => (
    { ...county, people: people.get(place) ?? county.people }));
  const { code, name, borders, sheet } = geography;
  return { ...geographyOf(code, name, counties), borders, sheet };
}

/**
 * Returns the files of a problem with other people in some counties, and in the state's own line.
 * @param {Geography} geography
 * @param {Files} files
 * @param {Map<number, number>} people
 * @returns {Promise<Files>}
 */
export async function withPeople(geography, files, people) {
  const geo = (await files.get("geo")?.text() ?? "").split("\n");
  const segment = (await files.get("segment")?.text() ?? "").split("\n");
  const { total } = changedGeography(geography, people);
  const lineOf = new Map(segment.map((line, at) => [line.split("|")[RECORD_OF_COUNTS], at]));
  geo.forEach((line, at) => {
    const fields = line.split("|");
    const place = geography.placeOf.get(fields[12] + fields[14]);
    const isCounty = fields[LEVEL] === "050" && place !== undefined;
    const own = fields[LEVEL] === "040" ? total : isCounty ? people.get(place) : undefined;
    const counts = lineOf.get(fields[RECORD]);
    if (own === undefined || counts === undefined) return;
    const record = segment[counts].split("|");
    record[PEOPLE] = String(own);
    segment[counts] = record.join("|");
    if (/^\d+$/.test(fields[POPULATION] ?? "")) fields[POPULATION] = String(own);
    geo[at] = fields.join("|");
  });
  return withFile(withFile(files, "geo", geo.join("\n")), "segment", segment.join("\n"));
}

/**
 * Returns other counts of a text: a line for each county with its people or a change, or a table
 * with a header. Throws a sentence if a line can't be read.
 * @param {Geography} geography
 * @param {string} text
 * @returns {GivenCounts}
 */
export function readCounts(geography, text) {
  const rows = rowsOf(text, separatorOf(text)).map((row) => row.map((field) => field.trim()));
  if (!rows.length) return { people: new Map(), note: "" };
  const isHeader = rows.length > 1 && !rows[0].some((field) => countyOf(geography, field) >= 0)
    && rows[0].length > 1 && (columnOf(rows[0], COUNTY_COLUMNS) >= 0
      || rows[0].every((field) => !/^[+\-\u2212]?[\d,]+$/.test(field)));
  return isHeader ? countsOfTable(geography, rows) : countsOfLines(geography, rows);
}

/**
 * Returns the counts of lines without a header: a county, and then its people or a change.
 * @param {Geography} geography
 * @param {string[][]} rows
 * @returns {GivenCounts}
 */
function countsOfLines(geography, rows) {
  /** @type {Map<number, number>} */
  const people = new Map();
  rows.forEach((row, at) => {
    // (a number with commas between thousands stands in several fields)
    const [name, ...rest] = row;
    const found = rest.length ? [name, rest.join("")] : name.match(/^(.*\D)\s+([+\-\u2212]?\d+)$/)
      ?.slice(1) ?? [name, ""];
    addCount(geography, people, found[0], found[1], at + 1);
  });
  return { people, note: noteOf(geography, people) };
}

/**
 * Takes the count of one line.
 * @param {Geography} geography
 * @param {Map<number, number>} people  grows
 * @param {string} name
 * @param {string} text
 * @param {number} line
 */
function addCount(geography, people, name, text, line) {
  const county = countyOf(geography, name);
  if (county < 0) {
    const told = name.slice(0, 40);
    throw new Error(`Line ${line}: no county of ${geography.name} is called “${told}”.`);
  }
  const parts = text.replace(/[,\s]/g, "").match(/^([+\-\u2212]?)(\d{1,9})(\.0+)?$/);
  if (!parts) {
    throw new Error(`Line ${line}: “${text.slice(0, 40)}” is no number of people, such as 170243, `
      + "and no change, such as +90.");
  }
  if (people.has(county)) {
    throw new Error(`Line ${line}: ${geography.counties[county].name} has a line already.`);
  }
  const number = Number(parts[2]);
  const before = parts[1] ? geography.counties[county].people : 0;
  const count = before + (parts[1] && parts[1] !== "+" ? -number : number);
  if (count < 0) throw new Error(`Line ${line}: fewer than no people would be left.`);
  people.set(county, count);
}

/**
 * Returns the county of a row of a table, or -1 for a row of a state or of another state.
 * @param {Geography} geography
 * @param {string[]} header
 * @param {string[]} row
 */
function countyOfRow(geography, header, row) {
  const [state, county] = [columnOf(header, ["state", "statefp"]), columnOf(header, ["county",
    "countyfp"])];
  const isSplit = state >= 0 && county >= 0 && /^\d{1,2}$/.test(row[state] ?? "")
    && /^\d{1,3}$/.test(row[county] ?? "");
  if (isSplit) {
    const code = row[state].padStart(2, "0") + row[county].padStart(3, "0");
    return geography.placeOf.get(code) ?? -1;
  }
  const own = columnOf(header, COUNTY_COLUMNS);
  return countyOf(geography, (row[own >= 0 ? own : 0] ?? "").replace(/^\./, ""));
}

/**
 * Returns the column of people: the last whose name says so, or else the one column of numbers
 * besides the columns of codes. Throws a sentence if there is none, or if there are several.
 * @param {Geography} geography
 * @param {string[]} header
 * @param {string[][]} body
 */
function peopleColumn(geography, header, body) {
  const plain = header.map((name) => name.toLowerCase().replace(/[^a-z0-9]/g, ""));
  const named = plain.reduce((last, name, at) => (PEOPLE_COLUMN.test(name) ? at : last), -1);
  if (named >= 0) return named;
  const codes = [columnOf(header, COUNTY_COLUMNS), ...["state", "statefp", "county", "countyfp"]
    .map((name) => columnOf(header, [name]))];
  if (codes.every((at) => at < 0)) codes.push(0);
  const rows = body.filter((row) => countyOfRow(geography, header, row) >= 0);
  const numbers = header.map((_, at) => at).filter((at) => !codes.includes(at) && rows.length
    && rows.every((row) => NUMBER.test(row[at] ?? "")));
  if (numbers.length === 1) return numbers[0];
  const several = numbers.map((at) => `“${header[at]}”`).join(", ");
  throw new Error(numbers.length
    ? `The table has several columns of numbers (${several}): name the one of people Population.`
    : "The table has no column of people: one whose name begins with Population, Estimate, People "
      + "or Total is wanted.");
}

/**
 * Returns the counts of a table.
 * @param {Geography} geography
 * @param {string[][]} rows
 * @returns {GivenCounts}
 */
function countsOfTable(geography, rows) {
  const [header, ...body] = rows;
  const column = peopleColumn(geography, header, body);
  /** @type {Map<number, number>} */
  const people = new Map();
  let left = 0;
  body.forEach((row, at) => {
    const county = countyOfRow(geography, header, row);
    if (county < 0) left += 1;
    else addCount(geography, people, geography.counties[county].geoid, row[column] ?? "", at + 2);
  });
  if (!people.size) throw new Error(`The table has no county of ${geography.name}.`);
  const lines = `${counted(left, "line")} of no county of ${geography.name}`;
  const others = left ? ` ${lines} ${left === 1 ? "was" : "were"} left out.` : "";
  const note = `The column “${header[column]}” was taken.${others} ${noteOf(geography, people)}`;
  return { people, note };
}

/**
 * Returns how many counties have another count, and the state's people then.
 * @param {Geography} geography
 * @param {Map<number, number>} people
 */
function noteOf(geography, people) {
  if (!people.size) return "";
  const { total } = changedGeography(geography, people);
  const rest = geography.counties.length - people.size;
  const stay = rest ? ` ${counted(rest, "county keeps its", "counties keep their")} people.` : "";
  return `${counted(people.size, "county has", "counties have")} a count here.${stay} The state `
    + `has ${numberText(total)} people then.`;
}

/**
 * Returns counts as lines of a text, as a reader writes them: the change of each county.
 * @param {Geography} geography
 * @param {Map<number, number>} people
 */
export function countsText(geography, people) {
  return [...people].map(([place, count]) => {
    const change = count - geography.counties[place].people;
    return `${geography.counties[place].name}, ${change < 0 ? "−" : "+"}${Math.abs(change)}`;
  }).join("\n");
}
