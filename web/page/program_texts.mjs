// Reads what `countygroups` writes (docs/reference/formats.md): list, report, tables, record,
// findings. What it prints is read in both forms, the lines and the object of `--json`; no other
// module of the page looks into what a run printed.

import { rowsOf } from "./tables.mjs";

/**
 * A group of a list: its codes, and the least and the greatest number of seats that its people
 * suit.
 * @typedef {{codes: string[], least: number, most: number, people: number}} ListedGroup
 */
/**
 * What `list` says. `combinations` has the alternatives of each grouping, from 0, or null for all.
 * @typedef {{people: number, chamber: number, window: [number, number], seatsLeft: number,
 *   counts: number[], number: number, shared: ListedGroup[], regions: ListedGroup[][][],
 *   combinations: number[][] | null}} Listing
 */
/** @typedef {{seats: number, people: number, codes: string[]}} ReportedGroup */
/**
 * What `solve`, `check` and `judge` say.
 * @typedef {{answer: string, seatsLeft: number, counts: number[], groups: ReportedGroup[]}} Report
 */
/**
 * A county's row in a table. `group` is a number from 1, `W1` for a withdrawn set, or empty.
 * @typedef {{geoid: string, name: string, people: number, group: string, seats: number}} TableRow
 */
/** @typedef {{option: string, bytes: number, sum: string, name: string}} RecordFile */
/**
 * @typedef {{version: string, words: string[], read: RecordFile[], stored: RecordFile[],
 *   answer: string}} RunRecord
 */
/** @typedef {{kind: string, words: string[]}} Finding */
/**
 * A district of a plan. `least` and `greatest` are the people that suit one seat; `sets` are those
 * in which it has blocks: the number of a group from 1, or `W1` for a withdrawn set.
 * @typedef {{label: string, people: number, least: number, greatest: number, sets: string[],
 *   counties: string[]}} District
 */

/**
 * Returns the numbers behind `counts`, with no number for `counts none`.
 * @param {string[]} words
 */
function countsOf(words) {
  return words[0] === "none" ? [] : words.map(Number);
}

/**
 * Returns the object that `--json` prints, or null if a text is of lines.
 * @param {string} text
 * @returns {any}
 */
function objectOf(text) {
  return text.startsWith("{") ? JSON.parse(text) : null;
}

/**
 * Returns what a run printed in the place of an answer, such as a fault: its lines, without the
 * last line end.
 * @param {string} text
 * @returns {string}
 */
export function messageOf(text) {
  const object = objectOf(text);
  return (object ? object.message ?? "" : text).trim();
}

/**
 * Returns why a run gave no answer: the first lines of what it told on standard error, or else of
 * what it printed.
 * @param {{output: string, errors: string}} run
 * @param {number} most  lines
 */
export function refusalOf({ output, errors }, most) {
  return (errors.trim() || messageOf(output)).split("\n").slice(0, most).join(" ");
}

/**
 * Returns the group of a line of a list.
 * @param {string[]} words
 * @returns {ListedGroup}
 */
function listedGroup(words) {
  const at = words.indexOf("people");
  const least = Number(words[2]);
  const most = words[3] === "to" ? Number(words[4]) : least;
  return { codes: words.slice(at + 3), least, most, people: Number(words[at + 1]) };
}

/**
 * Returns the list of an object.
 * @param {any} object
 * @returns {Listing}
 */
function listingOf(object) {
  const groupOf = (/** @type {any} */ { seats, people, counties }) => (
    { codes: counties, least: seats?.least ?? 0, most: seats?.greatest ?? 0, people });
  const { people, chamber, tolerance, regions, counts } = object;
  return {
    people, chamber, window: tolerance, seatsLeft: object.seats_left, counts,
    number: object.best_groupings, shared: object.shared_groups.map(groupOf),
    regions: regions.map((/** @type {any} */ region) => (
      region.alternatives.map((/** @type {any} */ one) => one.groups.map(groupOf)))),
    combinations: object.every_choice ? null : object.groupings.map((/** @type {any} */ one) => (
      one.alternatives.map((/** @type {number} */ number) => number - 1))),
  };
}

/**
 * Returns the number that a list gives the grouping of `--which`, or 0 if it isn't one of the best.
 * @param {string} text
 * @returns {number}
 */
export function readWhich(text) {
  const object = objectOf(text);
  return Number(object ? object.number ?? 0 : text.match(/^number (\d+)$/m)?.[1] ?? 0);
}

/**
 * Returns what a list says. Throws if the text is no list.
 * @param {string} text
 * @returns {Listing}
 */
export function readList(text) {
  const object = objectOf(text);
  if (object?.answer === "all") return listingOf(object);
  /** @type {Listing} */
  const listing = {
    people: 0, chamber: 0, window: [1, 20], seatsLeft: 0, counts: [], number: 0, shared: [],
    regions: [], combinations: [],
  };
  let into = listing.shared;
  for (const line of text.split("\n")) {
    const words = line.split(" ");
    if (words[0] === "region") listing.regions.push([]);
    else if (words[0] === "alternative") {
      into = [];
      listing.regions[listing.regions.length - 1].push(into);
    } else if (words[0] === "group") into.push(listedGroup(words));
    else readListLine(listing, line, words);
  }
  if (!/^answer all$/m.test(text)) throw new Error("The text is no list of groupings.");
  return listing;
}

/**
 * Reads a line of a list that is no group.
 * @param {Listing} listing
 * @param {string} line
 * @param {string[]} words
 */
function readListLine(listing, line, words) {
  if (words[0] === "people") listing.people = Number(words[1]);
  if (words[0] === "chamber") listing.chamber = Number(words[1]);
  if (words[0] === "window") listing.window = [Number(words[1]), Number(words[2])];
  if (words[0] === "seats") listing.seatsLeft = Number(words[2]);
  if (words[0] === "counts") listing.counts = countsOf(words.slice(1));
  if (words[0] === "best") listing.number = Number(words[2]);
  if (line === "every choice") listing.combinations = null;
  if (words[0] === "grouping") {
    listing.combinations?.push(words.slice(3).map((one) => Number(one) - 1));
  }
}

/**
 * Returns what a report says.
 * @param {string} text
 * @returns {Report}
 */
export function readReport(text) {
  /** @type {Report} */
  const report = { answer: "", seatsLeft: 0, counts: [], groups: [] };
  const object = objectOf(text);
  if (object) {
    const { answer = "", seats_left: seatsLeft = 0, counts = [], groups } = object;
    const read = (groups ?? []).map((/** @type {any} */ { seats, people, counties }) => (
      { seats, people, codes: counties }));
    return { answer, seatsLeft, counts, groups: read };
  }
  for (const line of text.split("\n")) {
    const words = line.split(" ");
    if (words[0] === "answer") report.answer = words.slice(1).join(" ");
    if (words[0] === "seats") report.seatsLeft = Number(words[2]);
    if (words[0] === "counts") report.counts = countsOf(words.slice(1));
    if (words[0] === "group") {
      const [seats, people] = [Number(words[3]), Number(words[5])];
      report.groups.push({ seats, people, codes: words.slice(7) });
    }
  }
  return report;
}

/**
 * Returns whether the grouping that a report of `judge` is of is lawful. If a certificate has
 * greater counts, the status is 1, as it is for a fault; only a fault has no such answer.
 * @param {Report} report
 */
export function isLawful({ answer }) {
  return answer === "best" || answer === "lawful";
}

/**
 * Returns the counties of a size table with their people.
 * @param {string} text
 * @returns {{geoid: string, people: number}[]}
 */
export function readSizes(text) {
  const object = objectOf(text);
  if (object) {
    return object.sizes.map((/** @type {any} */ { county, people }) => ({ geoid: county, people }));
  }
  const lines = text.split("\n").filter((line) => /^\d{5}\|/.test(line));
  return lines.map((line) => {
    const fields = line.split("|");
    return { geoid: fields[0], people: Number(fields[1]) };
  });
}

/**
 * Returns the rows of a table of the counties.
 * @param {string} text
 * @returns {TableRow[]}
 */
export function readTable(text) {
  return rowsOf(text, ",").slice(1).map(([geoid, name, people, group, seats]) => (
    { geoid, name, people: Number(people), group, seats: Number(seats) }));
}

/**
 * Returns the text with each byte that was escaped as `\xHH` as it was.
 * @param {string} text
 */
function unescaped(text) {
  if (!text.includes("\\x")) return text;
  const bytes = [];
  for (const part of text.split(/(\\x[0-9A-F]{2})/)) {
    if (/^\\x[0-9A-F]{2}$/.test(part)) bytes.push(parseInt(part.slice(2), 16));
    else bytes.push(...new TextEncoder().encode(part));
  }
  return new TextDecoder().decode(Uint8Array.from(bytes));
}

/**
 * Returns what the record of a run says.
 * @param {string} text
 * @returns {RunRecord}
 */
export function readRecord(text) {
  /** @type {RunRecord} */
  const record = { version: "", words: [], read: [], stored: [], answer: "" };
  for (const line of text.split("\n")) {
    const [head, ...rest] = line.split(" ");
    if (head === "version") record.version = unescaped(rest.join(" "));
    if (head === "word") record.words.push(unescaped(rest.join(" ")));
    if (head === "answer") record.answer = unescaped(rest.join(" "));
    if (head === "read" || head === "stored") {
      const [option, bytes, sum, ...name] = rest;
      const file = { option, bytes: Number(bytes), sum, name: unescaped(name.join(" ")) };
      record[head].push(file);
    }
  }
  return record;
}

/**
 * Returns the groups of a grouping text: a line for each, its seats and then its codes.
 * @param {string} text
 * @returns {{seats: number, codes: string[]}[]}
 */
export function readGrouping(text) {
  const lines = text.split(/\r?\n/).filter((line) => line.trim());
  return lines.map((line) => {
    const [seats, ...codes] = line.split("|");
    return { seats: Number(seats), codes };
  });
}

/**
 * Returns a finding of an object, with the words that its line has.
 * @param {any} finding
 * @returns {Finding}
 */
function findingOf({ finding: kind, fault, block, district, sets, set, seats, districts, people }) {
  const setWords = (/** @type {any} */ one) => (
    one.group ? ["group", one.group] : ["withdrawn", one.withdrawn]);
  /** @type {Record<string, () => (string | number)[]>} */
  const words = {
    Grouping: () => fault.split(" "), Crosses: () => [district, ...sets.flatMap(setWords)],
    WrongNumber: () => [...setWords(set), "seats", seats, "districts", districts],
    DistrictSize: () => [district, "people", people],
  };
  return { kind, words: (words[kind]?.() ?? [block]).map(String) };
}

/**
 * Returns the findings of an audit.
 * @param {string} text
 * @returns {Finding[]}
 */
export function readFindings(text) {
  const object = objectOf(text);
  if (object) return object.findings.map(findingOf);
  const lines = text.split("\n").slice(1).filter(Boolean);
  return lines.map((line) => {
    const [kind, ...words] = line.split(" ");
    return { kind, words };
  });
}

/**
 * Returns the districts of a table that an audit stored.
 * @param {string} text
 * @returns {District[]}
 */
export function readDistricts(text) {
  return rowsOf(text, ",").slice(1).map((row) => {
    const [label, people, least, greatest, sets, counties] = row;
    return {
      label, people: Number(people), least: Number(least), greatest: Number(greatest),
      sets: sets.split(" "), counties: counties.split(" "),
    };
  });
}
