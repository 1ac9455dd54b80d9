// Reads the part of an address behind `#`: which view, chamber, option, county and census it names.

import { isOption } from "./answers.mjs";
import { answerFor, censusYears, chamberWords } from "./page.mjs";
import { counted } from "./words.mjs";

/** @typedef {import("./page.mjs").Page} Page */
/** @typedef {import("./view_state.mjs").ViewName} ViewName */
/**
 * What an address names. `option` is 0, `chamber`, `county` and `query` are empty where it names
 * none. `fault` says in a sentence why the address can't be read.
 * @typedef {{year: number, view: ViewName, chamber: string, option: number, county: string,
 *   query: string, isEmbedded: boolean, fault: string}} Address
 */

/** @type {ViewName[]} */
const VIEWS = ["proof", "whatif", "files"];

/**
 * Returns a text without its escapes, or as it is if one of them can't be read.
 * @param {string} text
 */
export function unescaped(text) {
  try {
    return decodeURIComponent(text);
  } catch {
    return text;
  }
}

/**
 * Returns the census that an address names, and the rest of it.
 * @param {Page} page
 * @param {string[]} parts
 */
export function yearOf(page, parts) {
  const years = censusYears(page);
  const year = years.find((one) => one && String(one) === parts[0]);
  return year ? { year, rest: parts.slice(1) } : { year: years[0], rest: parts };
}

/**
 * Returns what an address names, once the page shows its census.
 * @param {Page} page
 * @param {string} hash  with its `#`
 * @returns {Address}
 */
export function readAddress(page, hash) {
  const { year, rest } = yearOf(page, hash.slice(1).split("/"));
  const isEmbedded = rest[0] === "embed";
  const [head = "", second = "", ...more] = isEmbedded ? rest.slice(1) : rest;
  /** @type {Address} */
  const address = {
    year, view: "answer", chamber: "", option: 0, county: "", query: "", isEmbedded, fault: "",
  };
  const view = VIEWS.find((name) => name === head);
  if (view) return withChamber(page, { ...address, view, query: more.join("/") }, second);
  if (head === "county") return withCounty(page, { ...address, query: more.join("/") }, second);
  if (!head) return address;
  const query = more[0] === "close" ? "close" : "";
  return withOption(page, withChamber(page, { ...address, query }, head), second);
}

/**
 * Returns an address with its chamber.
 * @param {Page} page
 * @param {Address} address
 * @param {string} key
 */
function withChamber(page, address, key) {
  if (!key) return address;
  const isKnown = page.answers.some((answer) => answer.key === key);
  const fault = `“${unescaped(key).slice(0, 40)}” names nothing on this page.`;
  return isKnown ? { ...address, chamber: key } : { ...address, fault };
}

/**
 * Returns an address with its option.
 * @param {Page} page
 * @param {Address} address
 * @param {string} text
 */
function withOption(page, address, text) {
  if (!text || address.fault) return address;
  const answer = answerFor(page, address.chamber);
  if (/^\d+$/.test(text) && isOption(answer, Number(text))) {
    return { ...address, option: Number(text) };
  }
  const known = `${chamberWords(answer)} has ${counted(answer.number, "option")}.`;
  return { ...address, fault: `There is no option ${unescaped(text).slice(0, 20)}: ${known}` };
}

/**
 * Returns an address with its county, and with the chamber of the group that it asks for, if it
 * asks for one.
 * @param {Page} page
 * @param {Address} address
 * @param {string} code
 */
function withCounty(page, address, code) {
  const [chamber = "", codes = ""] = address.query.split("/");
  const all = [code, ...codes.split("-").filter(Boolean)];
  const unknown = all.find((one) => !page.geography.placeOf.has(one));
  if (unknown !== undefined) {
    const told = unescaped(unknown).slice(0, 20);
    return { ...address, fault: `No county of ${page.geography.name} has the code ${told}.` };
  }
  return withChamber(page, { ...address, county: code }, chamber);
}
