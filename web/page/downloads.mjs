// What can be stored of an option: grouping, tables, shapes, maps, certificate and record.

import { groupingText, groupsOf, inOrder } from "./answers.mjs";
import { find, findAll, saveFile, showToast } from "./dom.mjs";
import { codesOf, peopleOf } from "./geography.mjs";
import { dissolvedText, geojsonText } from "./geojson.mjs";
import { html } from "./html.mjs";
import { hashOf, textsFor } from "./page.mjs";
import { pngPicture, sharedPicture, svgText } from "./pictures.mjs";
import { fileOf, storedFile } from "./program.mjs";
import { readTable } from "./program_texts.mjs";
import { csvField } from "./tables.mjs";
import { current } from "./view_state.mjs";

/** @typedef {import("./page.mjs").Page} Page */
/** @typedef {import("./geography.mjs").Geography} Geography */
/** @typedef {import("./geography.mjs").Group} Group */
/** @typedef {import("./view_state.mjs").ViewState} ViewState */

/**
 * Returns the number of the group, its seats and its people by the code of each county, as
 * `--table` numbers them.
 * @param {Geography} geography
 * @param {Group[]} groups
 */
function setsOf(geography, groups) {
  const numbered = groups.map((group) => ({ group, codes: codesOf(geography, group.counties) }));
  numbered.sort(inOrder);
  /** @type {Map<string, [string, number, number]>} */
  const setOf = new Map();
  numbered.forEach(({ group, codes }, at) => codes.forEach((code) => (
    setOf.set(code, [String(at + 1), group.seats, peopleOf(geography, group.counties)]))));
  return setOf;
}

/**
 * Returns the table of the counties as `--table` stores it.
 * @param {Page} page
 * @param {string} table  one of the chamber's, which has the names as the program read them
 * @param {Group[]} groups
 */
export function tableText(page, table, groups) {
  const setOf = setsOf(page.geography, groups);
  const rows = readTable(table);
  for (const row of rows.filter((one) => one.group.startsWith("W"))) {
    const people = rows.filter((one) => one.group === row.group)
      .reduce((sum, one) => sum + one.people, 0);
    setOf.set(row.geoid, [row.group, row.seats, people]);
  }
  const lines = rows.map((row) => (
    [row.geoid, csvField(row.name), row.people, ...(setOf.get(row.geoid) ?? ["", "", ""])]));
  const head = "GEOID,NAME,POPULATION,GROUP,SEATS,GROUP_POPULATION\n";
  return head + lines.map((line) => `${line.join(",")}\n`).join("");
}

/**
 * Returns the table of all options as `list --groupings` stores it, or that of what is shown where
 * the options aren't numbered.
 * @param {Page} page
 * @param {ViewState} state
 */
export function optionsText(page, state) {
  const { answer, choices } = current(page, state);
  const rows = readTable(textsFor(page, answer.key).table);
  const lines = (answer.options ?? [choices]).flatMap((some, at) => {
    const setOf = setsOf(page.geography, groupsOf(answer, some));
    return rows.filter((row) => setOf.has(row.geoid)).map((row) => {
      const [group, seats] = setOf.get(row.geoid) ?? ["", 0];
      return `${[at + 1, row.geoid, csvField(row.name), group, seats].join(",")}\n`;
    });
  });
  return `GROUPING,GEOID,NAME,GROUP,SEATS\n${lines.join("")}`;
}

/**
 * Returns the HTML by which another page shows the map of the option in a frame. A page that was
 * saved is named as it has to lie beside the other page.
 * @param {Page} page
 * @param {ViewState} state
 */
export function embedText(page, state) {
  const { answer, option } = current(page, state);
  const hash = hashOf(page, `embed/${answer.key}/${option}`);
  const isSaved = location.protocol === "file:";
  const address = isSaved ? "page.html" : location.href.split("#")[0];
  const title = `${page.geography.name} ${answer.name}: county groups`;
  const frame = html`
    <iframe src="${address}${hash}" title="${title}" width="100%" height="640"
    style="border:0"></iframe>`;
  return `${frame.text}\n`;
}

/**
 * Returns what a button of the menu offers: the ending of its name, its data, its type.
 * @type {Record<string, (page: Page, state: ViewState) => Promise<BlobPart> | BlobPart>}
 */
const OFFERED = {
  csv: (page, state) => {
    const { answer, groups } = current(page, state);
    return tableText(page, textsFor(page, answer.key).table, groups);
  },
  options: optionsText,
  grouping: (page, state) => groupingText(page.geography, current(page, state).groups),
  geojson: (page, state) => geojsonText(page.geography, current(page, state).groups),
  dissolved: (page, state) => dissolvedText(page.geography, current(page, state).groups),
  svg: svgText,
  png: pngPicture,
  share: sharedPicture,
  embed: embedText,
  record: (page, state) => textsFor(page, current(page, state).answer.key).record,
  certificate: (page, state) => storedFile(`${current(page, state).answer.key}.certificate`),
};

/** The ending of a stored file's name, and its type; OPTION names the option before the ending. */
const ENDINGS = /** @type {Record<string, [string, string]>} */ ({
  csv: ["OPTION.csv", "text/csv"], options: ["-all-options.csv", "text/csv"],
  grouping: ["OPTION.grouping", "text/plain"],
  geojson: ["OPTION.geojson", "application/geo+json"],
  dissolved: ["OPTION-groups.geojson", "application/geo+json"],
  svg: ["OPTION.svg", "image/svg+xml"], png: ["OPTION.png", "image/png"],
  share: ["OPTION-share.png", "image/png"], embed: ["OPTION-frame.html", "text/html"],
  record: [".record", "text/plain"], certificate: [".certificate", "text/plain"],
});

/**
 * Stores what a button of the menu offers.
 * @param {Page} page
 * @param {ViewState} state
 * @param {string} kind
 */
async function download(page, state, kind) {
  const { answer, option } = current(page, state);
  const [ending, type] = ENDINGS[kind];
  const { year } = page.census;
  const before = year && year !== page.data.year ? `${year}-` : "";
  const named = ending.replace("OPTION", answer.options ? `-option-${option}` : "");
  saveFile(`${before}${answer.key}${named}`, await OFFERED[kind](page, state), type);
}

/**
 * Stores what a button of the menu offers, or says why it can't.
 * @param {Page} page
 * @param {ViewState} state
 * @param {string} kind
 */
async function downloadOrSay(page, state, kind) {
  try {
    await download(page, state, kind);
  } catch (fault) {
    showToast(`It can’t be stored. ${fault instanceof Error ? fault.message : fault}`);
  }
}

/**
 * Follows the menu of downloads. It has a certificate only if the page carries those of all
 * chambers.
 * @param {Page} page
 * @param {ViewState} state
 */
export function followDownloads(page, state) {
  const menu = /** @type {HTMLDetailsElement} */ (find("#downloads"));
  const isCarried = page.answers.every(({ key }) => fileOf(`${key}.certificate`));
  find("[data-download=certificate]", menu).hidden = !isCarried;
  for (const button of findAll("[data-download]", menu)) {
    button.addEventListener("click", () => {
      menu.open = false;
      downloadOrSay(page, state, button.dataset.download ?? "");
    });
  }
  document.addEventListener("click", (event) => {
    if (menu.open && !menu.contains(/** @type {Node} */ (event.target))) menu.open = false;
  });
  menu.addEventListener("keydown", (event) => {
    if (event.key !== "Escape" || !menu.open) return;
    menu.open = false;
    find("summary", menu).focus();
  });
}
