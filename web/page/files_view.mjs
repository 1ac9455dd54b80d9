// The fourth view: the reader's own files. A state is solved, a grouping judged, a plan audited.

import { fill, html } from "./html.mjs";
import { chamberOptions, solveGiven, solvedAs } from "./solve_files.mjs";
import { bringIntoView, find, findInput } from "./dom.mjs";
import { KIND_WORDS, placedFiles } from "./given_files.mjs";
import { followGrouping, paintGrouping, takeGrouping } from "./grouping_view.mjs";
import { followPlan, paintPlan, takePlan } from "./plan_view.mjs";
import { fileOf, storedFile, whyNoProgram } from "./program.mjs";
import { STATES } from "./state_names.mjs";
import { bytesText } from "./words.mjs";

/** @typedef {import("./page.mjs").Page} Page */
/** @typedef {import("./view_state.mjs").ViewState} ViewState */
/** @typedef {import("./file_kinds.mjs").FileKind} FileKind */
/** @typedef {import("./given_files.mjs").Given} Given */

/** @type {[FileKind, string, string][]} */
const SLOTS = [
  ["geo", "Geographic header", "ncgeo2020.pl of the Census Bureau’s P.L. 94-171 files, or its zip"],
  ["segment", "Counts: segment 1", "nc000012020.pl of the same files; the zip has both"],
  ["adjacency", "Which counties meet", "county_adjacency2023.txt, or a file of the same layout"],
  ["outlines", "Outlines, if you like", "GeoJSON with GEOID, for the map only"],
];

/** @type {Given} */
const given = new Map();

/**
 * Draws the view.
 * @param {Page} page
 * @param {ViewState} state
 */
export function paintFiles(page, state) {
  document.title = `Your files: county groups of ${page.geography.name}`;
  if (!find("#drop-zones").children.length) paintSlots(page);
  paintGrouping(page, state);
  paintPlan(page, state, given);
}

/**
 * Draws the slots for files, and the choice of state and chamber.
 * @param {Page} page
 */
function paintSlots(page) {
  fill(find("#drop-zones"), SLOTS.map(([kind, name, words]) => (
    html`
      <label class="drop-zone" data-kind="${kind}"><b>${name}</b><small>${words}</small><input
      type="file" multiple class="unseen"></label>`)));
  fill(find("#state"), [...STATES].map(([code, name]) => (
    html`
      <option value="${code}"${code === page.data.state.code ? " selected" : ""}>
      ${name}</option>`)));
  paintChambers();
  const reason = whyNoProgram();
  if (reason) find("#dropped").textContent = reason;
}

/** Offers the chambers of the chosen state. */
function paintChambers() {
  const select = findInput("#chamber-kind");
  fill(select, chamberOptions(findInput("#state").value));
  findInput("#seats").value = select.value || "50";
}

/**
 * Puts dropped files where they belong, and says so.
 * @param {Page} page
 * @param {ViewState} state
 * @param {Iterable<File>} files
 * @param {string} slot  the slot on which they were dropped
 */
async function takeFiles(page, state, files, slot) {
  /** @type {string[]} */
  const told = [];
  /** @type {Set<FileKind>} */
  const kinds = new Set();
  const line = find(slot === "plan" ? "#audit-result" : "#dropped");
  line.textContent = "Looking at the files.";
  for (const file of files) {
    try {
      const { placed, problem } = await placedFiles(file);
      if (problem) told.push(problem);
      for (const one of placed) {
        await takeFile(page, state, one.kind, one.file);
        kinds.add(one.kind);
        if (one.kind !== slot || placed.length > 1) {
          told.push(`${one.file.name} is ${KIND_WORDS.get(one.kind)}.`);
        }
      }
    } catch (fault) {
      told.push(`${file.name}: ${fault instanceof Error ? fault.message : fault}`);
    }
  }
  const reason = whyNoProgram();
  if (reason) told.push(reason);
  const isPlanShown = slot === "plan" && given.has("plan");
  if (!isPlanShown || told.length) line.textContent = told.join(" ");
  // (the verdict on a plan is further down than the other places to drop it)
  if (kinds.size === 1 && kinds.has("plan")) bringIntoView(find("#quick"));
}

/**
 * Takes a file whose kind is known.
 * @param {Page} page
 * @param {ViewState} state
 * @param {FileKind} kind
 * @param {File} file
 */
async function takeFile(page, state, kind, file) {
  if (kind === "grouping") {
    await takeGrouping(file);
    return;
  }
  given.set(kind, file);
  const zone = document.querySelector(`.drop-zone[data-kind="${kind}"]`);
  if (zone) {
    zone.classList.add("has-file");
    find("small", zone).textContent = `${file.name}, ${bytesText(file.size)}`;
  }
  if (kind === "geo") await takeState(file);
  if (kind === "plan") await takePlan(page, state, file, given);
  paintPlan(page, state, given);
  const isWhole = ["geo", "segment", "adjacency"].every((one) => (
    given.has(/** @type {FileKind} */ (one))));
  findInput("#solve-files").disabled = !isWhole || whyNoProgram() !== null;
}

/**
 * Lets go of the file of a slot.
 * @param {FileKind} kind
 */
function emptySlot(kind) {
  given.delete(kind);
  const zone = find(`.drop-zone[data-kind="${kind}"]`);
  zone.classList.remove("has-file");
  find("small", zone).textContent = SLOTS.find((slot) => slot[0] === kind)?.[2] ?? "";
}

/**
 * Chooses the state that a geographic header is of.
 * @param {File} file
 */
async function takeState(file) {
  const head = await file.slice(0, 1 << 16).text();
  const code = head.split("\n").map((line) => line.split("|")[12]).find((one) => STATES.has(one));
  const select = findInput("#state");
  if (!code || code === select.value) return;
  select.value = code;
  paintChambers();
}

/**
 * Fills the slots with the files of the page.
 * @param {Page} page
 * @param {ViewState} state
 */
async function useOwnFiles(page, state) {
  for (const kind of /** @type {FileKind[]} */ (["geo", "segment", "adjacency"])) {
    const file = new File([await storedFile(kind)], fileOf(kind)?.name ?? kind);
    await takeFile(page, state, kind, file);
  }
  emptySlot("outlines");
  find("#dropped").textContent = whyNoProgram() ?? "";
}

/**
 * Has an element take dropped files that no element in it has taken.
 * @param {HTMLElement} zone
 * @param {(files: File[]) => void} take
 */
function followDrops(zone, take) {
  zone.addEventListener("dragover", (event) => {
    event.preventDefault();
    zone.classList.add("over");
  });
  zone.addEventListener("dragleave", () => zone.classList.remove("over"));
  zone.addEventListener("drop", (event) => {
    if (event.defaultPrevented) return;
    event.preventDefault();
    zone.classList.remove("over");
    take([...(event.dataTransfer?.files ?? [])]);
  });
}

/**
 * Follows the controls of the view.
 * @param {Page} page
 * @param {ViewState} state
 */
export function followFiles(page, state) {
  const slotOf = (/** @type {EventTarget | null} */ target) => {
    const zone = /** @type {HTMLElement | null} */ (target)?.closest(".drop-zone");
    return zone instanceof HTMLElement ? zone.dataset.kind ?? "plan" : "";
  };
  for (const zone of [find("#drop-zones"), find("#plan-zone")]) {
    const name = zone.id === "plan-zone" ? "plan" : "any";
    followDrops(zone, (files) => takeFiles(page, state, files, name));
    zone.addEventListener("change", (event) => {
      const input = /** @type {HTMLInputElement} */ (event.target);
      takeFiles(page, state, [...(input.files ?? [])], slotOf(input));
      input.value = "";
    });
  }
  followDrops(find("#grouping-text"), async (files) => {
    await takeFiles(page, state, files, "grouping");
  });
  // (files that miss every zone would be opened in the place of the page)
  followDrops(find("#files"), (files) => takeFiles(page, state, files, "any"));
  find("#state").addEventListener("change", paintChambers);
  find("#chamber-kind").addEventListener("change", () => {
    const { value } = findInput("#chamber-kind");
    if (value) findInput("#seats").value = value;
  });
  find("#use-own").addEventListener("click", () => useOwnFiles(page, state));
  find("#solve-files").addEventListener("click", () => solveGiven(page, given));
  find("#files-result").addEventListener("click", (event) => {
    const kind = /** @type {HTMLElement} */ (event.target).dataset.store;
    if (kind) solvedAs(kind);
  });
  followGrouping(page, state);
  followPlan(page, state, given);
}
