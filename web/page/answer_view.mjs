// The first view: the answer with its map, its choices and its table.

import {
  cardsHtml, cardsIntro, deckHtml, factsHtml, groupTableHtml, headline, keyHtml, ladderSvg,
  optionDrawing, optionNoteHtml, publishedWords, takenHtml, whyWords, windowTitle,
} from "./answer_parts.mjs";
import { groupsOf, isOption, movedCounties, optionNumber, turned } from "./answers.mjs";
import { closenessHtml } from "./closeness.mjs";
import { openCounty } from "./county_view.mjs";
import { append, fill, html, refill } from "./html.mjs";
import { hashOf } from "./page.mjs";
import { chamberButtons, find, findAll, findInput, showToast, speak } from "./dom.mjs";
import { choiceWords, groupSentence, moveSentences, namesOf } from "./group_words.mjs";
import { focusSwitch, pin, point, showMap } from "./map_host.mjs";
import { current, shownOption } from "./view_state.mjs";

/** @typedef {import("./page.mjs").Page} Page */
/** @typedef {import("./answers.mjs").Answer} Answer */
/** @typedef {import("./view_state.mjs").ViewState} ViewState */
/** @typedef {import("./answer_parts.mjs").SortKey} SortKey */

/** @type {{key: SortKey, isUp: boolean}} */
const sorting = { key: "west", isUp: true };

/**
 * Draws the view of the option that is shown.
 * @param {Page} page
 * @param {ViewState} state
 * @param {Set<number> | null} [flash]  counties that just moved
 */
export function paintAnswer(page, state, flash = null) {
  const { answer, option, choices } = current(page, state);
  document.title = windowTitle(page, answer, option);
  paintChamber(page, answer, choices);
  find("#option").textContent = answer.options ? `Option ${option} of ${answer.number}` : "";
  find("#option-bar").hidden = answer.number === 1 || !answer.options;
  fill(find("#option-note"), optionNoteHtml(page, answer, option));
  showMap(find("#map"), {
    geography: page.geography, chamber: answer.seats, isPrinted: state.isPrinted, hasKeep: true,
    drawing: { ...optionDrawing(answer, choices), hasSwitches: true, flash },
    tell: (group, isLoud) => tellGroup(page, state, group, isLoud),
    turn: (area, choice) => {
      turnArea(page, state, area, choice);
      focusSwitch(find("#map"), area, choice);
    },
  });
  tellGroup(page, state, null, false);
  paintChoices(page, state);
  paintTable(page, state);
}

/** @type {Answer | null} */
let painted = null;

/**
 * Draws what all options of a chamber have in common, once.
 * @param {Page} page
 * @param {Answer} answer
 * @param {number[]} choices
 */
function paintChamber(page, answer, choices) {
  if (painted === answer) return;
  painted = answer;
  find("#title").textContent = headline(page, answer);
  fill(find("#deck"), deckHtml(page, answer));
  fill(find("#chambers"), chamberButtons(page.answers, answer.key));
  find("#chambers").hidden = page.answers.length < 2;
  find("#choices").hidden = !answer.areas.length;
  find("#choices-intro").textContent = cardsIntro(answer);
  fill(find("#cards"), cardsHtml(page, answer, choices));
  fill(find("#close"), closenessHtml(page, answer));
  find("#published").textContent = publishedWords(page, answer);
  find("#why").textContent = whyWords(answer);
  fill(find("#ladder"), ladderSvg(answer.counts));
  fill(find("#taken"), takenHtml(page.geography, answer));
  find("#table-head").textContent = `All ${groupsOf(answer, choices).length} groups`;
}

/**
 * Shows the facts of a group beside the map, or the key.
 * @param {Page} page
 * @param {ViewState} state
 * @param {number | null} at
 * @param {boolean} isLoud
 */
function tellGroup(page, state, at, isLoud) {
  const { answer, groups } = current(page, state);
  const place = find("#told");
  findAll("#table tr.on").forEach((row) => row.classList.remove("on"));
  const group = at === null ? null : groups[at];
  place.classList.toggle("has-group", group !== null);
  if (!group) {
    fill(place, keyHtml(answer, groups));
    return;
  }
  fill(place, factsHtml(page, answer, groups, group));
  document.querySelector(`#table tr[data-group="${at}"]`)?.classList.add("on");
  if (isLoud) {
    const names = namesOf(page.geography, group.counties).join(", ");
    speak(`${groupSentence(page.geography, { ...group }, answer.seats)} ${names}.`);
  }
}

/**
 * Draws the switches of a phone, and marks the choices on the cards of the areas.
 * @param {Page} page
 * @param {ViewState} state
 */
function paintChoices(page, state) {
  const { answer, choices } = current(page, state);
  refill(find("#switches"), answer.areas.map((area, at) => {
    const letters = area.choices.map((_, choice) => (
      html`
        <button type="button" data-area="${at}" data-choice="${choice}"
        aria-label="${choiceWords(area, choice)}"
        aria-pressed="${choices[at] === choice}">${choice + 1}</button>`));
    return html`
      <div class="switch-row"><span>${area.name}</span><span class="seg">${letters}</span></div>`;
  }));
  answer.areas.forEach((_, at) => {
    findInput(`#cards [name="area${at}"][value="${choices[at]}"]`).checked = true;
  });
}

/**
 * Draws the table of groups.
 * @param {Page} page
 * @param {ViewState} state
 */
function paintTable(page, state) {
  const { answer, groups } = current(page, state);
  findAll("#table tr.on").forEach((row) => row.classList.remove("on"));
  refill(find("#table"), groupTableHtml(
    page.geography, answer, groups, sorting.key, sorting.isUp));
}

/**
 * Turns an area to a choice.
 * @param {Page} page
 * @param {ViewState} state
 * @param {number} area
 * @param {number} choice
 */
function turnArea(page, state, area, choice) {
  const { answer, choices } = current(page, state);
  if (choices[area] === choice) return;
  const wanted = turned(answer, choices, area, choice);
  if (answer.options) {
    showOption(page, state, optionNumber(answer, wanted));
    return;
  }
  const before = current(page, state);
  state.free.set(answer.key, wanted);
  showChange(page, state, before);
}

/**
 * Shows an option of the chamber, flashes the counties that moved, and says so.
 * @param {Page} page
 * @param {ViewState} state
 * @param {number} option
 */
export function showOption(page, state, option) {
  const before = current(page, state);
  if (!isOption(before.answer, option) || option === before.option) return;
  state.option.set(before.answer.key, option);
  const frame = document.body.classList.contains("embedded") ? "embed/" : "";
  const hash = hashOf(page, `${frame}${before.answer.key}/${option}`);
  // (a step of the reader's can be taken back; a link is in the history already)
  if (location.hash !== hash) history.pushState(null, "", hash);
  showChange(page, state, before);
}

/**
 * Draws the view after a change of choices, flashes the counties that moved, and says so.
 * @param {Page} page
 * @param {ViewState} state
 * @param {ReturnType<typeof current>} before
 */
function showChange(page, state, before) {
  const moved = movedCounties(page.geography, before.groups, current(page, state).groups);
  paintAnswer(page, state, moved);
  tellChange(page, state, before.choices, moved);
}

/**
 * Says which counties moved.
 * @param {Page} page
 * @param {ViewState} state
 * @param {number[]} before
 * @param {Set<number>} moved
 */
function tellChange(page, state, before, moved) {
  const { answer, option, choices, groups } = current(page, state);
  const turnedAreas = answer.areas.map((area, at) => (
    before[at] === choices[at] ? "" : choiceWords(area, choices[at])
  )).filter(Boolean);
  const sentences = moveSentences(page.geography, groups, moved);
  const place = find("#told");
  place.classList.remove("has-group");
  const lines = sentences.slice(0, 5).map((one) => html`<p>${one}</p>`);
  const more = sentences.length > 5 ? html`<p class="note">More below.</p>` : "";
  fill(place, html`<h3>${turnedAreas.join(", ")}</h3>${lines}${more}`);
  const numbered = answer.options ? `Option ${option} of ${answer.number}. ` : "";
  speak(`${numbered}${turnedAreas.join(", ")}. ${sentences.join(" ")}`);
}

/**
 * Follows the controls of the view.
 * @param {Page} page
 * @param {ViewState} state
 */
export function followAnswer(page, state) {
  const step = (/** @type {number} */ by) => {
    const { answer, option } = current(page, state);
    showOption(page, state, ((option - 1 + by + answer.number) % answer.number) + 1);
  };
  find("#previous").addEventListener("click", () => step(-1));
  find("#next").addEventListener("click", () => step(1));
  find("#chambers").addEventListener("click", (event) => {
    const key = /** @type {HTMLElement} */ (event.target).closest("button")?.dataset.chamber;
    if (!key) return;
    location.hash = hashOf(page, `${key}/${shownOption(state, key)}`);
  });
  find("#option-note").addEventListener("click", (event) => {
    const { answer } = current(page, state);
    if (/** @type {HTMLElement} */ (event.target).id === "back") {
      showOption(page, state, answer.enacted);
    }
  });
  for (const id of ["#switches", "#cards"]) {
    find(id).addEventListener(id === "#cards" ? "change" : "click", (event) => {
      const target = /** @type {HTMLInputElement} */ (event.target);
      const area = target.dataset.area ?? target.name?.replace("area", "");
      const choice = target.dataset.choice ?? target.value;
      if (!area || !choice) return;
      turnArea(page, state, Number(area), Number(choice));
      if (id === "#switches") focusSwitch(find(id), Number(area), Number(choice));
    });
  }
  followTable(page, state);
  followFinder(page);
  find("#copy").addEventListener("click", () => copyLink(page, state));
}

/**
 * Sorts the table by its heads, and marks the group of a row on the map.
 * @param {Page} page
 * @param {ViewState} state
 */
function followTable(page, state) {
  const table = find("#table");
  const map = find("#map");
  const rowOf = (/** @type {Event} */ event) => {
    const target = /** @type {HTMLElement} */ (event.target);
    const row = /** @type {HTMLElement | null} */ (target.closest("tr[data-group]"));
    return row ? Number(row.dataset.group) : null;
  };
  table.addEventListener("click", (event) => {
    const head = /** @type {HTMLElement} */ (event.target).closest("button")?.dataset.sort;
    const row = rowOf(event);
    if (head) {
      const key = /** @type {SortKey} */ (head);
      sorting.isUp = sorting.key === key ? !sorting.isUp : key === "name" || key === "options";
      sorting.key = key;
      paintTable(page, state);
      find(`[data-sort="${key}"]`, table).focus();
    } else if (row !== null) {
      pin(map, row);
      const isAbove = find("#figure").getBoundingClientRect().bottom < 80;
      if (isAbove) find("#figure").scrollIntoView({ behavior: "smooth" });
    }
  });
  table.addEventListener("pointerover", (event) => point(map, rowOf(event)));
  table.addEventListener("pointerleave", () => point(map, null));
}

/**
 * Opens the card of a county by its name.
 * @param {Page} page
 */
function followFinder(page) {
  const finder = findInput("#finder");
  append(finder, page.geography.counties.map((county, place) => (
    html`<option value="${place}">${county.name}</option>`)));
  finder.addEventListener("change", () => {
    if (finder.value !== "") openCounty(page, Number(finder.value));
  });
}

/**
 * Copies the address of what is shown, or says where it stands. An address of this machine leads
 * nobody else here, so of a page that was saved the part behind the address is copied.
 * @param {Page} page
 * @param {ViewState} state
 */
async function copyLink(page, state) {
  const hash = state.county === null
    ? hashOf(page, `${state.chamber}/${shownOption(state, state.chamber)}`) : location.hash;
  const isSaved = location.protocol === "file:";
  try {
    await navigator.clipboard.writeText(isSaved ? hash : location.href.split("#")[0] + hash);
    showToast(isSaved ? `This page lies on your machine, so only ${hash} is copied: it goes behind `
      + "the address of any copy of this page." : "The link to this option is copied.");
  } catch {
    history.replaceState(null, "", hash);
    showToast("The address above is the link to this option.");
  }
}
