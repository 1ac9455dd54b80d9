// The card of a county below the map, with the question why it isn't grouped with others.

import { countyHtml, offeredHtml } from "./county_parts.mjs";
import { find, findAll, findInput, verdictHtml } from "./dom.mjs";
import { codesOf } from "./geography.mjs";
import { NOTHING, append, fill, html } from "./html.mjs";
import { togetherWords, whyNotGroup } from "./other_group.mjs";
import { answerFor, hashOf } from "./page.mjs";
import { wasStopped, whyNoProgram } from "./program.mjs";
import { pickOnMap, pin } from "./map_host.mjs";
import { current, shownOption } from "./view_state.mjs";

/** @typedef {import("./page.mjs").Page} Page */
/** @typedef {import("./view_state.mjs").ViewState} ViewState */

// Another object each time that a question is asked. What began before writes nothing more.
let asked = {};

/**
 * Draws the card of the county that the state names, or hides it. `query` may ask for a group:
 * "house/37013-37049" are the other counties, by their codes.
 * @param {Page} page
 * @param {ViewState} state
 * @param {string} query
 */
export function paintCounty(page, state, query) {
  const place = find("#county-card");
  const { county } = state;
  asked = {};
  pickOnMap(find("#map"), null);
  place.hidden = county === null;
  find("#answer").classList.toggle("of-county", county !== null);
  if (county === null) {
    fill(place, NOTHING);
    return;
  }
  const [, codes = ""] = query.split("/");
  const others = codes.split("-").map((code) => page.geography.placeOf.get(code));
  const chosen = others.filter((one) => one !== undefined && one !== county);
  fill(place, countyHtml(page, county, /** @type {number[]} */ (chosen), state.chamber));
  findInput("#finder").value = String(county);
  const { groups } = current(page, state);
  const at = groups.findIndex((group) => group.counties.includes(county));
  // (on a phone the facts of a pinned group would cover the card)
  if (innerWidth >= 700) pin(find("#map"), at < 0 ? null : at, true);
  place.scrollIntoView({ block: "nearest" });
  if (chosen.length) askWhy(page, state);
}

/**
 * Opens the card of a county, as its link does.
 * @param {Page} page
 * @param {number} county
 */
export function openCounty(page, county) {
  location.hash = hashOf(page, `county/${page.geography.counties[county].geoid}`);
}

/**
 * Offers the counties of the chamber that is asked of, with those ticked that are.
 * @param {Page} page
 * @param {ViewState} state
 */
function offerCounties(page, state) {
  const [county, ...chosen] = askedCounties(state);
  const { boxes, list } = offeredHtml(page, county, chosen, findInput("#why-chamber").value);
  fill(find("#why-form .boxes"), boxes);
  fill(find("#why-more"), list);
}

/**
 * Returns the counties of the group that is asked for: that of the card, and those of the boxes.
 * @param {ViewState} state
 */
function askedCounties(state) {
  const boxes = findAll("[name=why-with]:checked").map((box) => (
    Number(/** @type {HTMLInputElement} */ (box).value)));
  return [/** @type {number} */ (state.county), ...boxes];
}

/**
 * Asks why no best grouping has the chosen group, and shows the answer. The address then names the
 * question.
 * @param {Page} page
 * @param {ViewState} state
 */
async function askWhy(page, state) {
  const place = find("#why-answer");
  const answer = answerFor(page, findInput("#why-chamber").value);
  const counties = askedCounties(state);
  const reason = whyNoProgram();
  if (reason || counties.length < 2) {
    fill(place, html`<p class="note">${reason ?? "Choose one county or more."}</p>`);
    return;
  }
  const mine = {};
  asked = mine;
  fill(place, html`<p class="note">Solving the rest of the state.</p>`);
  const { geography } = page;
  const own = geography.counties[counties[0]].geoid;
  const path = `county/${own}/${answer.key}/${codesOf(geography, counties.slice(1)).join("-")}`;
  history.replaceState(null, "", hashOf(page, path));
  findInput("#why-ask").disabled = true;
  try {
    const { isBest, words } = await whyNotGroup(page, answer, counties);
    const head = isBest ? "They are one of the groups." : "Not in a best grouping.";
    const together = isBest ? "" : togetherWords(geography, answer, counties);
    if (asked === mine) fill(place, verdictHtml(isBest, head, html`${words} ${together}`));
  } catch (fault) {
    const words = fault instanceof Error ? fault.message : String(fault);
    if (asked === mine && !wasStopped(fault)) {
      fill(place, verdictHtml(false, "It could not run.", words));
    }
  }
  if (asked === mine) findInput("#why-ask").disabled = false;
}

/**
 * Ticks or unticks a county of the question; one that isn't a neighbor gets a box.
 * @param {Page} page
 * @param {ViewState} state
 * @param {number} county
 */
function tick({ geography }, state, county) {
  if (county === state.county) return;
  const box = document.querySelector(`[name=why-with][value="${county}"]`);
  if (box instanceof HTMLInputElement) box.checked = !box.checked;
  else {
    append(find("#why-form .boxes"), html`
      <label><input type="checkbox" name="why-with" value="${county}" checked>
      ${geography.counties[county].name}</label>`);
  }
  markPicked(state);
}

/**
 * Marks the counties of the question on the map.
 * @param {ViewState} state
 */
function markPicked(state) {
  const picked = new Set(askedCounties(state));
  for (const shape of findAll("#map [data-county]")) {
    shape.classList.toggle("picked", picked.has(Number(shape.dataset.county)));
  }
}

/**
 * Turns the choice on the map on or off.
 * @param {Page} page
 * @param {ViewState} state
 */
function turnPicking(page, state) {
  const button = find("#why-pick");
  const isOn = button.getAttribute("aria-pressed") !== "true";
  button.setAttribute("aria-pressed", String(isOn));
  pickOnMap(find("#map"), isOn ? (county) => tick(page, state, county) : null);
  findAll("#map .picked").forEach((shape) => shape.classList.remove("picked"));
  if (!isOn) return;
  markPicked(state);
  find("#figure").scrollIntoView({ behavior: "smooth" });
}

/**
 * Follows the card.
 * @param {Page} page
 * @param {ViewState} state
 */
export function followCounty(page, state) {
  const card = find("#county-card");
  card.addEventListener("submit", (event) => {
    event.preventDefault();
    askWhy(page, state);
  });
  card.addEventListener("change", (event) => {
    const input = /** @type {HTMLInputElement} */ (event.target);
    if (input.id === "why-more" && input.value) tick(page, state, Number(input.value));
    if (input.id === "why-more") input.value = "";
    if (input.id === "why-chamber") offerCounties(page, state);
    if (find("#why-pick").getAttribute("aria-pressed") === "true") markPicked(state);
  });
  card.addEventListener("click", (event) => {
    const button = /** @type {HTMLElement} */ (event.target).closest("button");
    if (button?.id === "why-pick") turnPicking(page, state);
    if (button?.id === "close-card") {
      const { answer } = current(page, state);
      location.hash = hashOf(page, `${answer.key}/${shownOption(state, answer.key)}`);
    }
    const other = button?.dataset.with;
    if (!button || !other) return;
    for (const box of findAll("[name=why-with]")) {
      /** @type {HTMLInputElement} */ (box).checked = false;
    }
    findInput("#why-chamber").value = button.dataset.chamber ?? "";
    offerCounties(page, state);
    tick(page, state, Number(other));
    askWhy(page, state);
  });
}
