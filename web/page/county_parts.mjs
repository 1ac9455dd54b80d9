// A county's card as HTML: first with whom it stands in each chamber, and why; behind that its
// people, its neighbors, all its groups with their room, and the question why not with others.

import { countyCloseHtml } from "./closeness.mjs";
import {
  groupsWith, isOverWater, optionsHaving, seatsWords, shortAnswers,
} from "./county_answer.mjs";
import { waterPairs } from "./disputed.mjs";
import { byPeople, countyName, pairOf, peopleOf, setKey } from "./geography.mjs";
import { html } from "./html.mjs";
import { answerFor, hashOf } from "./page.mjs";
import { idealWords, neighborsOf, roomOf, suitingSeats } from "./seats.mjs";
import {
  andList, capital, counted, countedInWords, nounFor, numberText, numberWord,
} from "./words.mjs";

/** @typedef {import("./page.mjs").Page} Page */
/** @typedef {import("./answers.mjs").Answer} Answer */
/** @typedef {import("./answers.mjs").KnownGroup} KnownGroup */

/**
 * Returns in which best groupings a group is.
 * @param {Answer} answer
 * @param {number[] | null} options
 */
function whenWords(answer, options) {
  if (!options) return "In some of the best groupings";
  if (answer.number === 1) return "In the one best grouping";
  if (options.length === answer.number) return `In all ${answer.number} best groupings`;
  return `In ${options.length} of ${answer.number}: options ${options.join(", ")}`;
}

/**
 * Returns the name of a neighbor of a county, and whether they meet over water.
 * @param {import("./geography.mjs").Geography} geography
 * @param {number} county
 * @param {number} neighbor
 */
function neighborName(geography, county, neighbor) {
  const isOver = waterPairs(geography).has(pairOf(county, neighbor).join(" "));
  return `${countyName(geography, neighbor)}${isOver ? " (over water)" : ""}`;
}

/**
 * Returns the item of a group that has the county.
 * @param {Page} page
 * @param {Answer} answer
 * @param {KnownGroup} group
 * @param {number} county
 */
function groupItem(page, answer, group, county) {
  const { geography, census } = page;
  const others = byPeople(geography, group.counties.filter((one) => one !== county));
  const names = andList(others.map((one) => countyName(geography, one)));
  const { more, fewer } = roomOf(geography, answer, group);
  const room = more < fewer ? `${numberText(more)} below the most` : `${numberText(fewer)} above `
    + "the least";
  const options = optionsHaving(answer, group);
  const isEnacted = answer.enacted > 0 && options?.includes(answer.enacted);
  const map = hashOf(page, `${answer.key}/${options?.[0] ?? 1}`);
  const water = isOverWater(geography, group, county)
    ? html`<b>It meets this group only over water.</b> ` : "";
  const tag = isEnacted ? html` <span class="tag">${census.enactedYear} plan</span>` : "";
  return html`
    <li>${others.length ? html`With <b>${names}</b>` : html`<b>Alone</b>`}:
    ${seatsWords(group)}, ${numberText(peopleOf(geography, group.counties))} people,
    ${room} for ${counted(group.least, "seat")}. ${water}<span class="note">${
      whenWords(answer, options)}.</span>${tag}
    <a class="after" href="${map}">Map</a></li>`;
}

/**
 * Returns why a county stands alone or not.
 * @param {Page} page
 * @param {Answer} answer
 * @param {number} county
 */
function aloneWords({ geography }, answer, county) {
  const { people } = geography.counties[county];
  const [seats] = suitingSeats(geography, answer, people);
  const ideal = idealWords(geography, answer, people);
  if (seats) return `Alone its people suit ${counted(seats, "seat")} (${ideal} ideal districts).`;
  return `Alone its people are ${ideal} ideal districts: no whole number of seats is near enough, `
    + "so it needs neighbors.";
}

/**
 * Returns which neighbors make a lawful pair with a county, each with the question why it isn't
 * one of the groups.
 * @param {Page} page
 * @param {Answer} answer
 * @param {number} county
 */
function pairsHtml({ geography }, answer, county) {
  const near = neighborsOf(geography, county);
  const lawful = near.filter((one) => (
    suitingSeats(geography, answer, peopleOf(geography, [county, one])).length));
  if (!lawful.length) {
    return html`
      None of its ${numberWord(near.length)} ${nounFor(near.length, "neighbor")} makes a lawful pair
      with it.`;
  }
  const used = new Set(answer.groups.map((group) => setKey(group.counties)));
  const items = lawful.map((one, at) => {
    const name = countyName(geography, one);
    const ask = used.has(setKey([county, one])) ? " (as above)" : html`
      <button type="button" class="link needs-program" data-chamber="${answer.key}"
      data-with="${one}" aria-label="Why isn’t it grouped with ${name} alone?">why not?</button>`;
    return html`${at ? ", " : ""}${neighborName(geography, county, one)} ${ask}`;
  });
  const some = lawful.length === 1 ? "one makes a lawful pair"
    : `${numberWord(lawful.length)} make a lawful pair`;
  return html`Of its ${numberWord(near.length)} neighbors ${some} with it: ${items}.`;
}

/**
 * Returns what the card says of one chamber.
 * @param {Page} page
 * @param {Answer} answer
 * @param {number} county
 */
function chamberHtml(page, answer, county) {
  const known = groupsWith(answer, county);
  const taken = answer.taken.find((set) => set.counties.includes(county));
  const items = taken ? html`<li>It was taken out beforehand, in a set of
    ${counted(taken.seats, "seat")}.</li>` : known.map((group) => (
    groupItem(page, answer, group, county)));
  const why = taken ? "" : html`
    <p class="note">${aloneWords(page, answer, county)} ${pairsHtml(page, answer, county)}</p>`;
  return html`<div><h3>${capital(answer.name)}</h3><ul>${items}</ul>${why}</div>`;
}

/**
 * Returns the counties that may be asked for: a box for each neighbor, and one for each county that
 * is chosen; and a list of the others. Counties that a best grouping has in one group with the
 * county are left out, because they are grouped with it.
 * @param {Page} page
 * @param {number} county
 * @param {number[]} chosen  the other counties that are asked for
 * @param {string} chamber  the key of the chamber that is asked of
 */
export function offeredHtml(page, county, chosen, chamber) {
  const { geography } = page;
  const own = new Set(groupsWith(answerFor(page, chamber), county).flatMap((one) => one.counties));
  const near = neighborsOf(geography, county).filter((one) => !own.has(one));
  const shown = byPeople(geography, near).concat(chosen.filter((one) => !near.includes(one)));
  const boxes = shown.map((one) => html`
    <label><input type="checkbox" name="why-with" value="${one}"
    ${chosen.includes(one) ? "checked" : ""}>${countyName(geography, one)}</label>`);
  const all = geography.counties.map((other, place) => (
    place === county || own.has(place) || shown.includes(place) ? "" : html`
      <option value="${place}">${other.name}</option>`));
  return { boxes: html`${boxes}`, list: html`<option value="">None</option>${all}` };
}

/**
 * Returns the question why a county isn't grouped with others.
 * @param {Page} page
 * @param {number} county
 * @param {number[]} chosen  the other counties that are asked for
 * @param {string} chamber  the key of the chamber that is asked of
 */
function questionHtml(page, county, chosen, chamber) {
  const { geography, answers } = page;
  const { boxes, list } = offeredHtml(page, county, chosen, chamber);
  const chambers = answers.map((answer) => html`
    <option value="${answer.key}"${answer.key === chamber ? " selected" : ""}>${answer.name}
    </option>`);
  return html`
    <form id="why-form" class="needs-program noprint"><fieldset><legend>Why isn’t
    ${countyName(geography, county)} grouped with ..</legend><div class="boxes">${boxes}</div>
    <div class="row"><label>Another county<select id="why-more">${list}
    </select></label><label>Chamber<select id="why-chamber">${chambers}</select></label>
    <button type="submit" class="btn main" id="why-ask">Ask the program</button>
    <button type="button" class="btn" id="why-pick" aria-pressed="false">Choose on the map</button>
    </div></fieldset></form><div id="why-answer" role="status"></div>`;
}

/**
 * Returns what is said of a county at length: its people, its neighbors, and all its groups.
 * @param {Page} page
 * @param {number} county
 */
function moreHtml(page, county) {
  const { geography, census } = page;
  const { name, people } = geography.counties[county];
  const places = geography.counties.map((_, place) => place);
  const rank = byPeople(geography, places).indexOf(county) + 1;
  const near = neighborsOf(geography, county).map((one) => neighborName(geography, county, one));
  const when = census.year ? ` in ${census.year}` : "";
  const rest = near.length ? `It borders ${andList(near)}.` : "It borders no other county.";
  const both = page.answers.length > 1 ? "two-cards" : "";
  return html`
    <details id="county-more"><summary>All groups of ${name}, their room in people, and its
    neighbors</summary><p class="lead"><b>${numberText(people)}</b> people${when},
    number ${rank} of ${countedInWords(places.length, "county", "counties")}. ${rest}</p>
    <div class="${both}">${page.answers.map((answer) => chamberHtml(page, answer, county))}</div>
    </details>`;
}

/**
 * Returns a county's card.
 * @param {Page} page
 * @param {number} county
 * @param {number[]} chosen  other counties of a group that is asked for
 * @param {string} chamber  the key of the chamber that is shown
 */
export function countyHtml(page, county, chosen, chamber) {
  return html`
    <div class="head"><h2>${countyName(page.geography, county)} County</h2>
    <button type="button" class="btn quiet" id="close-card">Close</button></div>
    ${[shortAnswers(page, county), countyCloseHtml(page, county), moreHtml(page, county),
    questionHtml(page, county, chosen, chamber)]}`;
}
