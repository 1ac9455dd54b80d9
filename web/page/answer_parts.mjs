// The parts of the answer as HTML. The build stores them in the page; the page's script draws the
// same ones again when a choice is made.

import { choicesOf, groupsOf, movedCounties, optionsWith, seatsOfArea } from "./answers.mjs";
import { NOTHING, html } from "./html.mjs";
import { chamberWords, closeHash, hashOf, textsFor } from "./page.mjs";
import { deviationOf, peopleOf, peopleWindow } from "./geography.mjs";
import {
  choiceWords, differenceItems, groupName, namesOf, optionWords, toleranceWords, windowWords,
} from "./group_words.mjs";
import { mapSvg } from "./map_svg.mjs";
import { boxOfCounties } from "./sheet.mjs";
import {
  andList, capital, counted, countedInWords, deviationWords, nounFor,
  numberText, numberWord, signedPercent,
} from "./words.mjs";

/** @typedef {import("./page.mjs").Page} Page */
/** @typedef {import("./answers.mjs").Answer} Answer */
/** @typedef {import("./answers.mjs").Area} Area */
/** @typedef {import("./geography.mjs").Geography} Geography */
/** @typedef {import("./geography.mjs").Group} Group */
/** @typedef {import("./map_svg.mjs").Drawing} Drawing */
/** @typedef {import("./html.mjs").Html} Html */

const CARD_ASPECT = 1.22;

/**
 * Returns the headline of an answer.
 * @param {Page} page
 * @param {Answer} answer
 */
export function headline(page, answer) {
  const place = `${page.geography.name}’s ${answer.name}`;
  if (answer.number === 1) return `${place}: the one best way to group the counties`;
  return `${place}: ${numberText(answer.number)}\u00a0best ways to group the counties`;
}

/**
 * Returns the paragraph that says what is asked and what the answer is.
 * @param {Page} page
 * @param {Answer} answer
 */
export function deckHtml(page, answer) {
  const isCarolina = page.data.state.code === "37";
  const why = isCarolina
    ? html`
      Before North Carolina draws districts, <i>Stephenson v. Bartlett</i> requires it to join
      whole counties into groups. `
    : html`
      By the rule of <i>Stephenson v. Bartlett</i>, whole counties are joined into groups before
      districts are drawn. `;
  const rule = "Each group needs enough people for a whole number of districts, within "
    + `${toleranceWords(answer.tolerance)} of the ideal. As many groups as possible have one `
    + "county, then as many as possible two, and so on. A grouping may be used only if it is best "
    + "by this. ";
  const { year } = page.census;
  const source = year ? `By the ${year} census` : "By the files of this page";
  const taken = answer.taken.length
    ? ` ${capital(countedInWords(answer.taken.length, "set"))} of counties `
      + `${answer.taken.length === 1 ? "was" : "were"} taken out beforehand.` : "";
  const enacted = enactedWords(page, answer);
  const law = otherLawHtml(answer);
  if (answer.number === 1) {
    return html`
      ${why}${rule}${source}, one grouping does this best.${enacted}${taken} ${law}
      ${closeLink(page, answer)}`;
  }
  const shared = answer.shared.map((id) => answer.groups[id]);
  const seats = shared.reduce((sum, group) => sum + group.least, 0);
  const groups = groupsOf(answer, answer.first).length;
  const areas = answer.areas.length;
  return html`
    ${why}${rule}${source}, ${numberText(answer.number)} groupings do this equally well. They share
    ${shared.length} of their ${groups} groups, with ${seats} of the ${answer.seatsLeft} seats; in
    ${numberWord(areas)} ${nounFor(areas, "area")} there is a choice.${enacted}${taken}
    ${law} ${closeLink(page, answer)}`;
}

/**
 * Returns the link to how close an answer is.
 * @param {Page} page
 * @param {Answer} answer
 */
function closeLink(page, answer) {
  return html`<a class="noprint" href="${closeHash(page, answer)}">How close is it?</a>`;
}

/**
 * Returns which groupings the rule allows, and that other law may allow fewer.
 * @param {Answer} answer
 */
function otherLawHtml(answer) {
  const words = answer.number === 1
    ? "Under this rule it alone may be used; other law, such as the Voting Rights Act, may require "
      + "another."
    : "Under this rule any of them may be used; other law, such as the Voting Rights Act, may "
      + "narrow the choice.";
  return html`<span class="law">${words}</span>`;
}

/**
 * Returns which option was enacted, as a further sentence, or nothing.
 * @param {Page} page
 * @param {Answer} answer
 */
function enactedWords(page, answer) {
  if (!answer.enacted) return "";
  const option = answer.number === 1 ? "it" : `option ${answer.enacted}`;
  const { act } = textsFor(page, answer.key);
  const law = act ? `, ${act},` : "";
  return ` The plan that was enacted into law in ${page.census.enactedYear}${law} uses ${option}.`;
}

/**
 * Returns which option is shown, and how it differs from the enacted one.
 * @param {Page} page
 * @param {Answer} answer
 * @param {number} option
 */
export function optionNoteHtml(page, answer, option) {
  if (!answer.enacted) return NOTHING;
  const year = page.census.enactedYear;
  if (option === answer.enacted) {
    const { act } = textsFor(page, answer.key);
    const law = act ? html` <span class="note">${act}</span>` : "";
    return html`<span class="tag">Used for the plan enacted in ${year}</span>${law}`;
  }
  const [mine, theirs] = [choicesOf(answer, option), choicesOf(answer, answer.enacted)];
  const names = answer.areas.filter((_, area) => mine[area] !== theirs[area]);
  return html`
    Differs from the ${year} plan in the ${andList(names.map((one) => one.name))}. <button
    type="button" class="btn quiet" id="back">Back to the ${year} groups</button>`;
}

/**
 * Returns the areas of an answer as a map shows them.
 * @param {Answer} answer
 * @param {number[]} choices
 */
export function shownAreas(answer, choices) {
  return answer.areas.map((area, at) => (
    {
      number: area.number, name: area.name, counties: area.counties, choice: choices[at],
      choices: area.choices.length,
    }));
}

/**
 * Returns the counties that lead a small group in some option: they leave room for its seats.
 * @param {Answer} answer
 */
export function leadersOf(answer) {
  const small = answer.groups.filter((group) => group.counties.length <= 3);
  return new Set(small.map((group) => group.counties[0]));
}

/**
 * Returns what the map of an option shows.
 * @param {Answer} answer
 * @param {number[]} choices
 * @returns {Omit<Drawing, "width" | "labels">}
 */
export function optionDrawing(answer, choices) {
  return {
    groups: groupsOf(answer, choices),
    areas: shownAreas(answer, choices),
    leaders: leadersOf(answer),
    taken: new Set(answer.taken.flatMap((set) => set.counties)),
  };
}

/**
 * Returns an item of the key of a map.
 * @param {Html} picture  what is drawn in 30 by 18 pixels
 * @param {string} words
 */
export function keyItem(picture, words) {
  return html`<li><svg width="30" height="18" aria-hidden="true">${picture}</svg>${words}</li>`;
}

/**
 * Returns the picture of what a map hatches, or dots, for its key.
 * @param {"hatch" | "dots"} kind
 * @param {string} id  the id of its pattern, which no other element has
 * @param {string} fill  the class of what is below the pattern
 */
export function patternPicture(kind, id, fill) {
  const pattern = kind === "hatch" ? html`
    <pattern id="${id}" width="7" height="7" patternUnits="userSpaceOnUse"
    patternTransform="rotate(45)"><rect width="2.6" height="7" class="key-stripe"/></pattern>`
    : html`
    <pattern id="${id}" width="6" height="6" patternUnits="userSpaceOnUse"><circle cx="2" cy="2"
    r="1.2" class="key-dot"/></pattern>`;
  const line = kind === "hatch" ? "key-choice" : "key-box";
  return html`
    <defs>${pattern}</defs><rect x="1" y="1" width="28" height="16" class="${fill}"/><rect x="1"
    y="1" width="28" height="16" fill="url(#${id})" class="${line}"/>`;
}

/**
 * Returns the key of the map.
 * @param {Answer} answer
 * @param {Group[]} groups
 */
export function keyHtml(answer, groups) {
  const same = answer.number === 1 ? "A group of counties"
    : `The same in all ${numberText(answer.number)} best groupings`;
  const seats = groups.reduce((most, group) => Math.max(most, group.seats), 0);
  const plain = html`<rect x=".5" y=".5" width="29" height="17" class="tint0 key-box"/>`;
  const choice = patternPicture("hatch", "key-hatch", "tint0");
  const pill = html`
    <g class="badge"><rect x="6.5" y="1" width="17" height="16" rx="8"/><text x="15" y="13.5"
    font-size="12">${seats}</text></g>`;
  const tie = html`<path class="tie-key" d="M3 9H27"/>`;
  const items = [
    keyItem(plain, same),
    answer.areas.length ? keyItem(choice, "An area where there is a choice") : "",
    keyItem(pill, "Seats of the group"),
    keyItem(tie, "Its counties meet over water there"),
  ];
  return html`
    <p class="who noprint">Point at a group, or tap it, for its counties and people.</p>
    <ul class="key">${items}</ul>`;
}

/**
 * Returns a bar of the people per seat that are allowed, with a group and all others on it.
 * @param {Geography} geography
 * @param {Group} group
 * @param {Group[]} groups
 * @param {{seats: number, tolerance: [number, number]}} chamber
 */
function gaugeSvg(geography, group, groups, chamber) {
  const [least, most] = peopleWindow(geography.total, chamber.seats, 1, chamber.tolerance);
  const share = chamber.tolerance[0] / chamber.tolerance[1] || 0.0001;
  const xOf = (/** @type {Group} */ one) => (
    (20 + ((deviationOf(geography, one, chamber.seats) + share) / (2 * share)) * 210).toFixed(1));
  const ticks = groups.map((one) => (
    html`<line class="other" x1="${xOf(one)}" x2="${xOf(one)}" y1="8" y2="18"/>`));
  const label = `Between ${numberText(least)} and ${numberText(most)} people per seat are allowed`;
  return html`
    <svg class="gauge" viewBox="0 0 250 44" role="img" aria-label="${label}"><rect class="window"
    x="20" y="6" width="210" height="14" rx="2"/>${ticks}<line class="axis" x1="125" x2="125"
    y1="3" y2="23" stroke-width="1.5"/><circle class="own" cx="${xOf(group)}" cy="13" r="6"/>
    <text x="0" y="36">${numberText(least)}</text><text x="125" y="36" text-anchor="middle">ideal
    ${numberText(geography.total / chamber.seats)}</text><text x="250" y="36" text-anchor="end">
    ${numberText(most)}</text></svg>`;
}

/**
 * Returns the facts of a group, with links to the cards of its counties.
 * @param {Page} page
 * @param {Answer} answer
 * @param {Group[]} groups
 * @param {Group} group
 */
export function factsHtml(page, answer, groups, group) {
  const { geography } = page;
  const people = peopleOf(geography, group.counties);
  const others = namesOf(geography, group.counties).slice(1).sort();
  const who = others.length > 2 ? html`<p class="who">with ${andList(others)}</p>` : "";
  const fact = (/** @type {string | number} */ number, /** @type {string} */ words) => (
    html`<div><b>${number}</b><span>${words}</span></div>`);
  const count = optionsWith(answer, group);
  const where = group.area < 0 ? "" : `: ${choiceWords(answer.areas[group.area], group.choice)}`;
  const options = answer.number === 1 ? "In the one best grouping"
    : group.area < 0 ? `In all ${numberText(answer.number)} best groupings`
      : `In ${count ?? "some"} of the ${numberText(answer.number)} best groupings`;
  const off = capital(deviationWords(deviationOf(geography, group, answer.seats)));
  const facts = [
    fact(group.seats, nounFor(group.seats, "seat")), fact(numberText(people), "people"),
    fact(numberText(people / group.seats), "people per seat"),
  ];
  return html`
    <div class="group-head"><h3>${groupName(geography, group)}</h3>${who}</div>
    <div class="big">${facts}</div>${gaugeSvg(geography, group, groups, answer)}
    <p class="rest">${off}.
    ${windowWords(geography, group, answer)} ${options}${where}.</p>
    <p class="rest noprint">Why so? ${cardLinks(page, group.counties)}</p>`;
}

/**
 * Returns links to the cards of counties.
 * @param {Page} page
 * @param {number[]} counties
 */
function cardLinks(page, counties) {
  return counties.map((one, at) => {
    const { geoid, name } = page.geography.counties[one];
    return html`${at ? ", " : ""}<a href="${hashOf(page, `county/${geoid}`)}">${name}</a>`;
  });
}

/**
 * Returns the sentence above the cards of the areas.
 * @param {Answer} answer
 */
export function cardsIntro(answer) {
  const isTwo = answer.areas.every((area) => area.choices.length === 2);
  const ways = isTwo ? "Two ways" : "The ways";
  const make = answer.areas.length === 1 ? "here" : "in each area";
  const every = answer.isEvery
    ? `${ways} ${make} make ${numberText(answer.number)} groupings`
    : `Not every combination is a best grouping: ${numberText(answer.number)} are`;
  return `${every}, all equally good by the rule. Darker counties change sides; dots show people `
    + "per seat against the ideal.";
}

/**
 * Returns the groups of one choice in an area.
 * @param {Answer} answer
 * @param {number} area
 * @param {number} choice
 * @returns {Group[]}
 */
function groupsOfChoice(answer, area, choice) {
  return answer.areas[area].choices[choice].map((id) => {
    const { counties, least, tint } = answer.groups[id];
    return { id, seats: least, counties, area, choice, tint };
  });
}

/**
 * Returns a card for each area: its choices as small maps, and their difference in words.
 * @param {Page} page
 * @param {Answer} answer
 * @param {number[]} choices
 */
export function cardsHtml(page, answer, choices) {
  const { geography } = page;
  return answer.areas.map((area, at) => {
    const ways = area.choices.map((_, choice) => groupsOfChoice(answer, at, choice));
    const moved = new Set(ways.slice(1).flatMap((way) => (
      [...movedCounties(geography, ways[0], way)])));
    const pictures = ways.map((way, choice) => (
      choiceHtml(page, answer, at, choice, way, moved, choices[at] === choice)));
    const items = ways.slice(1).map((way, more) => (
      differenceItems(geography, ways[0], way, ["1", String(more + 2)])));
    const size = `${counted(area.counties.length, "county", "counties")}, `
      + `${counted(seatsOfArea(answer, area), "seat")}`;
    return html`
      <fieldset class="card"><legend>${area.number}. ${area.name} <span>${size}</span></legend>
      <div class="pair">
      ${pictures}</div><ul class="difference">${items}</ul></fieldset>`;
  });
}

/**
 * Returns one choice of an area: a small map, and dots for its groups against the window.
 * @param {Page} page
 * @param {Answer} answer
 * @param {number} area
 * @param {number} choice
 * @param {Group[]} groups
 * @param {Set<number>} moved
 * @param {boolean} isChosen
 */
function choiceHtml(page, answer, area, choice, groups, moved, isChosen) {
  const { geography } = page;
  const { counties } = answer.areas[area];
  const isEnacted = answer.enacted > 0 && choicesOf(answer, answer.enacted)[area] === choice;
  const plan = `${page.census.enactedYear} plan`;
  const label = `${choiceWords(answer.areas[area], choice)}${isEnacted ? `, ${plan}` : ""}`;
  const map = geography.sheet ? mapSvg(geography, {
    groups, moved, only: counties, box: cardBox(geography, counties), width: 150, labels: "badge",
    isMini: true,
  }) : html`
    <span class="who">${groups.map((group) => (
    namesOf(geography, group.counties).join(", "))).join("; ")}</span>`;
  return html`
    <label class="choice"><input type="radio" name="area${area}"
    value="${choice}"${isChosen ? " checked" : ""} aria-label="${label}"><span class="caption">
    <i></i>${choice + 1}${isEnacted ? html`<span class="tag">${plan}</span>` : ""}
    </span>${map}${rangeSvg(geography, answer, groups)}</label>`;
}

/**
 * Returns the box of a small map: its area, widened to the shape of a card.
 * @param {Geography} geography
 * @param {number[]} counties
 * @returns {import("./sheet.mjs").Box}
 */
function cardBox(geography, counties) {
  const sheet = /** @type {import("./sheet.mjs").Sheet} */ (geography.sheet);
  const [left, top, wide, high] = boxOfCounties(sheet, counties, 12);
  if (wide / high < CARD_ASPECT) {
    const wider = high * CARD_ASPECT;
    return [left - (wider - wide) / 2, top, wider, high];
  }
  const higher = wide / CARD_ASPECT;
  return [left, top - (higher - high) / 2, wide, higher];
}

/**
 * Returns a line with a dot for the people per seat of each group.
 * @param {Geography} geography
 * @param {Answer} answer
 * @param {Group[]} groups
 */
function rangeSvg(geography, answer, groups) {
  const offs = groups.map((group) => deviationOf(geography, group, answer.seats));
  const share = answer.tolerance[0] / answer.tolerance[1] || 0.0001;
  const percent = Number((share * 100).toFixed(2));
  const label = `People per seat: ${offs.map(signedPercent).join(", ")} percent from the ideal`;
  const dots = offs.map((off) => (
    html`<circle cx="${(75 + (off / share) * 59).toFixed(1)}" cy="8" r="4"/>`));
  return html`
    <svg class="range" viewBox="0 0 150 26" role="img" aria-label="${label}"><line class="axis"
    x1="16" x2="134" y1="8" y2="8"/><line class="middle" x1="75" x2="75" y1="3" y2="13"/>${dots}
    <text x="16" y="24">−${percent}%</text><text x="75" y="24">ideal</text><text x="134" y="24">
    +${percent}%</text></svg>`;
}

/** @typedef {"seats" | "name" | "people" | "deviation" | "options" | "west"} SortKey */

/** @type {[SortKey, string, string][]} */
const COLUMNS = [
  ["seats", "Seats", "number"], ["name", "Counties", ""], ["people", "People", "number"],
  ["deviation", "Per seat, from the ideal (percent)", "number"],
];

/**
 * Returns the table of groups.
 * @param {Geography} geography
 * @param {Answer} answer
 * @param {Group[]} groups
 * @param {SortKey | null} sortKey  null for a table that can't be sorted, from west to east
 * @param {boolean} isUp
 */
export function groupTableHtml(geography, answer, groups, sortKey, isUp) {
  const share = answer.tolerance[0] / answer.tolerance[1] || 0.0001;
  const percent = Number((share * 100).toFixed(2));
  const order = groups.map((_, at) => at);
  const west = (/** @type {Group} */ group) => (
    geography.sheet?.raster.centers[group.counties[0]][0] ?? group.counties[0]);
  /** @type {Record<SortKey, (group: Group) => number | string>} */
  const values = {
    seats: (group) => group.seats,
    name: (group) => groupName(geography, group),
    people: (group) => peopleOf(geography, group.counties),
    deviation: (group) => deviationOf(geography, group, answer.seats),
    options: (group) => group.area,
    west,
  };
  order.sort((one, other) => {
    const value = values[sortKey ?? "west"];
    const [first, second] = [value(groups[one]), value(groups[other])];
    const byPlace = west(groups[one]) - west(groups[other]);
    const bySign = first < second ? -1 : first > second ? 1 : byPlace;
    return isUp ? bySign : -bySign;
  });
  const turn = html` aria-sort="${isUp ? "ascending" : "descending"}"`;
  const head = (/** @type {SortKey} */ key, /** @type {string} */ words,
    /** @type {string} */ kind) => (
    html`
      <th scope="col" class="${kind}"${key === sortKey ? turn : ""}>
      ${sortKey ? html`<button type="button" data-sort="${key}">${words}</button>` : words}</th>`);
  const scale = html`
    <th scope="col" class="strip-cell"><span class="unseen">From −${percent} to +${percent}
    percent</span><span aria-hidden="true"><i>−${percent}</i><i>0</i><i>+${percent}</i></span>
    </th>`;
  const rows = order.map((at) => groupRow(geography, answer, groups[at], at, share));
  const heads = html`
    <thead><tr>${COLUMNS.map((one) => head(...one))}${scale}${head("options", "In options", "")}
    </tr></thead>`;
  return html`<table class="groups">${[heads, html`<tbody>${rows}</tbody>`]}</table>`;
}

/**
 * Returns a line with the place of a deviation on it.
 * @param {number} deviation
 * @param {number} share  the tolerance
 * @param {boolean} isMarked
 */
export function stripSvg(deviation, share, isMarked) {
  const x = Math.max(3, Math.min(127, 65 + (deviation / share) * 60)).toFixed(1);
  return html`
    <svg class="strip" viewBox="0 0 130 16" aria-hidden="true"><line class="axis" x1="5" x2="125"
    y1="8" y2="8"/><line class="middle" x1="65" x2="65" y1="2" y2="14"/>
    <circle${isMarked ? html` class="marked"` : ""} cx="${x}" cy="8" r="4.2"/></svg>`;
}

/**
 * Returns the row of a group.
 * @param {Geography} geography
 * @param {Answer} answer
 * @param {Group} group
 * @param {number} at
 * @param {number} share
 */
function groupRow(geography, answer, group, at, share) {
  const deviation = deviationOf(geography, group, answer.seats);
  return html`
    <tr class="pick" data-group="${at}"><td class="number"><b>${group.seats}</b></td><td>
    ${namesOf(geography, group.counties).join(", ")}</td><td class="number people">
    ${numberText(peopleOf(geography, group.counties))}</td><td class="number deviation">
    ${signedPercent(deviation)}</td><td class="strip-cell">
    ${stripSvg(deviation, share, group.area >= 0)}</td><td class="options">
    ${optionWords(answer, group)}</td></tr>`;
}

/**
 * Returns how many groups have each size, as rows of boxes.
 * @param {number[]} counts
 */
export function ladderSvg(counts) {
  const rows = counts.map((count, at) => ({ size: at + 1, count })).filter((row) => row.count);
  const label = rows.map(({ size, count }) => (
    `${counted(count, "group")} of ${counted(size, "county", "counties")}`)).join(", ");
  const step = Math.min(12.5, 230 / Math.max(1, ...rows.map((row) => row.count)));
  const lines = rows.map(({ size, count }, at) => {
    const boxes = Array.from({ length: count }, (_, box) => (
      html`
        <rect x="${(94 + box * step).toFixed(1)}" y="${at * 21 + 4}"
        width="${(step * 0.84).toFixed(1)}" height="14" rx="1.5"/>`));
    return html`
      <text x="86" y="${at * 21 + 15}" text-anchor="end">${counted(size, "county", "counties")}
      </text>${boxes}<text class="count" x="${(94 + count * step + 5).toFixed(1)}"
      y="${at * 21 + 15}">${count}</text>`;
  });
  return html`
    <svg class="ladder" viewBox="0 0 340 ${rows.length * 21 + 4}" role="img"
    aria-label="${label}">${lines}</svg>`;
}

/**
 * Returns who published the same numbers, for the censuses of which it is known.
 * @param {Page} page
 * @param {Answer} answer
 */
export function publishedWords({ data, census }, answer) {
  if (data.state.code !== "37") return "";
  if (census.year === 2020) {
    return "The numbers of best groupings, of the groups that all of them share and of the seats "
      + "of these are, in both chambers, those that Cooper, Esselstyn, Herschlag, Mattingly and "
      + "Tippett published in 2021 (Duke University, Quantifying Gerrymandering).";
  }
  if (census.year !== 2010 || !answer.enacted) return "";
  return "Carter, Hunter, Teague, Herschlag and Mattingly (Statistics and Public Policy 7, 2020) "
    + "found that the groups enacted in 2017 are optimal, and that others are, too. The program "
    + "proves it of these counts and borders.";
}

/**
 * Returns why no grouping is better, in words.
 * @param {Answer} answer
 */
export function whyWords(answer) {
  const [one = 0, two = 0] = answer.counts;
  return "A grouping is lawful if it meets the conditions; it may be used only if it is best. "
    + `No lawful grouping has more than ${countedInWords(one, "group")} of one county. None `
    + `that has ${numberWord(one)} has more than ${numberWord(two)} of two counties. And so on `
    + `down the `
    + "list:";
}

/**
 * Returns the facts of the sets that were taken out beforehand, or nothing.
 * @param {Geography} geography
 * @param {Answer} answer
 */
export function takenHtml(geography, answer) {
  if (!answer.taken.length) return NOTHING;
  const items = answer.taken.map((set) => (
    html`
      <li>${andList(namesOf(geography, set.counties))}: ${counted(set.seats, "seat")},
      ${numberText(peopleOf(geography, set.counties))} people.</li>`));
  return html`<h2>Taken out beforehand</h2><ul>${items}</ul>`;
}

/**
 * Returns the title of the browser's window for an option.
 * @param {Page} page
 * @param {Answer} answer
 * @param {number} option
 */
export function windowTitle(page, answer, option) {
  const of = answer.options ? `option ${option} of ${answer.number}` : `${answer.number}`;
  return `${page.geography.name} ${answer.name}: ${of} best county groupings`;
}

/**
 * Returns all parts of the answer, as the page has them without scripts.
 * @param {Page} page
 * @param {Answer} answer
 * @param {number} option
 */
export function answerParts(page, answer, option) {
  const { geography } = page;
  const choices = choicesOf(answer, option);
  const groups = groupsOf(answer, choices);
  const drawing = { ...optionDrawing(answer, choices), width: 1320, labels: /** @type {const} */ (
    "county") };
  return {
    title: headline(page, answer), deck: deckHtml(page, answer),
    option: `Option ${option} of ${answer.number}`, note: optionNoteHtml(page, answer, option),
    map: geography.sheet ? mapSvg(geography, drawing) : NOTHING, key: keyHtml(answer, groups),
    intro: cardsIntro(answer), cards: cardsHtml(page, answer, choices),
    tableHead: `All ${groups.length} groups`,
    table: groupTableHtml(geography, answer, groups, "west", true), why: whyWords(answer),
    ladder: ladderSvg(answer.counts), chamber: chamberWords(answer),
  };
}
