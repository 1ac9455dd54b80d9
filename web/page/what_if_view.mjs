// The third view: counties taken out, borders in dispute, another tolerance, other counts of
// people; solved again in the page.

import { leadersOf } from "./answer_parts.mjs";
import { startTrials, storedTrials, trialsWords } from "./border_trials.mjs";
import { NOTHING, fill, html } from "./html.mjs";
import { whatIfCommands } from "./commands.mjs";
import { decidingHtml } from "./deciding_borders.mjs";
import { openHandout } from "./handout.mjs";
import { changedGeography, countsText, readCounts } from "./other_counts.mjs";
import { answerFor, chamberWords, closeHash, firstOption, hashOf, textsFor } from "./page.mjs";
import { tieKinds } from "./disputed.mjs";
import {
  bringIntoView, chamberButtons, find, findAll, findInput, saveFile, verdictHtml,
} from "./dom.mjs";
import { enactedHtml } from "./enacted.mjs";
import { countyName, pairOf, peopleOf, peopleWindow } from "./geography.mjs";
import { showMap } from "./map_host.mjs";
import { carriedProblem, fileOf, sumOf, wasStopped, whyNoProgram } from "./program.mjs";
import {
  NO_TOLERANCE, addressOf, fractionOf, nothingChanged, pairCodes, startWhatIf,
  triedProblem, whatIfOf,
} from "./what_if.mjs";
import { likelySeats } from "./seats.mjs";
import { mapKeyHtml, outcomeParts } from "./what_if_parts.mjs";
import { decodedText } from "./tables.mjs";
import { numberText } from "./words.mjs";
import { current } from "./view_state.mjs";

/** @typedef {import("./page.mjs").Page} Page */
/** @typedef {import("./view_state.mjs").ViewState} ViewState */
/** @typedef {import("./what_if.mjs").WhatIf} WhatIf */
/** @typedef {import("./what_if.mjs").Outcome} Outcome */
/** @typedef {import("./border_trials.mjs").Trials} Trials */
/** @typedef {import("./disputed.mjs").Disputed} Disputed */
/**
 * A run on a what-if: how many seconds it has taken, what it told last, and what stops it.
 * @typedef {{seconds: () => string, told: string, timer: number, stop: () => void}} Solving
 */
/**
 * The view's own state: the what-if of the form, the set that clicks on the map go to (-1 for a new
 * one), the outcome shown with the query and the steps that it is of, and the run at work. `trials`
 * has what is known of disputed borders by their problems, of which `tried` is the one that is
 * shown. `deciding` is the answer of which the deciding borders are shown. `fault` says why the
 * counts in the form can't be read.
 * @typedef {{whatIf: WhatIf, set: number, chamber: string, outcome: Outcome | null, query: string,
 *   steps: number, told: string, solving: Solving | null, trials: Map<string, Trials>,
 *   tried: string, stopTrials: (() => void) | null, fault: string,
 *   deciding: import("./answers.mjs").Answer | null}} Work
 */

/** @type {Work} */
const work = {
  whatIf: {
    sets: [], added: new Set(), cut: new Set(), percent: 5, people: new Map(), steps: 0,
  },
  set: -1, chamber: "", outcome: null, query: "", steps: 0, told: "", solving: null,
  trials: new Map(), tried: "", stopTrials: null, fault: "", deciding: null,
};

const KINDS = /** @type {const} */ ([
  ["water", "They meet over water. Counted."],
  ["touch", "They meet at a point in the outlines. Counted by the file of borders."],
  ["point", "They meet at a point. Not counted."],
]);

/**
 * Returns the counties of all sets that are taken out.
 */
function takenOut() {
  return new Set(work.whatIf.sets.flatMap((set) => set.counties));
}

/**
 * Returns what a fault says, in a sentence.
 * @param {unknown} fault
 */
function faultWords(fault) {
  return `It could not run. ${fault instanceof Error ? fault.message : fault}`;
}

/**
 * Opens the view, and solves at once if the address says what to change. A run on another what-if
 * is stopped.
 * @param {Page} page
 * @param {ViewState} state
 * @param {string} query
 */
export function openWhatIf(page, state, query) {
  document.title = `What if: county groups of ${page.geography.name}`;
  const answer = answerFor(page, state.chamber);
  const isKnown = work.outcome !== null && work.chamber === answer.key
    && (!query || query === work.query);
  if (isKnown && work.outcome) {
    paintForm(page, state);
    showOutcome(page, state, work.outcome);
    nameAddress(page, state);
    return;
  }
  if (query || answer.taken.length || work.chamber !== answer.key) dropSolving();
  if (!work.chamber || answer.taken.length) work.whatIf = nothingChanged(answer);
  const fault = query ? takeQuery(page, state, query) : "";
  work.chamber = answer.key;
  paintForm(page, state);
  paintBase(page, state);
  if (fault) {
    fill(find("#whatif-result"), verdictHtml(false, "This link can’t be read.",
      html`${fault} Nothing was answered.`));
  } else if (query) solveAgain(page, state);
}

/**
 * Takes the what-if of an address into the form. Returns why it can't be read, or nothing.
 * @param {Page} page
 * @param {ViewState} state
 * @param {string} query
 */
function takeQuery(page, state, query) {
  const answer = answerFor(page, state.chamber);
  try {
    work.whatIf = whatIfOf(page.geography, answer, query);
    return "";
  } catch (fault) {
    work.whatIf = nothingChanged(answer);
    return fault instanceof Error ? fault.message : String(fault);
  }
}

/** Forgets the form and the outcome, which are of another census. */
export function forgetWhatIf() {
  dropSolving();
  work.stopTrials?.();
  work.trials.clear();
  Object.assign(work, { chamber: "", outcome: null, query: "", tried: "", set: -1, fault: "" });
}

/**
 * Returns the path of the last what-if of a chamber, or of a new one.
 * @param {string} chamber
 */
export function whatIfPath(chamber) {
  const isShown = work.outcome !== null && work.chamber === chamber && work.query;
  return isShown ? `whatif/${chamber}/${work.query}` : `whatif/${chamber}`;
}

/**
 * Has the address name the what-if whose outcome is shown.
 * @param {Page} page
 * @param {ViewState} state
 */
function nameAddress(page, state) {
  history.replaceState(null, "", hashOf(page, whatIfPath(state.chamber)));
  document.querySelector("nav [data-view=whatif]")?.setAttribute("href", location.hash);
}

/**
 * Says whether the outcome is of what the form has now.
 * @param {Page} page
 * @param {ViewState} state
 */
function paintStale(page, state) {
  const base = answerFor(page, state.chamber);
  const isOther = work.outcome !== null
    && (addressOf(page.geography, base, work.whatIf) !== work.query
      || work.whatIf.steps !== work.steps || work.fault !== "");
  find("#whatif-stale").hidden = !isOther;
  for (const id of ["#whatif-result", "#whatif-key", "#whatif-map", "#whatif-table"]) {
    find(id).classList.toggle("stale", isOther);
  }
}

/**
 * Returns where the page answers what readers look for here, too.
 * @param {Page} page
 * @param {import("./answers.mjs").Answer} answer
 */
function elsewhereHtml(page, answer) {
  const own = hashOf(page, `${answer.key}/${firstOption(answer)}`);
  return html`
    How few people change the answer? <a href="${closeHash(page, answer)}">How close is it?</a> May
    some counties be one group? <a href="${own}">Find one of them</a>, and ask on its card.`;
}

/**
 * Draws the form.
 * @param {Page} page
 * @param {ViewState} state
 */
function paintForm(page, state) {
  const answer = answerFor(page, state.chamber);
  fill(find("#whatif-elsewhere"), elsewhereHtml(page, answer));
  const chambers = find("#whatif-chambers");
  fill(chambers, chamberButtons(page.answers, answer.key));
  chambers.hidden = page.answers.length < 2;
  const names = page.geography.counties.map((county, place) => (
    html`<option value="${place}">${county.name}</option>`));
  fill(find("#whatif-county"), names);
  findInput("#percent").value = Number.isNaN(work.whatIf.percent) ? ""
    : String(work.whatIf.percent);
  findInput("#people-text").value = countsText(page.geography, work.whatIf.people);
  findInput("#steps").value = String(work.whatIf.steps);
  work.fault = "";
  find("#people-note").textContent = "";
  const reason = whyNoProgram();
  findInput("#solve-again").disabled = reason !== null;
  findInput("#try-borders").disabled = reason !== null || work.stopTrials !== null;
  if (!work.solving) find("#whatif-progress").textContent = reason ?? "";
  paintSets(page, state);
  paintBorders(page, state, names);
  paintWindow(page, state);
}

/**
 * Draws the sets that are taken out, with their seats.
 * @param {Page} page
 * @param {ViewState} state
 */
function paintSets(page, state) {
  const { seats } = answerFor(page, state.chamber);
  const { geography } = page;
  const { sets } = work.whatIf;
  const places = sets.map((_, at) => html`
    <option value="${at}"${at === work.set ? " selected" : ""}>set ${at + 1}</option>`);
  find("#clicks-line").hidden = !sets.length;
  fill(find("#clicks"), html`<option value="-1">a new set</option>${places}`);
  fill(find("#taken-sets"), sets.map((set, at) => {
    if (!set.isOwn) set.seats = likelySeats(geography, set.counties, seats);
    const chips = set.counties.map((county) => (
      html`
        <li>${countyName(geography, county)} <button type="button" data-set="${at}"
        data-back="${county}" aria-label="Put ${countyName(geography, county)} back">×</button>
        </li>`));
    const people = peopleOf(geography, set.counties);
    const ideal = ((people * seats) / geography.total).toFixed(2);
    return html`
      <h3>Set ${at + 1}</h3><ul class="chips">${chips}</ul><div class="row"><label>Its seats<input
      type="number"
      min="1" max="1000" value="${set.seats}" data-seats="${at}"></label><span class="note">
      ${numberText(people)} people: ${ideal} ideal districts</span></div>`;
  }));
}

/**
 * Draws the borders in dispute, those that matter first, and the changed borders.
 * @param {Page} page
 * @param {ViewState} state
 * @param {import("./html.mjs").Html[]} [names]  the counties as options of a list
 */
function paintBorders(page, state, names) {
  leaveOtherTrials(page, state);
  const disputed = tieKinds(page.geography);
  const trials = trialsFor(page, state);
  const areTried = disputed.length > 0 && disputed.every(({ link }) => trials.has(link));
  const tried = areTried
    ? " Each of these pairs was tried alone; only those with a mark change the list." : "";
  find("#borders-note").textContent = "Whether counties that meet at a point or over water "
    + `count as neighbors is a question for a court.${tried}`;
  const openBefore = findAll("#disputed details[open]").map((one) => one.dataset.kind);
  const blocks = KINDS.map(([kind, words]) => {
    const pairs = disputed.filter((one) => one.kind === kind);
    const isOpen = openBefore.includes(kind);
    return pairs.length ? pairsHtml(page, pairs, kind, words, trials, isOpen) : "";
  });
  if (names) {
    for (const select of pairSelects()) {
      const { value } = select;
      fill(select, names);
      if (value) select.value = value;
    }
  }
  fill(find("#disputed"), blocks);
  fill(find("#changed-pairs"), changedPairs(page, disputed));
  paintPair(page);
  paintDeciding(page, state);
}

/** Returns the two lists of counties of the reader's own pair. */
function pairSelects() {
  return /** @type {HTMLSelectElement[]} */ (findAll("#other-pair select"));
}

/**
 * Returns the pair that the reader chose, or null if it is one county twice.
 */
function chosenPair() {
  const [one, other] = pairSelects().map((select) => Number(select.value));
  return one === other ? null : pairOf(one, other);
}

/**
 * Returns whether the file of borders has a pair.
 * @param {Page} page
 * @param {number[]} pair
 */
function isInFile({ geography }, pair) {
  return geography.borders.some((some) => some.join(" ") === pair.join(" "));
}

/**
 * Says whether the chosen pair counts as neighbors, and what the button beside it does.
 * @param {Page} page
 */
function paintPair(page) {
  const pair = chosenPair();
  const button = find("#change-pair");
  const note = find("#pair-note");
  if (!pair) {
    note.textContent = "Choose two different counties.";
    button.textContent = "Count it, or leave it out";
    return;
  }
  const codes = pairCodes(page.geography, pair);
  const isCounted = isInFile(page, pair)
    ? !work.whatIf.cut.has(codes) : work.whatIf.added.has(codes);
  const [one, other] = pair.map((place) => countyName(page.geography, place));
  const verb = isCounted ? "count" : "don’t count";
  note.textContent = `${one} and ${other} ${verb} as neighbors here.`;
  button.textContent = isCounted ? "Leave it out" : "Count it";
}

/**
 * Draws the borders that decide the answer, once, and marks those that are left out.
 * @param {Page} page
 * @param {ViewState} state
 */
function paintDeciding(page, state) {
  const answer = answerFor(page, state.chamber);
  const panel = find("#deciding");
  if (work.deciding !== answer) {
    const held = decidingHtml(page, answer);
    panel.hidden = held === null;
    fill(find("#deciding-borders"), held ?? NOTHING);
    work.deciding = answer;
  }
  for (const link of findAll("a[data-cut]", panel)) {
    const isCut = work.whatIf.cut.has(link.dataset.cut ?? "");
    if (isCut) link.setAttribute("aria-current", "true");
    else link.removeAttribute("aria-current");
    const fold = isCut && link.closest("details");
    if (fold) fold.open = true;
  }
}

/**
 * Returns the problem of which borders are tried in this form.
 * @param {Page} page
 * @param {ViewState} state
 */
function problemShown(page, state) {
  return triedProblem(page.geography, answerFor(page, state.chamber), work.whatIf);
}

/**
 * Stops the trials of another problem than the one that is shown, and takes away what they told.
 * @param {Page} page
 * @param {ViewState} state
 */
function leaveOtherTrials(page, state) {
  const problem = problemShown(page, state);
  if (problem === work.tried) return;
  work.tried = problem;
  work.stopTrials?.();
  find("#borders-progress").textContent = "";
}

/**
 * Returns what is known of the disputed borders of the problem that is shown. The page itself knows
 * it of its own problem alone.
 * @param {Page} page
 * @param {ViewState} state
 * @returns {Trials}
 */
function trialsFor(page, state) {
  const base = answerFor(page, state.chamber);
  const problem = problemShown(page, state);
  const known = work.trials.get(problem);
  if (known) return known;
  const isOwn = problem === triedProblem(page.geography, base, nothingChanged(base));
  const table = textsFor(page, base.key).tried;
  return isOwn && table ? storedTrials(table) : new Map();
}

/**
 * Returns one kind of disputed pairs; those that change nothing are folded.
 * @param {Page} page
 * @param {Disputed[]} pairs
 * @param {string} kind
 * @param {string} words
 * @param {Trials} trials
 * @param {boolean} isOpen
 */
function pairsHtml(page, pairs, kind, words, trials, isOpen) {
  const { geography } = page;
  const row = (/** @type {Disputed} */ { pair, link }) => {
    const codes = pairCodes(geography, pair);
    const isCounted = kind === "point" ? work.whatIf.added.has(codes) : !work.whatIf.cut.has(codes);
    const change = trials.get(link);
    const tag = change ? html`<span class="tag changed">${change}</span>` : "";
    const [one, other] = pair.map((place) => countyName(geography, place));
    return html`
      <li><label><input type="checkbox" data-kind="${kind}"
      data-pair="${codes}"${isCounted ? " checked" : ""}>${one}–${other}${tag}</label></li>`;
  };
  const marked = pairs.filter((one) => trials.get(one.link));
  const rest = pairs.filter((one) => !trials.get(one.link));
  const isChanged = rest.some(({ pair }) => {
    const codes = pairCodes(geography, pair);
    return work.whatIf.added.has(codes) || work.whatIf.cut.has(codes);
  });
  const doing = kind === "point" ? "counting" : "leaving out";
  const areTried = rest.every((one) => trials.has(one.link));
  const fold = `${rest.length} ${areTried && marked.length ? "more" : "pairs"}`
    + (areTried ? `: ${doing} one of them alone changes nothing` : "");
  return html`
    <h3>${words}</h3><ul class="pairs">${marked.map(row)}</ul>${rest.length ? html`
      <details data-kind="${kind}"${isOpen || isChanged ? " open" : ""}><summary class="note">
      ${fold}</summary><ul class="pairs">${rest.map(row)}</ul></details>` : ""}`;
}

/**
 * Returns the changed pairs that aren't among the disputed ones.
 * @param {Page} page
 * @param {Disputed[]} disputed
 */
function changedPairs(page, disputed) {
  const known = new Set(disputed.map((one) => pairCodes(page.geography, one.pair)));
  const chip = (/** @type {string} */ codes, /** @type {string} */ words) => {
    const names = codes.split(" ").map((code) => {
      const place = page.geography.placeOf.get(code);
      return place === undefined ? code : countyName(page.geography, place);
    });
    return html`
      <li>${names.join("–")} ${words} <button type="button" data-undo="${codes}" aria-label="Undo
      ${names.join(" and ")}">×</button></li>`;
  };
  const { added, cut } = work.whatIf;
  const isOther = (/** @type {string} */ codes) => !known.has(codes);
  return [
    ...[...added].filter(isOther).map((one) => chip(one, "counted")),
    ...[...cut].filter(isOther).map((one) => chip(one, "left out")),
  ];
}

/**
 * Says how many people a district may have, or why the percentage is no tolerance.
 * @param {Page} page
 * @param {ViewState} state
 */
function paintWindow(page, state) {
  const { seats } = answerFor(page, state.chamber);
  const isBlank = Number.isNaN(work.whatIf.percent);
  const tolerance = isBlank ? null : fractionOf(work.whatIf.percent);
  const why = isBlank ? "A percentage is wanted here." : NO_TOLERANCE;
  findInput("#percent").setCustomValidity(tolerance ? "" : why);
  const line = find("#percent-window");
  if (!tolerance) {
    line.textContent = why;
    return;
  }
  const { total } = changedGeography(page.geography, work.whatIf.people);
  const [least, most] = peopleWindow(total, seats, 1, tolerance);
  line.textContent = `${numberText(least)} to ${numberText(most)} people per district`;
}

/**
 * Shows the base answer, on which counties can be clicked.
 * @param {Page} page
 * @param {ViewState} state
 */
function paintBase(page, state) {
  const { answer, option, groups } = current(page, state);
  Object.assign(work, { outcome: null, query: "" });
  paintStale(page, state);
  const shown = answer.options ? `option ${option} of ` : "";
  fill(find("#whatif-result"), html`
    <p class="note">The map shows ${shown}${chamberWords(answer)}. Click a county to take it out,
    change a border, then solve.</p>`);
  fill(find("#whatif-table"), NOTHING);
  fill(find("#whatif-key"), NOTHING);
  showMap(find("#whatif-map"), {
    geography: page.geography, chamber: answer.seats,
    drawing: { groups, leaders: leadersOf(answer), taken: takenOut() },
    pick: (county) => toggleCounty(page, state, county),
  });
}

/**
 * Takes a county out, or puts it back.
 * @param {Page} page
 * @param {ViewState} state
 * @param {number} county
 */
function toggleCounty(page, state, county) {
  const { sets } = work.whatIf;
  const holder = sets.find((set) => set.counties.includes(county));
  if (holder) {
    holder.counties = holder.counties.filter((one) => one !== county);
    work.whatIf.sets = sets.filter((set) => set.counties.length);
    if (work.set >= work.whatIf.sets.length) work.set = -1;
  } else {
    const set = sets[work.set] ?? { counties: [], seats: 1, isOwn: false };
    if (!sets.includes(set)) sets.push(set);
    set.counties.push(county);
    set.isOwn = false;
  }
  paintSets(page, state);
  paintBorders(page, state);
  if (work.outcome) showOutcome(page, state, work.outcome);
  else paintBase(page, state);
}

/**
 * Takes the counts of people of the form. Says what they are, or why they can't be read.
 * @param {Page} page
 * @param {ViewState} state
 */
function takeCounts(page, state) {
  const line = find("#people-note");
  try {
    const { people, note } = readCounts(page.geography, findInput("#people-text").value);
    Object.assign(work, { fault: "" });
    work.whatIf.people = people;
    line.textContent = note;
  } catch (fault) {
    work.fault = fault instanceof Error ? fault.message : String(fault);
    line.textContent = work.fault;
  }
  line.classList.toggle("bad", work.fault !== "");
  paintBorders(page, state);
  paintWindow(page, state);
}

/**
 * Solves the what-if, with progress, and shows what is different. What comes of it isn't shown if
 * the reader looks at something else by then.
 * @param {Page} page
 * @param {ViewState} state
 */
async function solveAgain(page, state) {
  if (work.solving || whyNoProgram() || work.fault) return;
  const base = answerFor(page, state.chamber);
  const asked = structuredClone(work.whatIf);
  const solving = beginSolving();
  const isShown = () => (
    work.solving === solving && state.view === "whatif" && state.chamber === base.key);
  try {
    const files = await carriedProblem();
    const { outcome, stop } = await startWhatIf(page, base, asked, files, (line) => {
      solving.told = line.replace(/^.*?countygroups: /, "").slice(0, 120);
    });
    solving.stop = stop;
    if (work.solving === solving) find("#stop-solving").hidden = false;
    else stop();
    const found = await outcome;
    const words = found.status <= 1 ? `Solved in ${solving.seconds()} seconds, in this page.`
      : `It ended after ${solving.seconds()} seconds without an answer.`;
    const isStillShown = isShown();
    if (isStillShown) showSolved(page, state, asked, found);
    endSolving(solving, isStillShown ? words : "");
  } catch (fault) {
    endSolving(solving, wasStopped(fault) ? `Stopped after ${solving.seconds()} seconds.`
      : faultWords(fault));
  }
}

/**
 * Shows what came of a what-if, and names it in the address.
 * @param {Page} page
 * @param {ViewState} state
 * @param {WhatIf} asked
 * @param {Outcome} outcome
 */
function showSolved(page, state, asked, outcome) {
  const base = answerFor(page, state.chamber);
  const query = addressOf(page.geography, base, asked);
  Object.assign(work, { outcome, query, steps: asked.steps });
  nameAddress(page, state);
  showOutcome(page, state, outcome);
  bringIntoView(find("#whatif-result"));
}

/** Shows that the program works, and returns its run. Until it has started nothing stops it. */
function beginSolving() {
  const start = performance.now();
  const seconds = () => ((performance.now() - start) / 1000).toFixed(1);
  /** @type {Solving} */
  const solving = { seconds, told: "", timer: 0, stop: () => {} };
  // (these seconds stand beside the line that a screen reader reads out when it changes)
  solving.timer = window.setInterval(() => {
    find("#whatif-running").textContent = `${seconds()} s. ${solving.told}`;
  }, 100);
  find("#whatif-progress").textContent = "Solving.";
  // (a button that is disabled would lose the focus of a reader with keys)
  find("#solve-again").setAttribute("aria-disabled", "true");
  work.solving = solving;
  return solving;
}

/**
 * Shows that a run has ended, and in which words, if no other run is at work.
 * @param {Solving} solving
 * @param {string} words
 */
function endSolving(solving, words) {
  clearInterval(solving.timer);
  if (work.solving !== solving) return;
  work.solving = null;
  find("#whatif-progress").textContent = words;
  find("#whatif-running").textContent = "";
  find("#solve-again").removeAttribute("aria-disabled");
  find("#stop-solving").hidden = true;
}

/** Stops the run at work, whose what-if isn't shown any more. */
function dropSolving() {
  const { solving } = work;
  if (!solving) return;
  solving.stop();
  endSolving(solving, "");
}

/**
 * Shows what the program answered, beside the base answer.
 * @param {Page} page
 * @param {ViewState} state
 * @param {Outcome} outcome
 */
function showOutcome(page, state, outcome) {
  const { answer: base, option, groups: shown } = current(page, state);
  const parts = outcomeParts(base, shown, outcome);
  fill(find("#whatif-result"), [
    parts.verdict, enactedHtml(page, outcome.enacted),
    html`<div class="row noprint">${storeButtons(outcome)}</div>`]);
  fill(find("#whatif-table"), parts.table);
  const likened = base.options && base.number > 1 ? `option ${option}` : "the base answer";
  fill(find("#whatif-key"), mapKeyHtml(outcome, parts, likened, takenOut().size));
  paintStale(page, state);
  const fresh = parts.newCounties;
  showMap(find("#whatif-map"), {
    geography: outcome.geography, chamber: base.seats,
    drawing: {
      groups: parts.groups, taken: takenOut(), isNew: (group) => parts.isNew(group),
      areas: fresh.length ? [{ number: 0, name: "", counties: fresh, choice: 0, choices: 0 }] : [],
    },
    pick: (county) => toggleCounty(page, state, county),
  });
}

/**
 * Returns the buttons that store what a run has, and the one of its sheet.
 * @param {Outcome} outcome
 */
function storeButtons({ certificate }) {
  /** @type {[string, string][]} */
  const offered = [["sheet", "Sheet to hand in"]];
  if (certificate) offered.push(["proof", "Store the certificate"]);
  if (work.whatIf.people.size) offered.push(["geo", "Store the changed geographic header"]);
  if (work.whatIf.people.size) offered.push(["segment", "Store the changed counts"]);
  return offered.map(([kind, words]) => html`
    <button type="button" class="btn quiet" data-store="${kind}">${words}</button>`);
}

/**
 * Stores what a button below the outcome offers, or opens its sheet.
 * @param {Page} page
 * @param {ViewState} state
 * @param {string} kind
 */
async function storeOutcome(page, state, kind) {
  const { outcome } = work;
  const base = answerFor(page, state.chamber);
  if (!outcome) return;
  if (kind === "proof" && outcome.certificate) {
    saveFile(`${base.key}-what-if.certificate`, outcome.certificate, "text/plain");
  }
  const file = outcome.files.get(kind);
  if (file) saveFile(`what-if-${fileOf(kind)?.name ?? kind}`, file, "text/plain");
  if (kind !== "sheet") return;
  const further = [];
  for (const [name, bytes] of outcome.certificate ? [["certificate", outcome.certificate]] : []) {
    const held = /** @type {Uint8Array} */ (bytes);
    further.push({ name: `what_if.${name}`, bytes: held.length, sum: await sumOf(held) });
  }
  const asked = work.query ? whatIfOf(page.geography, base, work.query) : nothingChanged(base);
  openHandout(page, {
    title: `What if: ${page.geography.name} ${base.name}`, hash: location.hash,
    shown: ["#whatif-result", "#whatif-key", "#whatif-map", "#whatif-table"],
    keys: ["geo", "segment", "adjacency"], further,
    commands: whatIfCommands(page, base, asked, fractionOf(asked.percent) ?? [1, 20]),
  });
}

/**
 * Tries each border in dispute alone, and fills the marks while it goes.
 * @param {Page} page
 * @param {ViewState} state
 */
async function tryBorders(page, state) {
  if (work.stopTrials || whyNoProgram()) return;
  const base = answerFor(page, state.chamber);
  const disputed = tieKinds(page.geography);
  const problem = problemShown(page, state);
  const tell = (/** @type {string} */ words) => {
    if (work.tried !== problem) return;
    find("#borders-progress").textContent = words;
    if (problemShown(page, state) === problem) paintBorders(page, state);
  };
  const { finished, stop } = startTrials(
    page, base, structuredClone(work.whatIf), disputed, (done, some) => {
      work.trials.set(problem, new Map(some));
      tell(`Tried ${done} of ${disputed.length} borders.`);
    });
  work.stopTrials = stop;
  findInput("#try-borders").disabled = true;
  find("#stop-borders").hidden = false;
  tell(`Trying ${disputed.length} borders, each alone.`);
  try {
    tell(trialsWords(await finished));
  } catch (fault) {
    work.trials.delete(problem);
    tell(wasStopped(fault) ? "Stopped." : faultWords(fault));
  }
  work.stopTrials = null;
  findInput("#try-borders").disabled = false;
  find("#stop-borders").hidden = true;
}

/**
 * Counts a pair that doesn't count, or leaves one out that does.
 * @param {Page} page
 * @param {string} codes
 * @param {boolean} isCountedInFile
 */
function togglePair(page, codes, isCountedInFile) {
  const into = isCountedInFile ? work.whatIf.cut : work.whatIf.added;
  if (into.has(codes)) into.delete(codes);
  else into.add(codes);
}

/**
 * Follows the controls of the view.
 * @param {Page} page
 * @param {ViewState} state
 */
export function followWhatIf(page, state) {
  find("#whatif-chambers").addEventListener("click", (event) => {
    const key = /** @type {HTMLElement} */ (event.target).closest("button")?.dataset.chamber;
    if (key) location.hash = hashOf(page, whatIfPath(key));
  });
  find("#whatif-form").addEventListener("submit", (event) => {
    event.preventDefault();
    solveAgain(page, state);
  });
  find("#stop-solving").addEventListener("click", () => work.solving?.stop());
  find("#try-borders").addEventListener("click", () => tryBorders(page, state));
  find("#stop-borders").addEventListener("click", () => work.stopTrials?.());
  find("#start-over").addEventListener("click", () => {
    dropSolving();
    work.whatIf = nothingChanged(answerFor(page, state.chamber));
    work.set = -1;
    paintForm(page, state);
    paintBase(page, state);
    nameAddress(page, state);
  });
  findInput("#percent").addEventListener("input", () => {
    const { value } = findInput("#percent");
    work.whatIf.percent = value.trim() ? Number(value) : NaN;
    paintWindow(page, state);
    paintBorders(page, state);
  });
  find("#whatif-result").addEventListener("click", (event) => {
    const kind = /** @type {HTMLElement} */ (event.target).dataset.store;
    if (kind) storeOutcome(page, state, kind);
  });
  for (const kind of ["input", "change", "click"]) {
    find("#whatif-form").addEventListener(kind, () => paintStale(page, state));
  }
  followSets(page, state);
  followPairs(page, state);
  followCounts(page, state);
}

/**
 * Follows the controls of the counts of people and of the steps.
 * @param {Page} page
 * @param {ViewState} state
 */
function followCounts(page, state) {
  const box = find("#people-text");
  box.addEventListener("input", () => takeCounts(page, state));
  const take = async (/** @type {File | undefined} */ file) => {
    if (!file) return;
    findInput("#people-text").value = decodedText(new Uint8Array(await file.arrayBuffer())).trim();
    takeCounts(page, state);
    paintStale(page, state);
  };
  box.addEventListener("dragover", (event) => event.preventDefault());
  box.addEventListener("drop", (event) => {
    event.preventDefault();
    take(event.dataTransfer?.files[0]);
  });
  findInput("#people-file").addEventListener("change", () => {
    take(findInput("#people-file").files?.[0]);
    findInput("#people-file").value = "";
  });
  findInput("#steps").addEventListener("change", () => {
    work.whatIf.steps = Number(findInput("#steps").value);
  });
}

/**
 * Follows the controls of the counties that are taken out.
 * @param {Page} page
 * @param {ViewState} state
 */
function followSets(page, state) {
  find("#take-out").addEventListener("click", () => (
    toggleCounty(page, state, Number(findInput("#whatif-county").value))));
  find("#clicks").addEventListener("change", () => {
    work.set = Number(findInput("#clicks").value);
  });
  const sets = find("#taken-sets");
  sets.addEventListener("click", (event) => {
    const county = /** @type {HTMLElement} */ (event.target).dataset.back;
    if (county) toggleCounty(page, state, Number(county));
  });
  sets.addEventListener("input", (event) => {
    const input = /** @type {HTMLInputElement} */ (event.target);
    const set = work.whatIf.sets[Number(input.dataset.seats)];
    if (!set) return;
    set.seats = Math.max(1, Math.round(Number(input.value)) || 1);
    set.isOwn = true;
    paintBorders(page, state);
  });
}

/**
 * Follows the controls of the borders.
 * @param {Page} page
 * @param {ViewState} state
 */
function followPairs(page, state) {
  find("#disputed").addEventListener("change", (event) => {
    const { pair, kind } = /** @type {HTMLElement} */ (event.target).dataset;
    if (!pair) return;
    togglePair(page, pair, kind !== "point");
    paintPair(page);
    paintDeciding(page, state);
  });
  find("#other-pair").addEventListener("change", () => paintPair(page));
  find("#change-pair").addEventListener("click", () => {
    const pair = chosenPair();
    if (!pair) return;
    togglePair(page, pairCodes(page.geography, pair), isInFile(page, pair));
    paintBorders(page, state);
  });
  find("#changed-pairs").addEventListener("click", (event) => {
    const codes = /** @type {HTMLElement} */ (event.target).dataset.undo;
    if (!codes) return;
    work.whatIf.added.delete(codes);
    work.whatIf.cut.delete(codes);
    paintBorders(page, state);
  });
}
