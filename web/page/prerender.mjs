// Draws the parts of the page that stand in it without scripts. Node runs it, at the build:
// `node prerender.mjs DATA.json` reads the page's data and prints the parts as JSON;
// `node prerender.mjs DATA.json disputed` prints the borders in dispute as lines of links, and
// `node prerender.mjs DATA.json map KEY` a chamber's map as SVG that stands alone.

import fs from "node:fs";
import { answerParts, optionDrawing } from "./answer_parts.mjs";
import { choicesOf } from "./answers.mjs";
import { pageOf, firstOption } from "./page.mjs";
import { html } from "./html.mjs";
import { mapSvg, shapesSvg } from "./map_svg.mjs";
import { tieKinds } from "./disputed.mjs";

/** @typedef {import("./page.mjs").Page} Page */
/** @typedef {import("./html.mjs").Html} Html */

/**
 * Returns the text of a piece of HTML without what only scripts use.
 * @param {Html} piece
 */
function inert(piece) {
  return piece.text
    .replace(/ data-(group|county|area|choice)="-?\d+"/g, "")
    .replace(/ data-key="[^"]*"/g, "")
    .replace(/ role="button" tabindex="-1"/g, "")
    .replace(/<\/?button[^>]*>/g, "");
}

/**
 * Returns a chamber's headline, paragraph and map, for those behind the first.
 * @param {Page} page
 * @param {import("./answers.mjs").Answer} answer
 */
function furtherChamber(page, answer) {
  const option = firstOption(answer);
  const parts = answerParts(page, answer, option);
  const note = inert(parts.note);
  return `${html`<h2>${parts.title}</h2><p>${parts.deck}</p>`.text}<p>${parts.option} ${note}</p>`
    + `${inert(parts.map)}<h2>${parts.tableHead}</h2>${inert(parts.table)}`;
}

/**
 * Returns the map of a chamber's first option as SVG that stands alone, in light colors.
 * @param {Page} page
 * @param {import("./answers.mjs").Answer} answer
 */
function aloneSvg(page, answer) {
  const { sheet } = page.geography;
  if (!sheet) return "";
  const option = firstOption(answer);
  const { title } = answerParts(page, answer, option);
  const drawing = optionDrawing(answer, choicesOf(answer, option));
  const map = mapSvg(page.geography, {
    ...drawing, width: sheet.width, labels: "county", hasSwitches: true,
  });
  const style = fs.readFileSync(new URL("page.css", import.meta.url)).toString();
  const colors = style.match(/^:root, \.light \{[^}]*\}/)?.[0] ?? "";
  const rules = style.match(/\/\* the map \*\/(.*?)\/\* what the pointer/s)?.[1] ?? "";
  const shapes = shapesSvg(sheet).text.replace(/^<svg[^>]*>|<\/svg>$/g, "");
  return `${map.text.replace("<defs>", `<title>${title}</title><style>${colors}${rules}</style>`
    + `<rect width="${sheet.width}" height="${sheet.height}" fill="#fff"/>${shapes}<defs>`)}`;
}

/** Prints the parts of the page, the borders that are in dispute, or a map. */
function main() {
  const [path, what, key] = process.argv.slice(2);
  const page = pageOf(JSON.parse(fs.readFileSync(path).toString()), "c");
  if (what === "disputed") {
    console.log(tieKinds(page.geography).map((one) => one.link).join("\n"));
    return;
  }
  if (what === "map") {
    const answer = page.answers.find((one) => one.key === key) ?? page.answers[0];
    console.log(aloneSvg(page, answer));
    return;
  }
  const [first, ...others] = page.answers;
  const parts = answerParts(page, first, firstOption(first));
  const shapes = page.geography.sheet ? shapesSvg(page.geography.sheet).text : "";
  console.log(JSON.stringify({
    "title": parts.title, "deck": parts.deck.text, "option": parts.option,
    "note": inert(parts.note), "map": inert(parts.map), "key": parts.key.text,
    "intro": parts.intro, "cards": inert(html`${parts.cards}`),
    "table-head": parts.tableHead, "table": inert(parts.table), "why": parts.why,
    "ladder": parts.ladder.text, "shapes": shapes,
    "without-scripts": others.map((answer) => furtherChamber(page, answer)).join(""),
    "window-title": `County groups of ${page.geography.name}`,
  }));
}

main();
