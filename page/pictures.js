// Pictures of lotteries and of numbers by value. Outcomes are told apart by letter and pattern, and by colour only beside these; each
// picture says in words all that it shows. Text has one width for all letters, so that what fits can be counted.

import { shortText } from "./amounts.js";
import { draw, make, scrolling } from "./dom.js";
import { Fraction } from "./fraction.js";

const LETTERS = "ABCDEFGHIJKLMNOP";
const LETTER = 7.9; // the width of a letter of 13 pixels
const LINE = 15; // the height of a line of text
const BAR = 20; // the height of a bar
const GAP = 10; // between cells
const LONGEST = 20; // letters of a line in a cell
const WIDEST = 325; // of a picture with one column
const NARROWEST = 180; // of a figure with its caption
const HUES = 8;

// Drawn on a tile of 8 by 8 pixels; the first is plain.
const PATTERNS = [
  "",
  "M-2 2L2 -2M0 8L8 0M6 10L10 6",
  "M2 2h.01M6 6h.01",
  "M0 4H8",
  "M-2 6L2 10M0 0L8 8M6 -2L10 2",
  "M4 0V8",
  "M0 4H8M4 0V8",
  "M-2 2L2 -2M0 8L8 0M6 10L10 6M-2 6L2 10M0 0L8 8M6 -2L10 2",
];

/** The patterns of all outcomes, in a picture that nobody sees. */
export function patternDefinitions() {
  const patterns = [...LETTERS].map((_, outcome) => {
    const hue = outcome % HUES;
    const kind = (outcome + 3 * Math.floor(outcome / HUES)) % HUES;
    const tile = draw("rect", { width: 8, height: 8, class: `ground${hue}` });
    const lines = PATTERNS[kind] && draw("path", { class: `stroke${hue}${kind === 2 ? " round" : ""}`, d: PATTERNS[kind] });
    return draw("pattern", { id: `key${outcome}`, width: 8, height: 8, patternUnits: "userSpaceOnUse" }, tile, lines);
  });
  const hidden = { class: "definitions", width: 0, height: 0, "aria-hidden": "true", focusable: "false" };
  return draw("svg", hidden, draw("defs", {}, patterns));
}

function textAt(x, y, text, attributes = {}) {
  return draw("text", { x: place(x), y: place(y), ...attributes }, text);
}

function place(amount) {
  return Math.round(amount * 100) / 100;
}

function letterAt(x, y, outcome) {
  return textAt(x, y, LETTERS[outcome], { class: `letter halo${outcome % HUES}`, "text-anchor": "middle" });
}

let pictureCount = 0;

/** A picture with its name and all that it shows in words. It shrinks by a fifth at most where the page is narrower. */
function picture(title, description, width, height, content) {
  pictureCount += 1;
  const [titleId, descriptionId] = [`picture${pictureCount}-title`, `picture${pictureCount}-words`];
  const [wide, tall] = [place(width + 2), place(height)];
  return draw(
    "svg",
    {
      class: "picture",
      role: "img",
      "aria-labelledby": titleId,
      "aria-describedby": descriptionId,
      width: wide,
      height: tall,
      viewBox: `-1 0 ${wide} ${tall}`,
      style: `min-width:${place(wide * 0.8)}px`,
    },
    draw("title", { id: titleId }, title),
    draw("desc", { id: descriptionId }, description),
    content,
  );
}

/** A picture under its caption. */
function figure(caption, drawn) {
  const wide = Math.max(NARROWEST, Number(drawn.getAttribute("width")));
  const words = drawn.querySelector("title").textContent;
  return make("figure", { style: `width:${wide}px` }, caption && make("figcaption", {}, caption), scrolling(words, drawn));
}

/** What the letters and patterns of outcomes stand for. */
export function legend(outcomes, used) {
  const entries = used.map((outcome) =>
    make("li", {}, swatch(outcome), make("span", {}, `${LETTERS[outcome]}: ${outcomes[outcome]}`)),
  );
  return make("ul", { class: "legend", "aria-label": "Legend" }, entries);
}

function swatch(outcome) {
  const box = draw("rect", { x: 0.5, y: 0.5, width: 25, height: 19, class: "edge", fill: `url(#key${outcome})` });
  const hidden = { class: "swatch", width: 26, height: 20, "aria-hidden": "true", focusable: "false" };
  return draw("svg", hidden, box, letterAt(13, 14, outcome));
}

/** A bar cut by chances. An outcome without a chance has no part in it. */
function stackedBar(x, y, width, chances) {
  let at = x;
  return chances.flatMap((chance, outcome) => {
    const wide = width * chance.toPlace();
    const left = at;
    at += wide;
    if (chance.isZero()) {
      return [];
    }
    const box = { x: place(left), y: place(y), width: place(wide), height: BAR, class: "edge", fill: `url(#key${outcome})` };
    return [draw("rect", box), wide >= 13 && letterAt(left + wide / 2, y + 14, outcome)];
  });
}

/** The chances of a lottery as short lines. */
function chanceLines(labels, chances) {
  return chances.flatMap((chance, outcome) => {
    const [label, text] = [labels[outcome], shortText(chance)];
    if (chance.isZero()) {
      return [];
    }
    return label.length + text.length < LONGEST ? [`${label} ${text}`] : [label, ...brokenLines(text)];
  });
}

function brokenLines(text) {
  return text.length <= LONGEST ? [text] : text.split(/(?<=\/)/);
}

function longestOf(texts) {
  return Math.max(0, ...texts.map((text) => text.length));
}

/** The chances at all reports of the last two agents (or the only one), where the agents before them report `fixed`. */
export function lotteryFigure(setting, lotteries, fixed) {
  const grid = gridOf(setting, lotteries, fixed);
  const sizes = sizesOf(grid);
  const caption = fixed.map((type, agent) => `${setting.agents[agent].name}: ${type}`).join(", ");
  const title = `Chances of the outcomes at each report of ${grid.agents.map(({ name }) => name).join(" and ")}`;
  const drawn = [headsOf(grid, sizes), grid.rows.map((_, row) => rowOf(grid, sizes, row))];
  return figure(caption, picture(caption ? `${title}, where ${caption}` : title, spokenOf(grid), sizes.width, sizes.height, drawn));
}

function gridOf(setting, lotteries, fixed) {
  const agents = setting.agents.slice(fixed.length);
  const columns = agents.length === 2 ? agents[1].types : [null];
  const isShort = columns.length <= 6 && longestOf(setting.outcomes) <= 12;
  const labels = isShort ? setting.outcomes : LETTERS;
  const chances = agents[0].types.map((row) =>
    columns.map((column) => lotteries.get([...fixed, row, column].filter((type) => type !== null).join(","))),
  );
  const lines = chances.map((cells) => cells.map((each) => chanceLines(labels, each)));
  return { agents, rows: agents[0].types, columns, outcomes: setting.outcomes, chances, lines };
}

/** How large everything is. */
function sizesOf({ agents, rows, columns, lines }) {
  const longest = longestOf(lines.flat(2)) * LETTER;
  const side = longestOf([...rows, agents[0].name]) * LETTER + 14;
  const isOne = agents.length === 1;
  const cell = isOne
    ? Math.max(WIDEST - side, longest)
    : Math.max(64, longest, longestOf(columns) * LETTER, (agents[1].name.length * LETTER) / columns.length);
  const tops = [isOne ? 24 : 24 + LINE];
  for (const cells of lines) {
    const most = Math.max(...cells.map((each) => each.length));
    tops.push(tops.at(-1) + BAR + 4 + LINE * most + 12);
  }
  return { side, cell, tops, width: side + columns.length * (cell + GAP) - GAP, height: tops.at(-1) - 6 };
}

function columnAt({ side, cell }, column) {
  return side + column * (cell + GAP);
}

function headsOf({ agents, columns }, sizes) {
  const own = textAt(0, sizes.tops[0] - 10, agents[0].name, { class: "agent" });
  if (agents.length === 1) {
    return [own];
  }
  const names = columns.map((name, column) => textAt(columnAt(sizes, column), sizes.tops[0] - 10, name));
  return [own, textAt(sizes.side, 13, agents[1].name, { class: "agent" }), ...names];
}

function rowOf(grid, sizes, row) {
  const y = sizes.tops[row];
  const rule = draw("path", { class: "rule", d: `M0 ${place(y - 5)}H${place(sizes.width)}` });
  const cells = grid.columns.flatMap((_, column) => {
    const x = columnAt(sizes, column);
    const lines = grid.lines[row][column].map((text, line) => textAt(x, y + BAR + 13 + LINE * line, text));
    return [...stackedBar(x, y, sizes.cell, grid.chances[row][column]), ...lines];
  });
  return [rule, textAt(0, y + 14, grid.rows[row]), cells];
}

function spokenOf({ agents, rows, columns, outcomes, chances }) {
  const cells = rows.flatMap((row, i) =>
    columns.map((column, j) => {
      const where = [`${agents[0].name} ${row}`, column !== null && `${agents[1].name} ${column}`].filter(Boolean).join(", ");
      const parts = outcomes.flatMap((name, outcome) =>
        chances[i][j][outcome].isZero() ? [] : [`${name} ${chances[i][j][outcome]}`],
      );
      return `${where}: ${parts.join(", ")}.`;
    }),
  );
  return cells.join(" ");
}

/** A bar for each of some numbers, with the number beside it. `limit` is the end of the frame of each bar, or null; bars
 * of numbers below 0 go to the left and are striped. */
export function barsFigure(heading, names, numbers, limit = null) {
  const side = longestOf(names) * LETTER + 10;
  const texts = numbers.map(shortText);
  const track = Math.max(110, WIDEST - side - longestOf(texts) * LETTER - 10);
  const ends = [new Fraction(0n), ...numbers, ...(limit ? [limit] : [])].map((each) => each.toPlace());
  const [low, span] = [Math.min(...ends), Math.max(...ends) - Math.min(...ends) || 1];
  const at = (amount) => side + (track * (amount.toPlace() - low)) / span;
  const rows = names.map((name, row) => barRow({ name, amount: numbers[row], limit, at, y: 4 + row * (BAR + GAP), track, side }));
  const height = names.length * (BAR + GAP) + 2;
  const axis = draw("path", { class: "axis", d: `M${place(at(new Fraction(0n)))} 1V${place(height - 4)}` });
  const words = names.map((name, row) => `${name}: ${numbers[row]}.`).join(" ");
  const width = side + track + 10 + longestOf(texts) * LETTER;
  return figure(heading, picture(heading, words, width, height, [rows, axis]));
}

function barRow({ name, amount, text = shortText(amount), limit, at, y, track, side }) {
  const zero = at(new Fraction(0n));
  const box = (from, to, attributes) =>
    draw("rect", { x: place(Math.min(from, to)), y, width: place(Math.abs(to - from)), height: BAR, ...attributes });
  return [
    textAt(0, y + 14, name),
    limit && box(zero, at(limit), { class: "frame" }),
    !amount.isZero() && box(zero, at(amount), { class: "edge", fill: `url(#key${amount.isNegative() ? 1 : 0})` }),
    textAt(side + track + 8, y + 14, text),
  ];
}

/** What bidders bid, each as a frame, and in it what a winner pays. */
export function bidsFigure(heading, bidders) {
  const names = bidders.map(({ name }) => name);
  const texts = bidders.map(({ bid, wins, price }) => (wins ? `${shortText(bid)}, pays ${shortText(price)}` : shortText(bid)));
  const side = longestOf(names) * LETTER + 10;
  const words = bidders.map(({ name, bid, wins, price }) => `${name}: ${bid}${wins ? `, pays ${price}` : ""}.`).join(" ");
  const track = Math.max(110, WIDEST - side - longestOf(texts) * LETTER - 10);
  const most = Math.max(...bidders.map(({ bid }) => bid.toPlace())) || 1;
  const at = (amount) => side + (track * amount.toPlace()) / most;
  const rows = bidders.map(({ name, bid, wins, price }, row) =>
    barRow({ name, amount: wins ? price : new Fraction(0n), text: texts[row], limit: bid, at, y: 4 + row * (BAR + GAP), track, side }),
  );
  return figure(heading, picture(heading, words, side + track + 10 + longestOf(texts) * LETTER, names.length * (BAR + GAP) + 2, rows));
}
