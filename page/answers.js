// What the page shows of an answer: a rule as pictures and tables, and what shows that no other is better. All numbers are those of the
// text, or sums and quotients of them.

import { amountCell, amountText, shortText } from "./amounts.js";
import { conditionsPart, withoutConditions } from "./conditions.js";
import { folded, head, make, number, table } from "./dom.js";
import { Fraction, counted, sum } from "./fraction.js";
import { barsFigure, legend, lotteryFigure } from "./pictures.js";
import { byProfile, firstWith, fractionsOf, withWord } from "./records.js";
import { profilesOf, weightOfProfile } from "./setting.js";
import {
  amountVerdict,
  cutNames,
  foldedTable,
  fractionWith,
  multipliersPart,
  overText,
  paragraph,
  shortened,
  verdict,
  view,
} from "./verdicts.js";

const MOST_PICTURES = 16;

const VERDICTS = {
  optimal: (value) => amountVerdict("Value", value, "Optimal: no other rule that meets the conditions has a greater value.", "good"),
  infeasible: () => verdict("No rule meets these conditions", "What the setting demands cannot hold together.", "bad"),
  unbounded: () =>
    verdict(
      "No bound",
      "The objective has no bound: the added payments below keep all conditions, and the value grows each time they are added.",
      "bad",
    ),
  toowide: () =>
    verdict(
      "Too wide",
      "A number on each of the two ways to the answer grew beyond the width. This says nothing of the setting: it may have a best " +
        "rule, or none.",
    ),
  table: () => verdict("A rule", "Nothing is claimed of it."),
};

/** What an optimal answer says where it is about another question than the setting's own. */
const OPTIMAL_WORDS = {
  required: "Optimal: no other rule that meets the conditions, yours among them, has a greater value.",
  fair: "Under no rule that meets the conditions does the agent that gets least get more.",
  determ: "Optimal: no rule without lotteries that meets the conditions has a greater value.",
  asym: "Optimal: no other way to sell the item has a greater value.",
  units: "Optimal: no other way to sell the units has a greater value.",
};

function verdictOf(records) {
  const [, kind, word] = firstWith(records, "answer");
  const value = fractionWith(records, "value");
  const found = { ...VERDICTS[word](value) };
  if (word === "infeasible" && kind === "required") {
    return { ...found, words: "What the setting demands and your conditions cannot hold together." };
  }
  if (word === "optimal" && kind === "fair") {
    return amountVerdict("Who gets least gets", value, OPTIMAL_WORDS.fair, "good");
  }
  return word === "optimal" && kind in OPTIMAL_WORDS ? { ...found, words: OPTIMAL_WORDS[kind] } : found;
}

/** What stands above the best auction: its reserve, which is the least value that ever wins. */
function reserveVerdict(records, setting) {
  const found = verdictOf(records);
  const odds = firstWith(records, "odds");
  if (setting === null || found.kind !== "good" || odds === undefined) {
    return found;
  }
  const least = odds.findIndex((each) => each !== "0");
  const words = `Value ${amountText(fractionWith(records, "value"))}. ${found.words}`;
  return verdict(least < 0 ? "Nothing is ever sold" : least === 0 ? "No reserve" : `Reserve ${setting.values[least]}`, words, "good");
}

/** What `solve` and `fair` print. */
export function answerView(records, { setting, names = [] }) {
  const [, kind] = firstWith(records, "answer");
  const parts = kind === "auction" ? auctionParts(records, setting) : mechanismParts(records, setting);
  const found = kind === "auction" ? reserveVerdict(records, setting) : verdictOf(records);
  return view(found, parts, multipliersPart(records, names), widePart(records));
}

/** A view of an answer, or of the words that tell why there is none. */
function answerOr(words, viewOfAnswer = answerView) {
  return (records, context) =>
    firstWith(records, "answer") ? viewOfAnswer(records, context) : view(verdict("Undecided", words));
}

const TOO_LONG = "The multipliers that show the best rule to be best need more than 62 bits, so that nothing is answered.";

/** What `iron` prints: an answer, or that the multipliers that show its rule to be best are too long. */
export const ironView = answerOr(TOO_LONG);

/** The same of `ironunits`. */
export const ironUnitsView = answerOr(TOO_LONG, unitsView);

const NOT_FOUND =
  "No answer was found, though numbers may have 126 bits on the way. This says nothing of the setting: it may have a best rule, or none.";

/** What `find` and `findfair` print: an answer, or that none was found. */
export const findView = answerOr(NOT_FOUND);

/** What `require` prints: an answer with the conditions of the designer, or that none was found. */
export const requireView = answerOr(NOT_FOUND, (records, { setting, names = [] }) => {
  const own = withoutConditions(records);
  return view(verdictOf(own), conditionsPart(records), mechanismParts(own, setting), multipliersPart(own, names));
});

/** What `determ` prints: the rule, and the search that shows that there is none better. */
export function determView(records, { setting }) {
  const start = records.findIndex(([word]) => word === "branch" || word === "leaf");
  const [own, tree] = start < 0 ? [records, []] : [records.slice(0, start), records.slice(start)];
  const [branches, leaves] = ["branch", "leaf"].map((word) => withWord(tree, word).length);
  const sizes = `${counted(branches, "branch", "branches")} and ${counted(leaves, "leaf", "leaves")}`;
  const words = `The search tree that shows it has ${sizes}; the text has it.`;
  return view(verdictOf(records), mechanismParts(own, setting), tree.length > 0 && paragraph(words), widePart(records));
}

// --- rules of general settings --------------------------------------------------------------------------------------------------

/** A mechanism's chances and payments. Where the page cannot read the setting, there is the text alone. */
function mechanismParts(records, setting) {
  if (setting === null || withWord(records, "lottery").length === 0) {
    return [];
  }
  const count = setting.agents.length;
  const parts = [make("h3", {}, "Chances"), lotteriesPart(setting, byProfile(records, "lottery", count))];
  if (withWord(records, "pay").length > 0) {
    parts.push(make("h3", {}, "Payments"), paymentsPart(setting, byProfile(records, "pay", count), "Payment"));
  }
  if (withWord(records, "ray").length > 0) {
    parts.push(make("h3", {}, "Added payments"), paymentsPart(setting, byProfile(records, "ray", count), "Added payment"));
  }
  return parts;
}

function lotteriesPart(setting, lotteries) {
  const all = [...lotteries.values()];
  const used = setting.outcomes.map((_, outcome) => outcome).filter((outcome) => all.some((each) => !each[outcome].isZero()));
  const unused = setting.outcomes.filter((_, outcome) => !used.includes(outcome));
  const fixed = profilesOf(setting.agents.slice(0, -2));
  const left = fixed.length - MOST_PICTURES;
  return make(
    "div",
    {},
    legend(setting.outcomes, used),
    unused.length > 0 && paragraph(`Never chosen: ${unused.join(", ")}.`),
    make("div", { class: "flow" }, fixed.slice(0, MOST_PICTURES).map((each) => lotteryFigure(setting, lotteries, each))),
    left > 0 && paragraph(`${left} more pictures are left out. The text below has all chances.`),
  );
}

/** Payments by profile: with two agents a square for each, else a row for each profile. */
function paymentsPart(setting, payments, word) {
  const amounts = [...payments.values()].flat();
  if (amounts.every((amount) => amount.isZero())) {
    return paragraph("Nobody pays anything at any profile.");
  }
  const { agents } = setting;
  if (agents.length === 2) {
    return make("div", { class: "flow" }, agents.map((_, agent) => paymentSquare(agents, payments, agent, word)));
  }
  const heads = [...agents.map(({ name }) => name), ...agents.map(({ name }) => `#${name} pays`)];
  const rows = profilesOf(agents).map((types) => [...types.map(head), ...payments.get(types.join(",")).map(amountCell)]);
  const short = shortened(rows);
  return table(`${word}s by report`, heads, short.rows, short.note);
}

function paymentSquare([first, second], payments, agent, word) {
  const heads = [`${first.name} \u2193 ${second.name} \u2192`, ...second.types.map((type) => `#${type}`)];
  const rows = first.types.map((row) => [
    head(row),
    ...second.types.map((column) => amountCell(payments.get(`${row},${column}`)[agent])),
  ]);
  return table(`${word} of ${[first, second][agent].name}`, heads, rows);
}

function widePart(records) {
  const paths = withWord(records, "wide");
  if (paths.length === 0) {
    return null;
  }
  const again = records.findIndex(([word]) => word === "again");
  const counts = [0, 1].map(
    (path) => records.filter(([word], place) => word === "pivot" && (again < 0 || place < again) === (path === 0)).length,
  );
  const rows = paths.map(([row, column, top, bottom], path) => [
    head(path === 0 ? "forward" : "backward"),
    number(counts[path]),
    number(row),
    number(column),
    number(overText(top, bottom)),
  ]);
  const caption = "Where the numbers grew too wide";
  return folded(caption, table(caption, ["Path", "#Pivots", "#Row", "#Column", "#Entry"], rows));
}

// --- auctions -------------------------------------------------------------------------------------------------------------------

/** What `units` prints. */
export function unitsView(records, { setting, names = [], values }) {
  const parts = auctionParts(records, setting, BigInt(values.units));
  return view(reserveVerdict(records, setting), parts, multipliersPart(records, names), widePart(records));
}

function auctionParts(records, setting, units = 1n) {
  const interim = firstWith(records, "interim");
  if (setting === null || interim === undefined) {
    return [];
  }
  const names = setting.values.map(String);
  const [odds, pays] = ["odds", "pays"].map((word) => fractionsOf(firstWith(records, word), interim[0]));
  const rows = names.map((name, place) => [
    head(name),
    number(setting.weights[place]),
    amountCell(odds[place]),
    amountCell(pays[place]),
    perWin(odds[place], pays[place]),
  ]);
  return [
    make("h3", {}, "Odds and payments by value"),
    oddsAndPays("bidder", names, odds, pays),
    table("Odds and payments", ["Value", "#Weight", "#Wins", "#Pays on average", "#Pays for each win"], rows),
    massesPart(records, setting, interim[0], units),
  ];
}

/** The pictures of how often somebody wins and what it pays, by its value or type. */
function oddsAndPays(who, names, odds, pays) {
  return make(
    "div",
    { class: "flow" },
    barsFigure(`How often ${who === "bidder" ? "a bidder" : who} wins`, names, odds, new Fraction(1n)),
    barsFigure(`What ${who === "bidder" ? "a bidder" : who} pays on average`, names, pays),
  );
}

function perWin(odds, pays) {
  return odds.isZero() ? "" : amountCell(pays.over(odds));
}

/** Who wins, by how many bidders have each value. */
export function massesPart(records, setting, denominator, units = 1n) {
  const size = setting.values.length;
  const rows = withWord(records, "mass").map((fields) =>
    massRow(setting, fields.slice(0, size), fields.slice(size), { denominator, units }),
  );
  const goes = units === 1n ? "Goes to a bidder with" : "Units that go to bidders with";
  return foldedTable("Who wins, by the values that are there", ["Bidders", goes, units === 1n ? "#Is kept" : "#Are kept"], rows);
}

function massRow({ values, weights }, counts, masses, { denominator, units }) {
  const weight = weightOf(weights, counts.map(BigInt));
  const shares = masses.map((mass) => new Fraction(BigInt(mass), weight * BigInt(denominator)));
  const bidders = counts.flatMap((count, place) => (count === "0" ? [] : [`${count} with ${values[place]}`]));
  const goes = shares.flatMap((share, place) => (share.isZero() ? [] : [`${values[place]}: ${shortText(share)}`]));
  return [head(bidders.join(", ")), goes.join(", ") || make("span", { class: "soft" }, "nobody"), amountCell(rest(units, shares))];
}

/** What is left of so much. */
function rest(whole, shares) {
  return new Fraction(whole).plus(sum(shares).times(new Fraction(-1n)));
}

/** The weight of the profiles with these counts. */
function weightOf(weights, counts) {
  let [weight, placed] = [1n, 0n];
  counts.forEach((count, place) => {
    for (let k = 1n; k <= count; k += 1n) {
      placed += 1n;
      weight = (weight * placed * weights[place]) / k;
    }
  });
  return weight;
}

// --- sales ----------------------------------------------------------------------------------------------------------------------

/** What `asym` prints. */
export function asymView(records, { setting }) {
  const interim = firstWith(records, "interim");
  const isShown = setting !== null && interim !== undefined;
  const names = isShown ? saleNames(records, setting.agents) : [];
  return view(
    verdictOf(records),
    isShown && setting.agents.map((agent) => bidderPart(records, agent, interim[0])),
    isShown && salesPart(records, setting, interim[0]),
    multipliersPart(records, names),
    widePart(records),
  );
}

function bidderPart(records, { name, types }, denominator) {
  const [odds, pays] = ["odds", "pays"].map((word) => {
    const [, ...fields] = withWord(records, word).find(([agent]) => agent === name);
    return fractionsOf(fields, denominator);
  });
  const rows = types.map((type, place) => [head(type), amountCell(odds[place]), amountCell(pays[place]), perWin(odds[place], pays[place])]);
  const caption = `Odds and payments of ${name}`;
  return make(
    "div",
    {},
    make("h3", {}, name),
    oddsAndPays(name, types, odds, pays),
    folded(caption, table(caption, ["Type", "#Wins", "#Pays on average", "#Pays for each win"], rows)),
  );
}

/** How often each bidder has the item, by what all report, and how often it is kept. */
function salesPart(records, setting, denominator) {
  const { agents } = setting;
  const rows = withWord(records, "mass").map((fields) => {
    const types = fields.slice(0, agents.length);
    const weight = weightOfProfile(setting, types);
    const shares = fields.slice(agents.length).map((mass) => (weight ? new Fraction(BigInt(mass), weight * BigInt(denominator)) : null));
    return [...types.map(head), ...shares.map((share) => (share ? amountCell(share) : "")), weight ? amountCell(rest(1n, shares)) : ""];
  });
  const heads = [...agents.map(({ name }) => name), ...agents.map(({ name }) => `#${name} has it`), "#Is kept"];
  return foldedTable("Who has the item, by report", heads, rows);
}

/** The names of the conditions of a sale, in the order of its program. */
function saleNames(records, agents) {
  const truths = agents.flatMap(({ name, types }) =>
    types.flatMap((type) => types.filter((other) => other !== type).map((other) => `truth/${name}/${type}/${other}`)),
  );
  const rational = agents.flatMap(({ name, types }) => types.map((type) => `rational/${name}/${type}`));
  return [...truths, ...rational, ...cutNames(records)];
}
