// What the page shows of the texts of commands that judge, run or study a rule: first in a few words, then as tables.

import { amountCell, amountParts, amountText } from "./amounts.js";
import { massesPart } from "./answers.js";
import { folded, head, make, number, table } from "./dom.js";
import { Fraction } from "./fraction.js";
import { firstWith, fractionsOf, withWord } from "./records.js";
import { MOST_ROWS, amountVerdict, brokenName, fractionWith, overText, paragraph, shortened, verdict, view } from "./verdicts.js";

/** What `realise` prints. */
export function realiseView(records, { setting }) {
  if (firstWith(records, "violated")) {
    return violatedView(records, setting);
  }
  const [denominator] = firstWith(records, "realise");
  const words = "An auction has these odds. The table says when the item goes to which value.";
  return view(verdict("Realised", words, "good"), setting && massesPart(records, setting, denominator));
}

/** Which values ask for too much. */
function violatedView(records, setting) {
  const [set, excess, denominator] = firstWith(records, "violated");
  const words = `No auction has these odds: bidders with ${setWords(set, setting)} ask for more than there is, by `;
  return view(verdict("Violated", [words, ...amountParts(new Fraction(excess, denominator)), " in profiles, by weight."], "bad"));
}

/** The members of a set: values of an auction, or types of agents of a sale. */
function membersOf(set, setting) {
  const pairs = (setting?.agents ?? []).flatMap(({ name, types }) => types.map((type) => `${name} ${type}`));
  const all = setting?.values?.map(String) ?? pairs;
  return all.filter((_, place) => (BigInt(set) >> BigInt(place)) & 1n);
}

function setWords(set, setting) {
  const found = membersOf(set, setting);
  return found.length > 0 ? `the value${found.length > 1 ? "s" : ""} ${found.join(", ")}` : `the set ${set}`;
}

// --- the other commands ---------------------------------------------------------------------------------------------------------

const REJECTED = {
  1: "the mechanism breaks a condition of the setting",
  2: "the value is another one than the mechanism's",
  3: "the multipliers of a condition are negative",
  4: "the multipliers do not cover the cost of a column",
  5: "the face multipliers do not add up",
  6: "the bound of the multipliers is not the value",
  7: "the added payments break a condition",
  8: "the added payments gain nothing",
  9: "the masses of a value or a type do not make its odds",
  10: "the odds and pays break a condition",
};

/** A view of what a checker prints, which has reasons of its own beside those of both. */
function checking(own) {
  const reasons = { ...REJECTED, ...own };
  return (records) => {
    const [word, reason, ...numbers] = records[0];
    if (word === "valid") {
      return view(verdict("Valid", "What the answer claims is so.", "good"));
    }
    if (word === "undecided") {
      return view(verdict("Undecided", "The answer claims nothing that could be checked."));
    }
    return view(verdict("Rejected", `Condition ${reason} fails: ${reasons[reason] ?? "see the text"}. ${numbers.join(", ")}`, "bad"));
  };
}

const checkedView = checking({
  11: "the level of the mechanism has more than 62 bits",
  17: "the mechanism does not meet one of your conditions",
  18: "the shadow of one of your conditions is told otherwise than the multipliers say",
});

/** What `determcheck` prints. */
export const determCheckView = checking({
  11: "the lottery at a profile is not on one outcome",
  12: "the mechanism breaks a condition of the setting",
  13: "the value is another one than the mechanism's",
  14: "the certificate of a leaf does not hold",
  15: "a leaf is worth more than the mechanism",
  16: "the ray is not certified",
});

/** What `check` prints of the answer that is judged. */
export function checkView(records, { judged }) {
  return (judged.startsWith("answer,1,determ,") ? determCheckView : checkedView)(records);
}

/** What `audit` prints. */
export function auditView(records) {
  const [word, name, left, right] = records[0];
  if (word === "admissible") {
    return view(verdict("Admissible", "The mechanism meets all conditions of the setting, and yours where the answer has some.", "good"));
  }
  const words = ["The first condition that is broken is ", make("code", {}, brokenName(name)), `: ${left} is not at least ${right}.`];
  return view(verdict("Broken", words, "bad"));
}

/** What `rows` prints: the conditions as sums over columns. */
export function rowsView(records) {
  const [columns, count] = firstWith(records, "program");
  const words = `${Number(count).toLocaleString("en")} conditions on ${Number(columns).toLocaleString("en")} columns.`;
  const rows = withWord(records, "row").slice(0, MOST_ROWS);
  const body = rows.map(([index, name, kind, right, ...terms]) => [
    number(index),
    make("code", {}, brokenName(name)),
    make("code", {}, termsText(terms)),
    kind === "exact" ? "=" : "\u2264",
    number(right),
  ]);
  const note = Number(count) > MOST_ROWS ? `the first ${MOST_ROWS}; the text has all` : "";
  const cost = firstWith(records, "cost") ?? [];
  return view(
    verdict("Linear program", words),
    paragraph("To be as great as can be: ", make("code", {}, termsText(cost) || "0")),
    table("Conditions", ["#Row", "Condition", "Sum", "", "#Bound"], body, note),
  );
}

function termsText(fields) {
  const terms = [];
  for (let k = 0; k + 1 < fields.length; k += 2) {
    const isNegative = fields[k + 1].startsWith("-");
    const size = fields[k + 1].replace("-", "");
    const sign = k === 0 ? (isNegative ? "\u2212" : "") : isNegative ? "\u2212 " : "+ ";
    terms.push(`${sign}${size === "1" ? "" : `${size}\u00b7`}x${fields[k]}`);
  }
  return terms.join(" ");
}

/** What `replay` prints. */
export function replayView(records) {
  const bases = withWord(records, "basis");
  const wide = firstWith(records, "wide");
  const [byRule, byOther] = [firstWith(records, "rule")[0], firstWith(records, "again")[0]];
  const words = `${byRule} of the pivots are those of the forward path, ${byOther} those of the backward path.`;
  const rows = bases.map((fields) => fields.map(number));
  const short = shortened(rows);
  return view(
    verdict(wide ? "Too wide" : "Carried out", words, wide ? "bad" : "good"),
    wide && paragraph("The first entry that is too wide: row ", wide[0], ", column ", wide[1], ", ", overText(wide[2], wide[3]), "."),
    table("Bases", ["#Basis", "#Denominator", "#Greatest size"], short.rows, short.note),
  );
}

/** What `run` prints: an outcome, or where there are several units who gets one. */
export function runView(records, { setting }) {
  const outcome = firstWith(records, "outcome");
  const pays = firstWith(records, "pays");
  const found = outcome ? outcomeVerdict(outcome[0], setting) : winnersVerdict(withWord(records, "wins").flat());
  if (!pays) {
    return view(found);
  }
  const amounts = fractionsOf(pays.slice(1), pays[0]);
  const names = setting?.agents?.map(({ name }) => name) ?? amounts.map((_, place) => `bidder ${place + 1}`);
  const rows = amounts.map((amount, place) => [head(names[place]), amountCell(amount)]);
  return view(found, table("Payments", ["Agent", "#Pays"], rows));
}

function outcomeVerdict(outcome, setting) {
  if (setting?.kind !== "auction") {
    return verdict(outcome, "This outcome comes.");
  }
  return outcome === "keep" ? verdict(outcome, "The item is kept.") : verdict(`Bidder ${outcome}`, "This bidder gets the item.");
}

function winnersVerdict(winners) {
  if (winners.length === 0) {
    return verdict("Nobody", "All units are kept.");
  }
  const isOne = winners.length === 1;
  return verdict(`Bidder${isOne ? "" : "s"} ${winners.join(", ")}`, isOne ? "This bidder gets a unit." : "Each of them gets a unit.");
}

/** What `report` prints: in each record names come first, and then fractions as pairs of fields. */
export function reportView(records, { setting }) {
  if (firstWith(records, "violated")) {
    return violatedView(records, setting);
  }
  const [value, revenue, welfare] = ["value", "revenue", "welfare"].map((word) => fractionWith(records, word));
  const types = withWord(records, "type").map((fields) => {
    const [gets, pays] = [fields.slice(-4, -2), fields.slice(-2)].map((pair) => amountCell(new Fraction(...pair)));
    return [head(fields.slice(0, -4).join(": ")), gets, pays];
  });
  const worst = ["gain", "loss", "deficit"].flatMap((word) => withWord(records, word).map((fields) => worstRow(word, fields)));
  const stands = withWord(records, "condition").map(standingRow);
  const tight = withWord(records, "tight").map(([name]) => make("li", {}, make("code", {}, brokenName(name)), cutWords(name, setting)));
  return view(
    amountVerdict("Value", value, `Revenue ${amountText(revenue)}, welfare ${amountText(welfare)}.`),
    table("What each type gets and pays on average", ["Type", "#Gets", "#Pays"], types),
    worst.length > 0 && table("The worst of each condition", ["What", "Where", "#By", ""], worst),
    stands.length > 0 && table("Your conditions", ["Condition", "#Amount", ""], stands.slice(0, MOST_ROWS)),
    tight.length > 0 && folded(`Conditions that hold with equality: ${tight.length}`, make("ul", {}, tight.slice(0, MOST_ROWS))),
  );
}

/** What the set of a cut has, by the name of the condition; nothing of another one. */
function cutWords(name, setting) {
  const [word, set] = name.split("/");
  return word === "cut" && `: ${membersOf(set, setting).join(", ")}`;
}

const WORST = { gain: "most gained by a false report", loss: "most missed of the outside utility", deficit: "least that all pay together" };

function worstRow(word, fields) {
  const amount = new Fraction(...fields.slice(-2));
  const isBroken = word === "deficit" ? amount.isNegative() : !amount.isNegative() && !amount.isZero();
  const where = make("code", {}, brokenName(fields.slice(0, -2).join("/")));
  return [head(WORST[word]), where, amountCell(amount), isBroken ? make("strong", {}, "broken") : "met"];
}

/** How the mechanism stands against a condition of the designer, which is named as `audit` names it. */
function standingRow([index, word, ...amount]) {
  const name = make("code", {}, brokenName(`condition/${index}`));
  return [name, amountCell(new Fraction(...amount)), word === "met" ? word : make("strong", {}, word)];
}

/** A text of which the page knows no more. */
export function textView() {
  return view(verdict("Done", "What the program prints stands below."));
}

/** What `make` prints. */
export function makeView() {
  return view(verdict("A setting", "It stands below, and in the editor once you put it there."));
}

/** What `drill` prints. */
export function drillView(records) {
  const [, kind, word, ...value] = firstWith(records, "drill");
  const [checked] = firstWith(records, "check");
  const words = `The setting is ${kind === "auction" ? "an auction" : "general"}, its answer ${word}, and ${checked}.`;
  return view(value.length > 0 ? amountVerdict("Value", new Fraction(...value), words, "good") : verdict(word, words, "good"));
}
