// Conditions of the designer: what their records say, and what the page shows of an answer under them.

import { amountCell, amountParts } from "./amounts.js";
import { head, make, number, table } from "./dom.js";
import { Fraction } from "./fraction.js";
import { withWord } from "./records.js";
import { profilesOf } from "./setting.js";

const WORDS = ["revenue", "welfare", "utility", "chance", "at", "pay"];

/** The conditions of an answer: the records behind the first one, up to one of another word. */
export function conditionsOf(records) {
  const end = records.findIndex(([word], place) => place > 0 && !WORDS.includes(word));
  return records.slice(1, end < 0 ? records.length : end);
}

/** The records of an answer without its conditions, some of whose words come again. */
export function withoutConditions(records) {
  return [...records.slice(0, 1), ...records.slice(1 + conditionsOf(records).length)];
}

/** The names of the rows of conditions, in their order: one for each condition, but for `pay` one for each profile that it is about. */
export function conditionRowNames(conditions, setting) {
  return conditions.flatMap((condition) => {
    const name = condition.slice(0, -2).join("/");
    return condition[0] === "pay" && setting ? paidAt(condition, setting).map((types) => `${name}/${types.join("+")}`) : [name];
  });
}

function paidAt([, agent, ...fields], { agents }) {
  const place = agents.findIndex(({ name }) => name === agent);
  const type = fields.length === 4 ? fields[0] : null;
  return profilesOf(agents).filter((types) => type === null || types[place] === type);
}

const MEASURES = {
  revenue: () => "Revenue",
  welfare: () => "Welfare",
  utility: (agent) => `What ${agent} gets`,
  chance: (outcome) => `How often ${outcome} comes`,
  at: (profile, outcome) => `How often ${outcome} comes at ${profile}`,
  pay: (agent, type) => `What ${agent} pays${type ? ` with ${type}` : " everywhere"}`,
};

/** What a condition says, in words without its bound. */
export function conditionText([word, ...fields]) {
  const [side] = fields.slice(-3);
  return `${MEASURES[word](...fields.slice(0, -3))} is at ${side}`;
}

/** The conditions of an answer, each with its bound and, where one is told, its shadow. */
export function conditionsPart(records) {
  const conditions = conditionsOf(records);
  if (conditions.length === 0) {
    return [];
  }
  const shadows = new Map(withWord(records, "shadow").map(([place, ...fields]) => [Number(place), new Fraction(...fields)]));
  const isTold = shadows.size > 0;
  const rows = conditions.map((condition, place) => [
    head(conditionText(condition)),
    amountCell(new Fraction(...condition.slice(-2))),
    ...(isTold ? [shadowText(shadows.get(place))] : []),
  ]);
  const heads = ["Condition", "#Bound", ...(isTold ? ["One unit more"] : [])];
  return [make("h3", {}, "Your conditions"), table("Conditions", heads, rows)];
}

/** What one unit more of a bound does to the value, by its shadow; nothing where none is told. */
function shadowText(shadow) {
  if (shadow === undefined) {
    return "";
  }
  if (shadow.isZero()) {
    return "brings nothing";
  }
  const [words, amount] = shadow.isNegative() ? ["costs at least ", shadow.times(new Fraction(-1n))] : ["brings at most ", shadow];
  return [words, ...amountParts(amount)];
}

/** Conditions to begin with: that the first outcome comes half of the time, and where agents pay, that they pay 1 in all. */
export function sampleConditions(setting) {
  const first = setting?.kind === "general" ? setting.outcomes[0] : null;
  const lines = [setting?.hasPayments && "revenue,least,1,1", first && `chance,${first},least,1,2`].filter(Boolean);
  return ["require,1", ...lines, "end", ""].join("\n");
}
