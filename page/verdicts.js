// The parts that views are made of: what an answer says in a few words, and tables of its records.

import { amountCell, amountParts, shortText } from "./amounts.js";
import { breakable, folded, make, number, table } from "./dom.js";
import { Fraction } from "./fraction.js";
import { firstWith, withWord } from "./records.js";

export const MOST_ROWS = 200;
const PLAIN_ROWS = 12; // a longer table is folded away where it is no part of the answer itself

/** What stands above a view: the answer in a few words in large letters, and what that says. `shown` has the elements of the large
 * letters where they are more than their text. */
export function verdict(large, words, kind = "", shown = [breakable(large)].flat()) {
  return { kind, large, words, shown };
}

/** The same, where an amount is what was asked for. */
export function amountVerdict(title, amount, words, kind = "") {
  return verdict(`${title} ${shortText(amount)}`, words, kind, [`${title} `, ...amountParts(amount)]);
}

export function view(found, ...content) {
  return { ...found, content: content.flat().filter(Boolean) };
}

export function paragraph(...content) {
  return make("p", {}, ...content);
}

/** The first rows of a table, and how many are left out. */
export function shortened(rows) {
  const left = rows.length - MOST_ROWS;
  return { rows: rows.slice(0, MOST_ROWS), note: left > 0 ? `the first ${MOST_ROWS}, ${left.toLocaleString("en")} left out` : "" };
}

export function foldedTable(caption, heads, rows) {
  const short = shortened(rows);
  const made = table(caption, heads, short.rows, short.note);
  return rows.length <= PLAIN_ROWS ? made : folded(`${caption} (${rows.length.toLocaleString("en")} rows)`, made);
}

/** The fraction of a record with a word, of its two fields. */
export function fractionWith(records, word) {
  const found = firstWith(records, word);
  return found && new Fraction(...found);
}

/** An entry over the denominator of its dictionary: it is its size before any reduction that counts. */
export function overText(top, bottom) {
  return `${top}/${bottom}`.replace("-", "\u2212");
}

/** A name of a condition may break behind a stroke or a plus sign. */
export function brokenName(name) {
  return name.split(/(?<=[/+])/).flatMap((part, place) => (place ? [make("wbr"), part] : [part]));
}

/** The conditions with a multiplier: they show that nothing is better, or that there is nothing. */
export function multipliersPart(records, names) {
  const rows = withWord(records, "row");
  if (rows.length === 0) {
    return null;
  }
  const [bound] = firstWith(records, "bound") ?? [null];
  const hasFace = rows.some(([, face]) => face !== "0");
  const heads = ["#Row", "Condition", ...(hasFace ? ["#Face"] : []), ...(bound ? ["#Multiplier"] : [])];
  const body = rows.map(([index, face, main]) => [
    number(index),
    make("code", {}, brokenName(names[Number(index)] ?? "")),
    ...(hasFace ? [number(face.replace("-", "\u2212"))] : []),
    ...(bound ? [amountCell(new Fraction(main, bound))] : []),
  ]);
  const caption = bound ? "What shows that nothing is better" : "What shows that there is none";
  return folded(`${caption}: ${rows.length} multipliers`, table(caption, heads, body.slice(0, MOST_ROWS)));
}

/** The names of all conditions, as `rows` prints them, those of an answer's own cuts behind the first conditions of an auction. */
export function conditionNames(rowRecords, answerRecords) {
  const names = withWord(rowRecords, "row").map(([, name]) => name);
  const cuts = cutNames(answerRecords);
  return cuts.length > 0 ? [...names.filter((name) => !name.startsWith("cut/")), ...cuts] : names;
}

export function cutNames(records) {
  return withWord(records, "cut").map(([set]) => `cut/${set}`);
}
