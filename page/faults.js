// What a second reading of a refused call finds, and the table of sentences that it is told by, which the launcher and the package for
// Python read too: python/mechdes/refusals/sentences.json.

import { clipped } from "./toml.js";

/** The table, which `useSentences` fills. */
export const TABLE = {};

export function useSentences(table) {
  Object.assign(TABLE, table);
}

/** Something that is wrong: the name of its sentence, and what stands in it. `at` is its place in the text of a file, where it is known,
 * `place` what stands in front of the sentence, and all else is in the sentence. */
export function fault(sentence, { at = null, place = "", ...fields } = {}) {
  return { sentence, at, place, fields };
}

/** The sentence of a fault. */
export function faultText({ sentence, place, fields }) {
  const filledIn = { meant: "", others: "", label: "", of: "", ...fields };
  return place + withFields(TABLE.sentences[sentence], filledIn);
}

/** A text with fields in its places, which are written as in Python: `{name}`, and `}}` for a brace. */
export function withFields(text, fields) {
  return text.replace(/\{\{|\}\}|\{(\w+)\}/g, (piece, name) => (name ? fields[name] : piece[0]));
}

/** How many letters must be changed, added, left out or exchanged with the next one to make one word of another (Damerau). */
export function distance(one, other) {
  const rows = [[...Array(other.length + 1).keys()]];
  for (let i = 0; i < one.length; i += 1) {
    const row = [i + 1];
    [...other].forEach((wanted, j) => {
      const costs = [rows[i][j] + (one[i] === wanted ? 0 : 1), rows[i][j + 1] + 1, row[j] + 1];
      const isExchanged = i > 0 && j > 0 && one[i] === other[j - 1] && one[i - 1] === wanted;
      row.push(Math.min(...costs, ...(isExchanged ? [rows[i - 1][j - 1] + 1] : [])));
    });
    rows.push(row);
  }
  return rows.at(-1).at(-1);
}

/** The known word that was most likely meant: at a distance of at most 2, and below half the length of the word. */
export function nearest(word, known) {
  const near = known.filter((each) => Math.abs(word.length - each.length) <= 2).map((each) => [distance(word, each), each]);
  const least = Math.min(3, ...near.map(([far]) => far));
  return least <= 2 && 2 * least < word.length ? near.find(([far]) => far === least)[1] : null;
}

/** The question whether a word is meant, which ends a sentence; nothing where none is near. */
export function askedBack(meant) {
  return meant === null ? "" : `: is ${meant} meant?`;
}

/** The same of a word of a file, in quotes. */
export function askedFor(meant) {
  return askedBack(meant === null ? null : quoted(meant));
}

export function quoted(text) {
  return `"${clipped(text)}"`;
}

export function grouped(count) {
  return count.toLocaleString("en");
}

/** The numbers from one to another. */
export function between(least, most) {
  return least === most ? grouped(least) : `${grouped(least)} to ${grouped(most)}`;
}

/** Words with commas between them, and another one before the last. */
export function joinedWords(words, last = "or") {
  return words.length === 1 ? `${words[0]}` : `${words.slice(0, -1).join(", ")} ${last} ${words.at(-1)}`;
}
