// The records that the program prints. It quotes nothing, so that a comma is always between two fields.

import { Fraction } from "./fraction.js";

/** The records of a text, as lists of fields. */
export function recordsOf(text) {
  return text.split("\n").filter((line) => line !== "").map((line) => line.split(","));
}

/** The records with a word, without it. */
export function withWord(records, word) {
  return records.filter((record) => record[0] === word).map((record) => record.slice(1));
}

/** The first record with a word, without it, or undefined. */
export function firstWith(records, word) {
  return withWord(records, word)[0];
}

/** The fields as fractions over a denominator. */
export function fractionsOf(fields, denominator) {
  return fields.map((field) => new Fraction(field, denominator));
}

/** The numbers of the records of a word, by profile: a map from the joined names to a list of fractions. */
export function byProfile(records, word, agentCount) {
  const [denominator] = firstWith(records, "table") ?? ["1"];
  return new Map(
    withWord(records, word).map((fields) => [
      fields.slice(0, agentCount).join(","),
      fractionsOf(fields.slice(agentCount), denominator),
    ]),
  );
}
