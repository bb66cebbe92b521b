// How amounts are shown: as a decimal with the exact fraction beside it, or exact alone, as the reader wants it.

import { breakable, make, number } from "./dom.js";

let isExact = false;

/** Shows amounts exact alone from now on, or not. */
export function showsExact(isWanted) {
  isExact = isWanted;
}

function isPlain(amount) {
  return isExact || amount.denominator === 1n;
}

/** An amount where room is short: as a decimal, or exact. */
export function shortText(amount) {
  return isPlain(amount) ? `${amount}` : amount.toDecimal();
}

/** An amount in a sentence: as a decimal with the exact fraction behind it, or exact. */
export function amountText(amount) {
  return isPlain(amount) ? `${amount}` : `${amount.toDecimal()} (${amount})`;
}

/** The same as elements, of which the fraction is the smaller one. */
export function amountParts(amount) {
  const exact = [breakable(`${amount}`)].flat();
  return isPlain(amount) ? exact : [amount.toDecimal(), " ", make("span", { class: "exact" }, exact)];
}

/** The same as a cell of a table. */
export function amountCell(amount) {
  return number(amountParts(amount));
}
