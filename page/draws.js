// Draws by chance: how many there are, and one of them, each as likely as any other.

import { firstWith, recordsOf, withWord } from "./records.js";
import { weightOfProfile } from "./setting.js";

const UNIT_PARTS = 27720n; // of a mass, where there are several units: each number of bidders divides it

/** Of `run`: the denominator of the answer's table; in an auction times the weight of the profiles with the same counts as the reports, of
 * several units in parts, and in a sale times the weight of the profile. */
export function rangeOfFirst({ setting, reports, second }) {
  const records = recordsOf(second);
  const [, kind] = firstWith(records, "answer") ?? [];
  const [denominator] = firstWith(records, "table") ?? firstWith(records, "interim") ?? ["0"];
  if (setting?.kind === "auction") {
    return BigInt(denominator) * weightOfReports(setting, reports) * (kind === "units" ? UNIT_PARTS : 1n);
  }
  return BigInt(denominator) * (setting && kind === "asym" ? weightOfProfile(setting, reports) : 1n);
}

/** Of `run` in an auction: how many bidders report what the bidder reports who would have the item with the second draw 0. */
export function rangeOfSecond({ setting, reports, printed }) {
  const [outcome] = firstWith(recordsOf(printed), "outcome") ?? ["keep"];
  if (setting?.kind !== "auction" || outcome === "keep") {
    return 1n;
  }
  return BigInt(reports.filter((report) => report === reports[Number(outcome) - 1]).length);
}

/** Of `award`: how many bidders share the last units; 1 where nobody does. */
export function rangeOfAward({ printed }) {
  const shared = withWord(recordsOf(printed), "chance").filter(([, top, bottom]) => top !== "0" && top !== bottom);
  return BigInt(Math.max(1, shared.length));
}

/** The weight of the profiles that have the same values as often as these reports. */
function weightOfReports({ values, weights }, reports) {
  let weight = 1n;
  const seen = new Map();
  reports.forEach((report, place) => {
    const many = (seen.get(report) ?? 0n) + 1n;
    seen.set(report, many);
    const at = values.findIndex((value) => String(value) === report);
    weight = (weight * BigInt(place + 1) * (weights[at] ?? 0n)) / many;
  });
  return weight;
}

const WHOLE = 1n << 128n;

/** An even draw from 0 to one below a number: draws beyond the last whole multiple of it are thrown away. */
export function drawnBelow(range) {
  for (;;) {
    const [low, high] = crypto.getRandomValues(new BigUint64Array(2));
    const drawn = (high << 64n) | low;
    if (drawn < WHOLE - (WHOLE % range)) {
      return drawn % range;
    }
  }
}
