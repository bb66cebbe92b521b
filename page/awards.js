// What the page shows of an auction in which winners alone pay: its prices, and at some bids who wins and pays what.

import { amountCell, amountText } from "./amounts.js";
import { foldedLater, head, make, number, table } from "./dom.js";
import { Fraction } from "./fraction.js";
import { barsFigure, bidsFigure } from "./pictures.js";
import { firstWith, recordsOf, withWord } from "./records.js";
import { foldedTable, fractionWith, multipliersPart, paragraph, verdict, view } from "./verdicts.js";

const PRICE_WORDS = [
  "Winners alone pay, never more than they bid, and to bid the true value is best whatever the others bid.",
  "No other way to sell has a greater value.",
];

/** What `threshold` prints. */
export function thresholdView(records, { values }) {
  const pools = withWord(records, "pool");
  const [revenue, welfare] = ["revenue", "welfare"].map((word) => fractionWith(records, word));
  const value = fractionWith(records, "value");
  const sums = `Value ${amountText(value)}, revenue ${amountText(revenue)}, welfare ${amountText(welfare)}.`;
  const words = [reserveWords(records), ...PRICE_WORDS, sums].join(" ");
  const pooled = pools.filter(([least, most]) => least !== most).map(poolText);
  return view(
    verdict(reserveTitle(records), words, "good"),
    pooled.length > 0 && paragraph(`Treated alike: ${pooled.join("; ")}.`),
    pricesFigure(records, pools),
    pricesPart(records, pools),
    values.units !== "1" && paragraph("With several units a winner pays by the bids of the others: Award tells the prices at some bids."),
  );
}

function reserveTitle(records) {
  const [reserve] = firstWith(records, "reserve");
  return reserve === "none" ? "Never sold" : `Reserve ${reserve}`;
}

function reserveWords(records) {
  const [reserve] = firstWith(records, "reserve");
  return reserve === "none" ? "The item is never sold." : `No bid below ${reserve} wins: that is the reserve price.`;
}

/** What a bidder of the highest pool pays where it wins, by the best one among the others, of which there is one. */
function pricesFigure(records, pools) {
  const prices = withWord(records, "price").filter(([pool, , count]) => Number(pool) === pools.length - 1 && Number(count) <= 1);
  const names = prices.map(([, other]) => (other === "none" ? "none" : poolText(pools[Number(other)])));
  const amounts = prices.map(([, , , top, bottom]) => new Fraction(top, bottom));
  return prices.length > 0 && barsFigure(`What a bid of ${poolText(pools.at(-1))} pays, by the best other bid`, names, amounts);
}

/** What a winner pays, by the best one among the others. */
function pricesPart(records, pools) {
  const prices = withWord(records, "price");
  const rows = prices.map(([pool, other, count, top, bottom]) => [
    head(poolText(pools[Number(pool)])),
    other === "none" ? "nobody reaches the reserve" : `${poolText(pools[Number(other)])}: ${count} of them`,
    amountCell(new Fraction(top, bottom)),
  ]);
  return rows.length > 0 && foldedTable("What a winner pays", ["Its bid", "The best of the others", "#Pays"], rows);
}

function poolText([least, most]) {
  return least === most ? least : `${least} to ${most}`;
}

/** What `award` prints: an auction house. */
export function awardView(records, context) {
  const bids = context.values.profile.split(",");
  const bidders = withWord(records, "chance").map(([name, ...chance]) => ({
    name: `Bidder ${name}`,
    bid: new Fraction(bids[Number(name) - 1]),
    chance: new Fraction(...chance),
    price: priceOf(records, name),
    wins: withWord(records, "wins").some(([winner]) => winner === name),
  }));
  const winners = bidders.filter(({ wins }) => wins);
  const rows = bidders.map(({ name, bid, chance, price, wins }) => [
    head(name),
    amountCell(bid),
    wins ? make("strong", {}, "yes") : "no",
    wins ? amountCell(price) : number("0"),
    amountCell(chance),
  ]);
  return view(
    verdict(winnersText(winners), wordsFor(winners, bidders), winners.length > 0 ? "good" : ""),
    bidsFigure("What each bidder bids, and what winners pay of it", bidders),
    table("The award", ["Bidder", "#Bid", "Wins", "#Pays", "#Chance to win"], rows),
    foldedLater("What shows that no other way to sell brings more", () => certificate(context)),
  );
}

function priceOf(records, bidder) {
  const found = withWord(records, "price").find(([name]) => name === bidder);
  return found ? new Fraction(...found.slice(1)) : null;
}

function winnersText(winners) {
  if (winners.length === 0) {
    return "Nobody wins";
  }
  return winners.length === 1 ? `${winners[0].name} wins and pays ${amountText(winners[0].price)}` : `${together(winners)} win`;
}

/** Several bidders in words. */
function together(bidders) {
  const names = bidders.map(({ name }) => name.replace("Bidder ", ""));
  return `Bidders ${names.slice(0, -1).join(", ")} and ${names.at(-1)}`;
}

function wordsFor(winners, bidders) {
  const shared = bidders.filter(({ chance }) => !chance.isZero() && chance.toString() !== "1");
  const pays = winners.length === 0 ? "No bid reaches the reserve price, and nobody pays anything." : "Losers pay nothing.";
  if (shared.length === 0) {
    return pays;
  }
  return `${pays} ${together(shared)} share what is left for them: the draw, from 0 to ${shared.length - 1}, decides.`;
}

function valueWords(records) {
  return `Value ${amountText(fractionWith(records, "value"))}`;
}

/** What shows that the rule is best: its prices, and an answer with multipliers that is checked. */
async function certificate({ call, values, namesFor }) {
  const isOne = values.units === "1";
  const prices = await call(["threshold", "setting", values.units]);
  const answer = await call(isOne ? ["iron", "setting"] : ["ironunits", "setting", values.units]);
  const check = ["check", "setting", "second", ...(isOne ? [] : ["--units", values.units])];
  const checked = answer.status === 0 ? await call(check, answer.out) : null;
  const records = recordsOf(prices.out);
  const parts = [prices.status === 0 && paragraph(`${reserveWords(records)} ${valueWords(records)}.`)];
  if (answer.status !== 0) {
    return [...parts, paragraph("The multipliers of this setting are too long to be printed. That no rule brings more is proved of the program.")];
  }
  const found = recordsOf(answer.out);
  const bound = valueWords(found);
  const words = `The multipliers below add the conditions of the setting up to a bound on every rule: ${bound}.`;
  const judged = checked ? ` The checker says: ${checked.out.trim()}.` : "";
  return [...parts, paragraph(words, judged), multipliersPart(found, await namesFor(found))];
}
