import assert from "node:assert/strict";
import { test } from "node:test";

import { cellsOfTables, picturesOf } from "./elements.js";
import { answerView, asymView, determView, findView, unitsView } from "../answers.js";
import { awardView, thresholdView } from "../awards.js";
import { recordsOf } from "../records.js";
import { readSetting } from "../setting.js";
import { showsExact } from "../amounts.js";
import { checkView, determCheckView, realiseView, reportView, runView } from "../views.js";

const AUCTION = readSetting("kind = 'auction'\nbidders = 2\nvalues = [1, 3]\nweights = [1, 1]\n");
const SALE = readSetting(
  "outcomes = ['keep', 'a', 'b']\n[[agent]]\nname = 'x'\ntypes = ['l', 'h']\nweights = [1, 2]\n[[agent]]\nname = 'y'\ntypes = ['m']\nweights = [3]\n",
  true,
);

test("an optimal answer of a general setting tells its value, and the chances in words", () => {
  const setting = readSetting("outcomes = ['keep', 'sell']\npayments = true\n[[agent]]\nname = 'buyer'\ntypes = ['low', 'high']\nweights = [1, 1]\n");
  const text = "answer,1,general,optimal\nvalue,3,2\ntable,1\nlottery,low,1,0\nlottery,high,0,1\npay,low,0\npay,high,3\nbound,2\nrow,1,0,1\nend\n";
  const view = answerView(recordsOf(text), { setting, names: ["first", "second"] });
  assert.equal(view.large, "Value 1.5");
  assert.equal(view.shown.map((each) => each.textContent ?? each).join(""), "Value 1.5 3/2");
  assert.equal(view.kind, "good");
  assert.deepEqual(picturesOf(view), ["buyer low: keep 1. buyer high: sell 1."]);
  assert.deepEqual(cellsOfTables(view), [[["low", "0"], ["high", "3"]], [["1", "second", "0.5 1/2"]]]);
});

test("where there is no answer, the view says so", () => {
  assert.equal(findView(recordsOf("undecided\n"), { setting: AUCTION }).large, "Undecided");
  assert.equal(answerView(recordsOf("answer,1,general,infeasible\nrow,0,1\nend\n"), { setting: AUCTION }).large, "No rule meets these conditions");
});

test("units that nobody gets are kept", () => {
  // Three units at a profile with one bidder of each value, of weight 2: the higher value gets one always, the lower one half the time.
  const text = "answer,1,units,optimal\nvalue,1,1\ninterim,4\nodds,2,4\npays,2,8\nmass,1,1,4,8\nend\n";
  const [odds, masses] = cellsOfTables(unitsView(recordsOf(text), { setting: AUCTION, values: { units: "3" } }));
  assert.deepEqual(odds, [["1", "1", "0.5 1/2", "0.5 1/2", "1"], ["3", "1", "1", "2", "2"]]);
  assert.deepEqual(masses, [["1 with 1, 1 with 3", "1: 0.5, 3: 1", "1.5 3/2"]]);
});

test("a sale is shown by bidder, and by what all report", () => {
  // The weights of the profiles are 3 and 6. At l the item goes to y one time in three, at h to x always.
  const text = "answer,1,asym,optimal\nvalue,5,1\ninterim,3\nodds,x,0,3\nodds,y,1\npays,x,0,6\npays,y,2\nmass,l,m,0,3\nmass,h,m,18,0\ncut,4\nbound,2\nrow,0,0,3\nrow,4,0,1\nrow,5,0,1\nend\n";
  const view = asymView(recordsOf(text), { setting: SALE });
  const [first, second, sales, multipliers] = cellsOfTables(view);
  assert.deepEqual(first, [["l", "0", "0", ""], ["h", "1", "2", "2"]]);
  assert.deepEqual(second, [["m", "0.3333 1/3", "0.6667 2/3", "2"]]);
  assert.deepEqual(sales, [["l", "m", "0", "0.3333 1/3", "0.6667 2/3"], ["h", "m", "1", "0", "0"]]);
  assert.deepEqual(multipliers, [["0", "truth/x/l/h", "1.5 3/2"], ["4", "rational/y/m", "0.5 1/2"], ["5", "cut/4", "0.5 1/2"]]);
});

test("the rule of a search tree is shown without those of its leaves", () => {
  const setting = readSetting("outcomes = ['a', 'b']\n[[agent]]\nname = 'x'\ntypes = ['t']\nweights = [1]\n");
  const text = "answer,1,determ,optimal\nvalue,4,1\ntable,1\nlottery,t,0,1\nbranch,0\nleaf,infeasible\nrow,0,1\n" +
    "leaf,optimal\ntable,1\nlottery,t,1,0\nbound,1\nrow,0,0,1\nend\n";
  const view = determView(recordsOf(text), { setting });
  assert.deepEqual(picturesOf(view), ["x t: b 1."]);
  assert.ok(view.content.at(-1).textContent.includes("1 branch and 2 leaves"));
});

test("an award says who wins, what winners pay, and who shares", () => {
  const values = { units: "2", profile: "6,3,3,2" };
  const text = "chance,1,1,1\nchance,2,1,2\nchance,3,1,2\nchance,4,0,1\nprice,1,5,2\nprice,2,2,1\nprice,3,2,1\nwins,1\nwins,3\nend\n";
  const view = awardView(recordsOf(text), { values });
  assert.equal(view.large, "Bidders 1 and 3 win");
  assert.equal(view.words, "Losers pay nothing. Bidders 2 and 3 share what is left for them: the draw, from 0 to 1, decides.");
  assert.deepEqual(cellsOfTables(view)[0], [
    ["Bidder 1", "6", "yes", "2.5 5/2", "1"],
    ["Bidder 2", "3", "no", "0", "0.5 1/2"],
    ["Bidder 3", "3", "yes", "2", "0.5 1/2"],
    ["Bidder 4", "2", "no", "0", "0"],
  ]);
  assert.deepEqual(picturesOf(view), ["Bidder 1: 6, pays 5/2. Bidder 2: 3. Bidder 3: 3, pays 2. Bidder 4: 2."]);
});

test("an award of one winner names it with its price, and one of nobody says why", () => {
  const one = recordsOf("chance,1,0,1\nchance,2,1,1\nprice,2,3,1\nwins,2\nend\n");
  assert.equal(awardView(one, { values: { units: "1", profile: "1,5" } }).large, "Bidder 2 wins and pays 3");
  const none = awardView(recordsOf("chance,1,0,1\nend\n"), { values: { units: "1", profile: "1" } });
  assert.deepEqual([none.large, none.words], ["Nobody wins", "No bid reaches the reserve price, and nobody pays anything."]);
});

test("prices are told by pools", () => {
  const text = "threshold,1\nunits,1\nvalue,3,1\nrevenue,3,1\nwelfare,4,1\nreserve,2\npool,2,3\npool,6,6\n" +
    "price,0,none,0,2,1\nprice,0,0,1,2,1\nprice,1,none,0,2,1\nprice,1,0,1,4,1\nprice,1,1,1,6,1\nend\n";
  const view = thresholdView(recordsOf(text), { values: { units: "1" } });
  assert.equal(view.large, "Reserve 2");
  assert.ok(view.words.startsWith("No bid below 2 wins: that is the reserve price."));
  assert.equal(view.content[0].textContent, "Treated alike: 2 to 3.");
  assert.deepEqual(picturesOf(view), ["none: 2. 2 to 3: 4. 6: 6."]);
  assert.deepEqual(cellsOfTables(view)[0], [
    ["2 to 3", "nobody reaches the reserve", "2"],
    ["2 to 3", "2 to 3: 1 of them", "2"],
    ["6", "nobody reaches the reserve", "2"],
    ["6", "2 to 3: 1 of them", "4"],
    ["6", "6: 1 of them", "6"],
  ]);
});

test("both checkers have their own reasons", () => {
  const rejected = recordsOf("rejected,11,2\n");
  const checked = (records, judged) => checkView(records, { judged });
  assert.ok(determCheckView(rejected).words.includes("not on one outcome"));
  assert.ok(checked(rejected, "answer,1,determ,optimal\n").words.includes("not on one outcome"));
  assert.ok(checked(rejected, "answer,1,fair,optimal\n").words.includes("level"));
  assert.ok(checked(recordsOf("rejected,2,3,2\n"), "answer,1,general,optimal\n").words.includes("another one than"));
  assert.equal(checked(recordsOf("valid\n"), "").kind, "good");
});

test("a report tells what is broken, and a run who has the item", () => {
  const text = "value,2,1\nrevenue,2,1\nwelfare,3,2\ntype,buyer,low,0,1,0,1\ngain,buyer,high,low,high,1,1\nloss,buyer,high,0,1\nend\n";
  const [types, worst] = cellsOfTables(reportView(recordsOf(text), { setting: null }));
  assert.deepEqual(types, [["buyer: low", "0", "0"]]);
  assert.deepEqual(worst.map((row) => row.slice(2)), [["1", "broken"], ["0", "met"]]);
  assert.equal(runView(recordsOf("outcome,2\npays,10,15,33\n"), { setting: AUCTION }).large, "Bidder 2");
});

test("a run tells who gets a unit", () => {
  const view = (text) => runView(recordsOf(text), { setting: AUCTION });
  const both = view("wins,1\nwins,2\npays,4,2,5\n");
  assert.deepEqual([both.large, both.words], ["Bidders 1, 2", "Each of them gets a unit."]);
  assert.deepEqual(cellsOfTables(both), [[["bidder 1", "0.5 1/2"], ["bidder 2", "1.25 5/4"]]]);
  assert.equal(view("wins,2\npays,4,2,5\n").large, "Bidder 2");
  assert.equal(view("pays,4,0,0\n").large, "Nobody");
});

test("a run of a sale names who has the item", () => {
  const view = runView(recordsOf("outcome,b\npays,2,0,3\n"), { setting: SALE });
  assert.deepEqual([view.large, ...cellsOfTables(view)], ["b", [["x", "0"], ["y", "1.5 3/2"]]]);
});

test("a report tells the sets of cuts that hold with equality", () => {
  const told = (type, tight, setting) => {
    const text = `value,1,1\nrevenue,1,1\nwelfare,1,1\ntype,${type},0,1,0,1\n${tight}end\n`;
    return reportView(recordsOf(text), { setting }).content.at(-1).querySelectorAll("li").map(({ textContent }) => textContent);
  };
  assert.deepEqual(told("x,l", "tight,rational/x/l\ntight,cut/1\ntight,cut/6\n", SALE), ["rational/x/l", "cut/1: x l", "cut/6: x h, y m"]);
  assert.deepEqual(told("1", "tight,cut/2\ntight,cut/3\n", AUCTION), ["cut/2: 3", "cut/3: 1, 3"]);
});

test("a report under conditions of the designer tells which are met", () => {
  // The price 3 brings it half of the time.
  const text = "value,3,2\nrevenue,3,2\nwelfare,3,2\ntype,buyer,low,0,1,0,1\ncondition,0,met,3,2\ncondition,1,missed,3,1\nend\n";
  const [, stands] = cellsOfTables(reportView(recordsOf(text), { setting: null }));
  assert.deepEqual(stands, [["condition/0", "1.5 3/2", "met"], ["condition/1", "3", "missed"]]);
});

test("a report of an auction tells of its values", () => {
  // Where the winner pays its own bid: with 3 a bidder has nothing, and by the report 1 it has (3 - 1)/4.
  const text = "value,5,2\nrevenue,5,2\nwelfare,5,2\ntype,1,0,1,1,4\ntype,3,0,1,9,4\ngain,3,1,1,2\nloss,1,0,1\ntight,rational/1\ntight,rational/3\nend\n";
  const view = reportView(recordsOf(text), { setting: AUCTION });
  assert.equal(view.large, "Value 2.5");
  const [types, worst] = cellsOfTables(view);
  assert.deepEqual(types, [["1", "0", "0.25 1/4"], ["3", "0", "2.25 9/4"]]);
  assert.deepEqual(worst.map((row) => row.slice(1)), [["3/1", "0.5 1/2", "broken"], ["1", "0", "met"]]);
});

test("odds that no auction has are told by their values", () => {
  for (const told of [realiseView, reportView]) {
    const view = told(recordsOf("violated,3,16,4\n"), { setting: AUCTION });
    assert.deepEqual([view.large, view.kind, view.content], ["Violated", "bad", []]);
    assert.equal(view.words[0], "No auction has these odds: bidders with the values 1, 3 ask for more than there is, by ");
    assert.ok(told(recordsOf("violated,2,4,4\n"), { setting: AUCTION }).words[0].includes("the value 3 ask"));
    assert.ok(told(recordsOf("violated,3,16,4\n"), { setting: null }).words[0].includes("the set 3 ask"));
  }
});

test("where exact numbers are asked for, no decimal is shown", () => {
  showsExact(true);
  const view = runView(recordsOf("outcome,b\npays,2,0,3\n"), { setting: SALE });
  const report = reportView(recordsOf("value,5,2\nrevenue,5,2\nwelfare,3,1\nend\n"), { setting: null });
  showsExact(false);
  assert.deepEqual(cellsOfTables(view), [[["x", "0"], ["y", "3/2"]]]);
  assert.deepEqual([report.large, report.words], ["Value 5/2", "Revenue 5/2, welfare 3."]);
});

test("the best auction is told by its reserve", () => {
  const told = (odds) => {
    const text = `answer,1,auction,optimal\nvalue,5,2\ninterim,4\nodds,${odds}\npays,0,8\nmass,2,0,0,0\nend\n`;
    return answerView(recordsOf(text), { setting: AUCTION });
  };
  assert.equal(told("0,3").large, "Reserve 3");
  assert.ok(told("0,3").words.startsWith("Value 2.5 (5/2). Optimal:"));
  assert.equal(told("1,3").large, "No reserve");
  assert.equal(told("0,0").large, "Nothing is ever sold");
});
