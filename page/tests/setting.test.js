import assert from "node:assert/strict";
import { readFileSync } from "node:fs";
import { test } from "node:test";

import { profilesOf, readSetting, remarkOf, reportersOf, summaryOf } from "../setting.js";

const example = (name) => readFileSync(new URL(`../../examples/${name}.toml`, import.meta.url), "utf8");

test("a general setting has its names, and an auction its values", () => {
  const { agents, outcomes, hasPayments } = readSetting(example("posted-price"));
  assert.deepEqual([agents, outcomes, hasPayments], [[{ name: "buyer", types: ["low", "high"], weights: [1n, 1n] }], ["keep", "sell"], true]);
  const { bidders, values, weights } = readSetting(example("auction-ironed"));
  assert.deepEqual([bidders, values, weights], [2, [2n, 3n, 6n], [2n, 1n, 1n]]);
  assert.equal(readSetting("kind = "), null);
  assert.deepEqual([readSetting(example("vote")).kinds, readSetting(example("vote"), true).kinds], [["general"], ["general", "sale"]]);
});

test("bidders may report each value, and agents their types", () => {
  const auction = reportersOf(readSetting("kind = 'auction'\nbidders = 2\nvalues = [4, 9]\nweights = [1, 1]\n"));
  assert.deepEqual(auction, [{ name: "Bidder 1", types: ["4", "9"] }, { name: "Bidder 2", types: ["4", "9"] }]);
  assert.deepEqual(reportersOf(readSetting(example("posted-price"))).map(({ name, types }) => [name, types]), [["buyer", ["low", "high"]]]);
});

test("profiles come with the last type changing fastest", () => {
  const agents = [{ types: ["a", "b"] }, { types: ["x", "y", "z"] }];
  assert.equal(profilesOf(agents).map((profile) => profile.join("")).join(" "), "ax ay az bx by bz");
});

test("a setting in a few words", () => {
  assert.equal(summaryOf(readSetting(example("divorce"))), "a general setting, 2 agents, 4 profiles, 4 outcomes");
  assert.equal(summaryOf(readSetting(example("auction-single"))), "an auction, 1 bidder, 4 values");
});

test("a remark leads to no file that is not there", () => {
  const head = "# One item.\n#   It may\n# be sold. The page auction-cuts.md tells more. So be it.\nkind = 1\n# No head.\n";
  assert.equal(remarkOf(head), "One item. It may be sold. So be it.");
  assert.equal(remarkOf("kind = 1\n# No head.\n"), "");
});
