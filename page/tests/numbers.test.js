import assert from "node:assert/strict";
import { readFileSync, readdirSync } from "node:fs";
import { test } from "node:test";

import { cellsOf, numberTables, shapeOf, withNumber, withValueAdded, withoutLastValue } from "../numbers.js";
import { readToml } from "../toml.js";

const examples = new URL("../../examples/", import.meta.url);
const AUCTION = "kind = 'auction'\nbidders = 2 # two\nvalues = [\n  1,\n  30,\n]\nweights = [5, 7] # in all 12\nkeep = 3\n";

test("the numbers of an auction have names, places and bounds", () => {
  const cells = cellsOf(numberTables(AUCTION));
  assert.deepEqual(
    cells.map(({ label, amount, least, most }) => [label, amount, least, most]),
    [
      ["Value 1", 1, 0, 29],
      ["Value 2", 30, 2, 60],
      ["Weight of the value 1", 5, 1, 14],
      ["Weight of the value 30", 7, 1, 14],
      ["Bidders", 2, 1, 12],
      ["Worth to the seller", 3, 0, 10],
    ],
  );
  assert.ok(cells.every(({ amount, start, end }) => AUCTION.slice(start, end) === String(amount)));
});

test("a number is changed where it stands, and nothing else is", () => {
  const cells = cellsOf(numberTables(AUCTION));
  assert.equal(withNumber(AUCTION, cells[3], 1000), AUCTION.replace("7", "1000"));
  assert.equal(shapeOf(numberTables(withNumber(AUCTION, cells[3], 1000))), shapeOf(numberTables(AUCTION)));
});

test("a value is added above the others, and the last one removed", () => {
  const more = withValueAdded(AUCTION);
  assert.deepEqual([...readToml(more).values, ...readToml(more).weights], [1, 30, 59, 5, 7, 7]);
  const less = withoutLastValue(more);
  assert.equal(less, AUCTION);
  const one = withoutLastValue(less);
  assert.equal(withoutLastValue(one), one);
});

test("a general setting has a table for each agent, its objective and joint weights", () => {
  const text = "outcomes = ['a', 'b']\nprior = [1, 2]\n[objective]\nrevenue = 1\nvalue = [0, -4]\n" +
    "[[agent]]\nname = 'x'\ntypes = ['l', 'h']\nutility = [[0, 1], [0, 9]]\noutside = [2, 3]\n";
  const tables = numberTables(text).map(({ title, heads, rows }) => [title, heads, rows.map(({ cells }) => cells.map(({ amount }) => amount))]);
  assert.deepEqual(tables, [
    ["x", ["Outside", "a", "b"], [[2, 0, 1], [3, 0, 9]]],
    ["Joint weights", ["Weight"], [[1], [2]]],
    ["Objective", ["Revenue", "a", "b"], [[1, 0, -4]]],
  ]);
  assert.deepEqual(cellsOf(numberTables(text)).filter(({ least }) => least < 0).map(({ label }) => label), ["Designer's value of a", "Designer's value of b"]);
});

test("all examples have their numbers", () => {
  for (const name of readdirSync(examples).filter((file) => file.endsWith(".toml"))) {
    const text = readFileSync(new URL(name, examples), "utf8");
    const cells = cellsOf(numberTables(text));
    assert.ok(cells.length > 0, name);
    assert.ok(cells.every(({ amount, start, end, label }) => Number(text.slice(start, end)) === amount && label), name);
  }
});

test("a text that cannot be read has none", () => {
  assert.deepEqual(numberTables("kind = "), []);
});
