import assert from "node:assert/strict";
import { test } from "node:test";

import { drawnBelow, rangeOfAward, rangeOfFirst, rangeOfSecond } from "../draws.js";

const auction = { kind: "auction", values: [2n, 3n, 6n], weights: [2n, 1n, 1n] };

test("a general answer has as many draws as its denominator says", () => {
  assert.equal(rangeOfFirst({ setting: { kind: "general" }, reports: ["a"], second: "answer,1,general,table\ntable,24\nend\n" }), 24n);
  assert.equal(rangeOfFirst({ setting: { kind: "general" }, reports: ["a"], second: "" }), 0n);
});

test("an auction has as many as the weight of the profiles with the same counts", () => {
  const second = "answer,1,auction,optimal\nvalue,3,1\ninterim,8\nend\n";
  assert.equal(rangeOfFirst({ setting: auction, reports: ["2", "3"], second }), 32n);
  assert.equal(rangeOfFirst({ setting: auction, reports: ["2", "2"], second }), 32n);
  assert.equal(rangeOfFirst({ setting: auction, reports: ["3", "6"], second }), 16n);
});

test("with several units there are as many as the parts of the masses", () => {
  // The draws of examples/seats.md.
  const seats = { kind: "auction", values: [1n, 2n, 3n], weights: [1n, 1n, 1n] };
  const second = "answer,1,units,optimal\nvalue,484,81\ninterim,135\nend\n";
  assert.equal(rangeOfFirst({ setting: seats, reports: ["2", "2", "2", "2", "3"], second }), 18711000n);
});

test("a sale has as many as the weight of the profile", () => {
  const agents = [{ name: "x", types: ["l", "h"], weights: [1n, 2n] }, { name: "y", types: ["m", "k"], weights: [3n, 1n] }];
  const second = "answer,1,asym,optimal\nvalue,5,1\ninterim,2\nend\n";
  assert.equal(rangeOfFirst({ setting: { kind: "general", agents }, reports: ["h", "m"], second }), 12n);
  const joint = agents.map(({ name, types }) => ({ name, types }));
  assert.equal(rangeOfFirst({ setting: { kind: "general", agents: joint, prior: [3n, 1n, 6n, 2n] }, reports: ["h", "k"], second }), 4n);
  assert.equal(rangeOfFirst({ setting: { kind: "general", agents }, reports: ["h", "m"], second: "table,4\n" }), 4n);
});

test("the second draw is among those who report what the winner reports", () => {
  const reports = ["6", "3", "6"];
  assert.equal(rangeOfSecond({ setting: auction, reports, printed: "outcome,1\npays,8,1,1,1\n" }), 2n);
  assert.equal(rangeOfSecond({ setting: auction, reports, printed: "outcome,2\n" }), 1n);
  assert.equal(rangeOfSecond({ setting: auction, reports, printed: "outcome,keep\n" }), 1n);
  assert.equal(rangeOfSecond({ setting: auction, reports, printed: "wins,1\nwins,3\npays,8,1,1,1\n" }), 1n);
});

test("an award is drawn among those whose chance is neither 0 nor 1", () => {
  assert.equal(rangeOfAward({ printed: "chance,1,1,1\nchance,2,1,2\nchance,3,1,2\nchance,4,0,1\nend\n" }), 2n);
  assert.equal(rangeOfAward({ printed: "chance,1,1,1\nchance,2,0,1\nend\n" }), 1n);
});

test("a draw is below its range", () => {
  const drawn = new Set(Array.from({ length: 200 }, () => drawnBelow(3n)));
  assert.deepEqual([...drawn].toSorted(), [0n, 1n, 2n]);
});
