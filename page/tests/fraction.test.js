import assert from "node:assert/strict";
import { test } from "node:test";

import { Fraction, counted, sum } from "../fraction.js";

const LONG = 2n ** 200n;

test("a fraction is in least terms, with its sign above", () => {
  for (const [top, bottom, text] of [
    [6n, 4n, "3/2"],
    [6n, -4n, "\u22123/2"],
    [-6n, -3n, "2"],
    [0n, -7n, "0"],
    ["-10", "4", "\u22125/2"],
    [3n * LONG, LONG, "3"],
  ]) {
    assert.equal(new Fraction(top, bottom).toString(), text);
  }
});

test("fractions are added, multiplied and divided", () => {
  const [third, half] = [new Fraction(1, 3), new Fraction(-1, 2)];
  assert.equal(`${third.plus(half)}`, "\u22121/6");
  assert.equal(`${third.times(half)}`, "\u22121/6");
  assert.equal(`${third.over(half)}`, "\u22122/3");
  assert.equal(`${sum([third, third, third])}`, "1");
  assert.equal(`${sum([])}`, "0");
  assert.ok(third.plus(new Fraction(-1, 3)).isZero() && half.isNegative() && !third.isNegative());
});

test("a decimal has four digits, and no fewer than two behind the point", () => {
  for (const [top, bottom, text] of [
    [71, 25, "2.84"],
    [1, 2, "0.5"],
    [1, 3, "0.3333"],
    [8, 3, "2.667"],
    [-8, 3, "\u22122.667"],
    [6656936079, 250000000, "26.63"],
    [1, 7000, "0.0001429"],
    [19999, 2000000, "0.01"],
    [9999999, 10000000, "1"],
    [123456, 7, "17636.57"],
    [2469135, 200, "12345.68"],
    [0, 5, "0"],
    [600, 2, "300"],
  ]) {
    assert.equal(new Fraction(top, bottom).toDecimal(), text);
  }
});

test("a place is right for numbers of any length", () => {
  assert.equal(new Fraction(LONG, 4n * LONG).toPlace(), 0.25);
  assert.ok(Math.abs(new Fraction(LONG + 1n, 3n * LONG).toPlace() - 1 / 3) < 1e-8);
});

test("counts are told in words", () => {
  assert.equal(counted(1, "row"), "1 row");
  assert.equal(counted(1234, "row"), "1,234 rows");
  assert.equal(counted(2, "entry", "entries"), "2 entries");
});
