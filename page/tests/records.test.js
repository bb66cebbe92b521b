import assert from "node:assert/strict";
import { test } from "node:test";

import { byProfile, firstWith, fractionsOf, recordsOf, withWord } from "../records.js";

const RECORDS = recordsOf("answer,1,general,table\ntable,4\nlottery,a,x,1,3\nlottery,a,y,4,0\nend\n");

test("records are found by their word", () => {
  assert.equal(RECORDS.length, 5);
  assert.deepEqual(withWord(RECORDS, "lottery"), [["a", "x", "1", "3"], ["a", "y", "4", "0"]]);
  assert.deepEqual(firstWith(RECORDS, "table"), ["4"]);
  assert.equal(firstWith(RECORDS, "value"), undefined);
});

test("numbers stand over their denominator", () => {
  assert.equal(fractionsOf(["2", "-3"], "4").join(" "), "1/2 \u22123/4");
  const lotteries = byProfile(RECORDS, "lottery", 2);
  assert.deepEqual([...lotteries].map(([names, chances]) => `${names}: ${chances.join(" ")}`), ["a,x: 1/4 3/4", "a,y: 1 0"]);
});
