import assert from "node:assert/strict";
import { test } from "node:test";

import { fragmentOf, partsOf } from "../link.js";

test("a setting and its question come back from a link", async () => {
  const setting = 'kind = "auction"\n# \u00fc & = # ?\n';
  const fragment = await fragmentOf({ ask: "award", profile: "3,5", setting });
  assert.match(fragment, /^#[\w=&%.-]+$/);
  assert.deepEqual(await partsOf(fragment), { ask: "award", profile: "3,5", setting });
});

test("an example is named", async () => {
  assert.equal(await fragmentOf({ ask: "solve", example: "vote" }), "#ask=solve&example=vote");
  assert.deepEqual(await partsOf("#ask=solve&example=vote"), { ask: "solve", example: "vote" });
});

test("a fragment with no setting is no question", async () => {
  assert.equal(await partsOf(""), null);
  assert.equal(await partsOf("#answer"), null);
});

test("what is no packed setting is an error, and so is one that is too long", async () => {
  await assert.rejects(partsOf("#setting=abc"));
  await assert.rejects(partsOf("#setting=*"));
  await assert.rejects(fragmentOf({ setting: "x".repeat(3 << 20) }).then(partsOf), RangeError);
});
