import assert from "node:assert/strict";
import { readFileSync } from "node:fs";
import { test } from "node:test";

import { cellsOfTables, picturesOf } from "./elements.js";
import { requireView } from "../answers.js";
import { SECONDS } from "../commands.js";
import { conditionRowNames, conditionText, conditionsOf, sampleConditions, withoutConditions } from "../conditions.js";
import { recordsOf } from "../records.js";
import { readSetting } from "../setting.js";
import { checkView } from "../views.js";

const example = (name) => readFileSync(new URL(`../../examples/${name}`, import.meta.url), "utf8");
const SETTING = readSetting(example("budget.toml"));
const ANSWER = recordsOf(example("budget-4-required.csv"));

test("the conditions of an answer are told from its payments", () => {
  assert.deepEqual(conditionsOf(ANSWER), [["pay", "bidder", "most", "4", "1"]]);
  assert.deepEqual(withoutConditions(ANSWER).slice(0, 2), [["answer", "1", "required", "optimal"], ["value", "5", "2"]]);
  assert.deepEqual(conditionsOf(recordsOf("answer,1,required,infeasible\nend\n")), []);
});

test("an answer under conditions shows them and the rule", () => {
  const names = [...Array.from({ length: 6 }, (_, row) => `row ${row}`), ...conditionRowNames(conditionsOf(ANSWER), SETTING)];
  const view = requireView(ANSWER, { setting: SETTING, names });
  assert.equal(view.large, "Value 2.5");
  assert.ok(view.words.includes("yours among them"));
  const [conditions, payments, multipliers] = cellsOfTables(view);
  assert.deepEqual(conditions, [["What bidder pays everywhere is at most", "4", "brings at most 0.25 1/4"]]);
  assert.deepEqual(payments, [["low", "1"], ["high", "4"]]);
  assert.deepEqual(multipliers.at(-1), ["7", "pay/bidder/most/high", "0.5 1/2"]);
  assert.deepEqual(picturesOf(view), ["bidder low: keep 1/2, sell 1/2. bidder high: sell 1."]);
});

test("beside each condition stands what one unit more does, where it is told", () => {
  const conditions = "revenue,least,1,1\npay,bidder,most,4,1\nchance,sell,least,1,2\nchance,keep,most,1,1\n";
  const answer = (shadows) => recordsOf(`answer,1,required,optimal\n${conditions}value,5,2\n${shadows}end\n`);
  const cellsOf = (shadows) => cellsOfTables(requireView(answer(shadows), { setting: null }))[0];
  const told = cellsOf("shadow,0,-1,3\nshadow,1,1,4\nshadow,3,0,1\n").map((cells) => cells.at(-1));
  assert.deepEqual(told, ["costs at least 0.3333 1/3", "brings at most 0.25 1/4", "", "brings nothing"]);
  assert.deepEqual(cellsOf("").map((cells) => cells.length), [2, 2, 2, 2]);
});

test("where no rule meets the conditions, or none was found, the view says so", () => {
  const view = requireView(recordsOf(example("revenue-floor-6-required.csv")), { setting: readSetting(example("revenue-floor.toml")) });
  assert.deepEqual([view.large, view.words], ["No rule meets these conditions", "What the setting demands and your conditions cannot hold together."]);
  assert.deepEqual(cellsOfTables(view)[0], [["Revenue is at least", "2"]]);
  assert.equal(requireView(recordsOf("undecided\n"), { setting: SETTING }).large, "Undecided");
  assert.equal(requireView(ANSWER, { setting: null }).kind, "good");
});

test("each condition in words, and the names of its rows", () => {
  const setting = readSetting(example("second-price.toml"));
  for (const [line, text, names] of [
    ["revenue,least,1,2", "Revenue is at least", ["revenue/least"]],
    ["welfare,most,1,2", "Welfare is at most", ["welfare/most"]],
    ["utility,one,least,1,2", "What one gets is at least", ["utility/one/least"]],
    ["chance,keep,most,1,2", "How often keep comes is at most", ["chance/keep/most"]],
    ["at,v1+v2,keep,most,1,2", "How often keep comes at v1+v2 is at most", ["at/v1+v2/keep/most"]],
    ["pay,two,v2,most,1,2", "What two pays with v2 is at most", ["pay/two/v2/most/v1+v2", "pay/two/v2/most/v2+v2"]],
  ]) {
    const [condition] = recordsOf(line);
    assert.equal(conditionText(condition), text);
    assert.deepEqual(conditionRowNames([condition], setting), names);
  }
  const everywhere = conditionRowNames(recordsOf("pay,one,most,1,2"), setting);
  assert.deepEqual(everywhere.map((name) => name.split("/").at(-1)), ["v1+v1", "v1+v2", "v2+v1", "v2+v2"]);
});

test("the field begins with a sample for the setting", () => {
  assert.equal(SECONDS.conditions.sample(SETTING), "require,1\nrevenue,least,1,1\nchance,keep,least,1,2\nend\n");
  assert.equal(sampleConditions(readSetting(example("school-quota.toml"))), "require,1\nchance,ann_north,least,1,2\nend\n");
  assert.equal(sampleConditions(null), "require,1\nend\n");
});

test("a check of such an answer has its own reasons", () => {
  const checked = (text) => checkView(recordsOf(text), { judged: "answer,1,required,optimal\n" });
  assert.ok(checked("rejected,17,0,15,16\n").words.includes("does not meet one of your conditions"));
  for (const line of ["rejected,18,0,-1,3\n", "rejected,18,2\n"]) {
    assert.ok(checked(line).words.includes("the shadow of one of your conditions"));
  }
  assert.equal(checked("valid\n").kind, "good");
});
