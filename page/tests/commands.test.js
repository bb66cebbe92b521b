import assert from "node:assert/strict";
import { readFileSync } from "node:fs";
import { test } from "node:test";

import { COMMANDS, FIELDS, SECONDS, commandOf, fileOf, fits, nextCommands, takenAs, wordsOf } from "../commands.js";

const repository = (name) => readFileSync(new URL(`../../${name}`, import.meta.url), "utf8");
const general = { kind: "general", kinds: ["general"] };
const sale = { kind: "general", kinds: ["general", "sale"] };
const auction = { kind: "auction", kinds: ["auction"] };

test("each command of the program has an entry, whose parts are known", () => {
  const words = [...repository("crates/md_cli_words/src/command.rt").matchAll(/"(\w+)" => Some/g)].map(([, word]) => word);
  assert.ok(words.includes("solve"));
  assert.deepEqual(words.filter((word) => commandOf(word) === undefined), []);
  for (const { word, label, second, fields, tooWide = [], draws = {} } of COMMANDS) {
    assert.ok(label.length > 0 && label !== word, word);
    assert.ok(second === undefined || second in SECONDS, word);
    assert.ok(fields.every((field) => field in FIELDS), word);
    assert.ok(Object.keys(draws).every((field) => fields.includes(field)), word);
    assert.ok(tooWide.every((next) => commandOf(next)), word);
  }
});

test("the words of each command are those of docs/FORMATS.md", () => {
  const [, listed] = /\n((?: {4}mechdes .*\n)+)/.exec(repository("docs/FORMATS.md"));
  const names = { PROFILE: "p", DRAW1: "d1", DRAW2: "d2", DRAW: "d", W: "w", SETTING: "setting", ANSWER: "second", PIVOTS: "second", ODDS: "second", CONDITIONS: "second" };
  const values = { width: "w", units: "n", ofUnits: "n", number: "n", profile: "p", first: "d1", second: "d2", draw: "d" };
  for (const line of listed.trim().split("\n")) {
    // (the page asks for no basis)
    const [, ...words] = line.replace("[--from BASIS]", "").replace(/[[\]]/g, "").trim().split(/\s+/);
    const expected = words.map((word) => (word === "NUMBER" ? "n" : names[word] ?? word));
    assert.deepEqual(wordsOf(commandOf(words[0]), values), expected, line);
  }
});

test("an option that is left empty is left out", () => {
  const values = { width: "", units: "3", ofUnits: "", number: "7" };
  assert.equal(wordsOf(commandOf("solve"), values).join(" "), "solve setting");
  assert.equal(wordsOf(commandOf("units"), values).join(" "), "units setting 3");
  assert.equal(wordsOf(commandOf("units"), { ...values, width: "9" }).join(" "), "units setting 3 --width 9");
  assert.equal(wordsOf(commandOf("report"), values).join(" "), "report setting second");
  assert.equal(wordsOf(commandOf("make"), values).join(" "), "make 7");
});

test("how many units an answer is about is said of auctions alone", () => {
  const values = { profile: "a,b", first: "5", second: "0", ofUnits: "3" };
  for (const setting of [auction, null]) {
    assert.equal(wordsOf(commandOf("run"), values, setting).join(" "), "run setting second a,b 5 0 --units 3");
    assert.equal(wordsOf(commandOf("report"), values, setting).join(" "), "report setting second --units 3");
    assert.equal(wordsOf(commandOf("check"), values, setting).join(" "), "check setting second --units 3");
  }
  assert.equal(wordsOf(commandOf("run"), values, sale).join(" "), "run setting second a,b 5 0");
});

test("commands that do not fit a setting are not offered", () => {
  const left = (setting) => COMMANDS.filter((command) => !fits(command, setting)).map(({ word }) => word);
  assert.deepEqual(left(general), ["iron", "threshold", "units", "ironunits", "asym", "realise", "award"]);
  assert.deepEqual(left(sale), ["iron", "threshold", "units", "ironunits", "realise", "award"]);
  assert.deepEqual(left(auction), ["find", "asym", "determ", "fair", "findfair", "require", "determcheck", "audit"]);
  assert.deepEqual(left(null), []);
});

test("what may follow an answer, and where numbers grow too wide", () => {
  for (const [word, status, setting, words] of [
    ["solve", 12, general, "find"],
    ["solve", 12, sale, "find asym"],
    ["solve", 12, auction, "iron threshold"],
    ["fair", 12, general, "findfair"],
    ["asym", 12, sale, "find"],
    ["units", 12, auction, "threshold ironunits"],
    ["ironunits", 22, auction, "threshold"],
    ["iron", 22, auction, "threshold"],
    ["determ", 12, general, ""],
    ["find", 22, general, ""],
    ["check", 22, general, ""],
    ["find", 0, general, "check audit run report"],
    ["find", 10, general, "check"],
    ["solve", 11, general, "check audit run report"],
    ["solve", 0, auction, "check run report"],
    ["fair", 0, general, "check audit run report"],
    ["fair", 11, general, "check audit run report"],
    ["fair", 10, general, "check"],
    ["findfair", 0, sale, "check audit run report"],
    ["findfair", 10, general, "check"],
    ["require", 0, general, "check audit run report"],
    ["require", 11, general, "check audit run report"],
    ["require", 10, general, "check"],
    ["require", 22, general, ""],
    ["asym", 0, sale, "check run report"],
    ["units", 0, auction, "check run report"],
    ["ironunits", 0, auction, "check run report"],
    ["determ", 0, general, "determcheck"],
    ["threshold", 0, auction, "award"],
    ["solve", 65, general, ""],
    ["check", 0, general, ""],
  ]) {
    const next = nextCommands(commandOf(word), status, setting).map((command) => command.word);
    assert.equal(next.join(" "), words, `${word} ${status} ${setting.kinds}`);
  }
});

test("a text is there for each command that reads it", () => {
  assert.deepEqual(takenAs("answer"), ["answer", "mechanism", "drawn", "reported"]);
  assert.deepEqual(takenAs("fairest"), ["answer", "mechanism", "drawn", "reported"]);
  for (const kind of ["reported", "rule", "pivots", "odds"]) {
    assert.deepEqual(takenAs(kind), [kind]);
  }
  const readers = (kind) => COMMANDS.filter(({ second }) => takenAs(kind).includes(second)).map(({ word }) => word);
  assert.deepEqual(readers("answer"), ["check", "audit", "run", "report"]);
  assert.deepEqual(readers("fairest"), ["check", "audit", "run", "report"]);
  assert.deepEqual(readers("mechanism"), ["audit", "run", "report"]);
  assert.deepEqual(readers("sale"), ["check", "run", "report"]);
  assert.deepEqual(readers("units"), ["check", "run", "report"]);
  assert.deepEqual(readers("drawn"), ["run", "report"]);
  assert.deepEqual(readers("reported"), ["report"]);
});

test("what a command printed is saved by the names of the examples", () => {
  for (const [word, file] of [
    ["solve", "vote-answer.csv"],
    ["find", "vote-found.csv"],
    ["fair", "vote-fairest.csv"],
    ["require", "vote-required.csv"],
    ["determ", "vote-rule.csv"],
    ["report", "vote-report.csv"],
    ["drill", "drill.csv"],
    ["make", "setting.toml"],
  ]) {
    assert.equal(fileOf(commandOf(word), "vote"), file);
  }
});
