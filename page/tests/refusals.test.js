import assert from "node:assert/strict";
import { existsSync, readFileSync } from "node:fs";
import { test } from "node:test";

import { TABLE, nearest, useSentences } from "../faults.js";
import { asSentence, explained } from "../refusals.js";

const read = (path) => readFileSync(new URL(`../../${path}`, import.meta.url), "utf8");

useSentences(JSON.parse(read("python/mechdes/refusals/sentences.json")));

const unescaped = (text) => text.replaceAll("\\n", "\n");

/** The files with one of them changed, or another one. */
function changed(files, change) {
  const [, whole, text] = /^(\S+) = (.*)$/.exec(change) ?? [];
  const [, name, old, made = ""] = /^(\S+): (.*) ->(?: (.*))?$/.exec(change) ?? [];
  if (name === undefined) {
    return { ...files, [whole]: unescaped(text) };
  }
  assert.equal(files[name].split(unescaped(old)).length, 2, change);
  return { ...files, [name]: files[name].replace(unescaped(old), () => unescaped(made)) };
}

/** The wrong inputs that the tests of the package read too. */
function cases() {
  const known = {};
  const found = [];
  for (const item of read("python/tests/refusals.txt").split(/\n(?=\S)/)) {
    const [head, ...lines] = item.trimEnd().split("\n").map((line) => line.replace(/^ {4}/, ""));
    if (head.startsWith("file ")) {
      known[head.slice(5)] = `${lines.join("\n")}\n`;
    } else if (!head.startsWith("#")) {
      const [line, sentence] = lines.slice(-2);
      found.push({ words: head.split(" "), files: lines.slice(0, -2).reduce(changed, known), line, sentence });
    }
  }
  return found;
}

test("each wrong input has its sentence", () => {
  const all = cases();
  assert.ok(all.length >= 65);
  for (const { words, files, line, sentence } of all) {
    assert.equal(explained(words, `mechdes: ${line}\n`, files)?.text, sentence, `${words.join(" ")}: ${line}`);
  }
});

test("a sentence tells the line, and calls files without names what they are", () => {
  const { files } = cases().find(({ line }) => line === "setting refused: shape");
  const told = explained(["find", "setting"], "mechdes: setting refused: shape\n", { setting: files["rooms.toml"] }, { setting: "" });
  const text = 'the setting, line 21: agent 2 "bob": weights has 2 numbers, and there are 3 types';
  assert.deepEqual(told, { text, line: 21 });
});

test("where nothing is wrong nothing is said", () => {
  const texts = { setting: read("examples/posted-price.toml"), second: read("examples/posted-price-answer.csv") };
  const causes = ["not toml", "missing truth", "wrong kind payments", "unknown word truth", "unknown key", "shape", "sizes", "nothing"];
  for (const cause of causes) {
    assert.equal(explained(["check", "setting", "second"], `setting refused: ${cause}`, texts), null, cause);
  }
  assert.equal(explained(["check", "setting", "second"], "answer refused: line 2: field 2", texts), null);
  assert.equal(explained(["check", "setting", "second"], "want of memory", texts), null);
});

test("the word that was meant is the first of the nearest", () => {
  const known = ["audit", "rows", "run", "solve", "find", "fair"];
  const words = ["fnid", "sovle", "audti", "slve", "x", "ru", "rum", "rowz", "elephant", "finger"];
  const meant = ["find", "solve", "audit", "solve", null, null, "run", "rows", null, null];
  assert.deepEqual(words.map((word) => nearest(word, known)), meant);
  assert.equal(nearest("aaa", ["aac", "aab"]), "aac");
});

test("each refusal of the examples is explained", () => {
  const calls = [...read("examples/calls.txt").matchAll(/^([^|#\n]+) \| (?:65|66|67) \| (.*)$/gm)];
  assert.ok(calls.length > 9);
  for (const [, call, line] of calls) {
    const words = call.split(" ");
    const files = words.filter((word) => existsSync(new URL(`../../examples/${word}`, import.meta.url)));
    const texts = Object.fromEntries(files.map((word) => [word, read(`examples/${word}`)]));
    assert.notEqual(explained(words, line, texts), null, call);
  }
});

test("the table has the commands of the program", () => {
  const words = [...read("crates/md_cli_words/src/command.rt").matchAll(/"(\w+)" => Some/g)].map(([, word]) => word);
  // (`explain` is the launcher's own)
  assert.deepEqual(Object.keys(TABLE.commands), [...words, "explain"]);
});

test("a sentence stands alone", () => {
  assert.deepEqual(["the key is missing", "is `find` meant?"].map(asSentence), ["The key is missing.", "Is `find` meant?"]);
});
