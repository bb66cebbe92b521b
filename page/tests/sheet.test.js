import assert from "node:assert/strict";
import { spawnSync } from "node:child_process";
import { readFileSync } from "node:fs";
import { fileURLToPath } from "node:url";
import { test } from "node:test";
import { Script } from "node:vm";

import { COMMANDS, FIELDS, takenAs } from "../commands.js";
import { unpacked } from "../engine.js";

const folder = fileURLToPath(new URL("../", import.meta.url));
const CODE = "import sheet; import sys; sys.stdout.buffer.write(sheet.page(b'module', 'its sum').encode())";

/** The page as sheet.py writes it, with something else in the place of the module, or null where there is no Python. */
function written(seed) {
  const env = { ...process.env, PYTHONPATH: folder, PYTHONDONTWRITEBYTECODE: "1", PYTHONHASHSEED: seed };
  const { error, status, stdout } = spawnSync("python3", ["-c", CODE], { env, encoding: "utf8", maxBuffer: 1 << 26 });
  assert.ok(error || status === 0);
  return error ? null : stdout;
}

const page = written("1");

/** The content of an element of the page with an id. */
const contentOf = (id) => new RegExp(`<script [^>]*id="${id}">\\n?(.*?)\\n?</script>`, "s").exec(page)[1];

test("the page is the same each time that it is written", { skip: page === null }, () => {
  assert.equal(written("2"), page);
  assert.ok(!page.includes("{{"));
  assert.equal(contentOf("worker"), readFileSync(new URL("../worker.js", import.meta.url), "utf8").trim());
});

test("the page unpacks its module", { skip: page === null }, async () => {
  assert.equal(new TextDecoder().decode(await unpacked(contentOf("module"))), "module");
});

test("the page names two sums", { skip: page === null }, () => {
  assert.ok(page.includes('<meta name="mechdes-module" content="its sum">'));
  assert.match(page, /<meta name="mechdes-page" content="[0-9a-f]{64}">/);
});

test("all scripts together are one script", { skip: page === null }, () => {
  const [, script] = /<script type="module">\n(.*?)\n<\/script>/s.exec(page);
  assert.ok(new Script(script));
  assert.ok(!/^(import|export) /m.test(script));
});

test("each setting of the menu has a title and a question, and asks a command", { skip: page === null }, () => {
  const { words, gallery } = JSON.parse(contentOf("contents"));
  assert.ok(words.includes("solve") && gallery.length > 30);
  assert.equal(new Set(gallery.map(({ title }) => title)).size, gallery.length);
  for (const { name, title, question, asks } of gallery) {
    const { ask, ...fields } = asks;
    assert.ok(title && title !== name, name);
    assert.match(question, /\?$/, name);
    assert.ok(COMMANDS.some(({ word }) => word === ask), name);
    assert.ok(Object.keys(fields).every((field) => field in FIELDS), name);
  }
});

test("each file beside a setting is one that a command reads", { skip: page === null }, () => {
  const { gallery } = JSON.parse(contentOf("contents"));
  const seconds = gallery.flatMap((entry) => entry.seconds.map((second) => ({ ...second, of: entry.name })));
  assert.deepEqual(seconds.filter(({ kind }) => takenAs(kind).length === 0), []);
  const own = seconds.filter(({ kind }) => kind === "reported").map(({ of, name }) => `${of} ${name}`);
  assert.deepEqual(own, ["auction-reserve own-first-price.csv", "auction-reserve own-too-often.csv"]);
});
