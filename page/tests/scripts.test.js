import assert from "node:assert/strict";
import { readFileSync, readdirSync } from "node:fs";
import { test } from "node:test";

const page = new URL("../", import.meta.url);

test("each element that a script looks for is in the page", () => {
  const html = readFileSync(new URL("index.html", page), "utf8");
  const made = ["chance"];
  for (const file of readdirSync(page).filter((name) => name.endsWith(".js"))) {
    const text = readFileSync(new URL(file, page), "utf8");
    for (const [, id] of text.matchAll(/byId\("([\w-]+)"\)/g)) {
      assert.ok(html.includes(`id="${id}"`) || made.includes(id), `${id} in ${file}`);
    }
  }
});
