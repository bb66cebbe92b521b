import assert from "node:assert/strict";
import { test } from "node:test";

import { PLACES, readToml } from "../toml.js";

/** What a text is read as, with ordinary objects for its tables. */
const read = (text) => JSON.parse(JSON.stringify(readToml(text)));

test("keys, numbers, truth values and texts", () => {
  const text = 'a = 1_000 # a remark\n"b c" = -2\nd.e = true\nf = \'as \\ it is\'\ng = "\\u00e9\\n\\"" \n';
  assert.deepEqual(read(text), { a: 1000, "b c": -2, d: { e: true }, f: "as \\ it is", g: '\u00e9\n"' });
});

test("texts of several lines", () => {
  assert.deepEqual(read('a = """\none\\\n   two\n"""\nb = """"quoted""""\n'), { a: "onetwo\n", b: '"quoted"' });
});

test("lists over several lines, and tables in one", () => {
  const text = "a = [\n  [1, 2], # first\n  [],\n]\nb = { c = [true], d.e = 'x' }\n";
  assert.deepEqual(read(text), { a: [[1, 2], []], b: { c: [true], d: { e: "x" } } });
});

test("heads open tables and lists of tables", () => {
  const text = "\ufeff[objective]\nrevenue = 1\n[[agent]]\nname = 'a'\n[[agent]]\nname = 'b'\n[agent.more]\nx = 0\n";
  assert.deepEqual(read(text), { objective: { revenue: 1 }, agent: [{ name: "a" }, { name: "b", more: { x: 0 } }] });
});

test("a key of every object is a key like others", () => {
  assert.deepEqual(Object.entries(readToml("__proto__ = 1\ntoString = 2\n")), [["__proto__", 1], ["toString", 2]]);
});

test("values can be made with their kinds and places", () => {
  const text = '\ufeffa = [1, -20] # 3\nb = true\nc = "4"\nd = 1.5\ne = 1979-05-27\n';
  const { a, b, c, d, e } = readToml(text, (kind, found, start, end) => [kind, text.slice(start, end)]);
  const kinds = [["integer", "1"], ["integer", "-20"], ["truth value", "true"], ["text", '"4"'], ["float", "1.5"], ["date", "1979-05-27"]];
  assert.deepEqual([...a, b, c, d, e], kinds);
});

test("lists, tables and keys have their places", () => {
  const top = readToml("a = [\n]\n[b]\nc = 1\n");
  assert.deepEqual([top.a[PLACES].at, top.b[PLACES].at, top.b[PLACES].keys.get("c")], [4, 8, 12]);
});

test("what has no end is no document", () => {
  for (const text of ['a = "', "a = [1", "a", "a = {", "a = b", "a = 1 2", "a = 1\na = 2", "[a]\n[a]", "a = [1 2]", "[a", "= 1"]) {
    assert.throws(() => readToml(text), SyntaxError, text);
  }
});
