// Reads TOML, so that names can stand beside the program's numbers, and a sentence can say which line is wrong. The program judges what
// TOML is; rarer faults (a date that is none, a table that is opened by dotted keys and then by a head) are passed over here.

const ESCAPES = { b: "\b", t: "\t", n: "\n", f: "\f", r: "\r", e: "\u001b", '"': '"', "\\": "\\" };
const HEX_LENGTHS = { x: 2, u: 4, U: 8 };
const GREATEST_LETTER = 0x10ffff;
const BETWEEN = /(?:[ \t\r\n]|#[^\n]*)*/y;
const BLANKS = /[ \t]*/y;
const LINE_END = /[ \t]*(?:#[^\n]*)?(?:\r?\n|$)/y;
const JOINED_LINES = /[ \t]*\r?\n\s*/y;
const BARE_KEY = /[A-Za-z0-9_-]+/y;
const BARE_VALUE = /[^\s,\]}#=]+/y;
const PIECE = /[^\s,[\]{}#=]+|\S/y;
const NO_ELEMENT = /[A-Za-z0-9_.-]+[ \t]*=|\[\[?[A-Za-z_]+\]/y;
const DATE = /\d{4}-\d\d-\d\d(?:[Tt ]\d\d:\d\d[^\s,\]}#]*)?|\d\d:\d\d[^\s,\]}#]*/y;
const INTEGER = /^(?:[+-]?(?:0|[1-9](?:_?\d)*)|0x[\dA-Fa-f](?:_?[\dA-Fa-f])*|0o[0-7](?:_?[0-7])*|0b[01](?:_?[01])*)$/;
const FLOAT = /^[+-]?(?:(?:0|[1-9](?:_?\d)*)(?:\.\d(?:_?\d)*)?(?:[eE][+-]?\d(?:_?\d)*)?|inf|nan)$/;
const MOST_LETTERS = 40; // of a text of the user's in a sentence

/** Where a list or a table stands, and where the keys of a table do: `at`, and `keys`, from each key to its place. */
export const PLACES = Symbol("places");

/** A text of the user's in one line, cut where it is long. */
export function clipped(text) {
  const line = text.trim().split(/\s+/).join(" ");
  return line.length <= MOST_LETTERS ? line : `${line.slice(0, MOST_LETTERS)}..`;
}

/** A text that is no TOML: the name of the sentence that says so, its place in the text, and what stands in the sentence. */
export class NotToml extends SyntaxError {
  constructor(sentence, at, fields) {
    super(`${sentence} at ${at}`);
    Object.assign(this, { sentence, at, fields });
  }
}

/** A place in a text that moves on. */
class Reader {
  constructor(text, made) {
    this.text = text;
    this.at = text.startsWith("\ufeff") ? 1 : 0;
    this.made = made;
  }

  isAtEnd() {
    return this.at >= this.text.length;
  }

  /** Refuses the text for what stands at a place, which is the next one where none is given. */
  fails(sentence, { at = this.at, found = this.nextPiece(), ...more } = {}) {
    throw new NotToml(sentence, at, { found, ...more });
  }

  /** What stands next, to be told. */
  nextPiece() {
    const piece = this.looksFor(PIECE);
    return piece ? `\`${clipped(piece)}\`` : `the end of the ${this.isAtEnd() ? "file" : "line"}`;
  }

  sees(piece) {
    return this.text.startsWith(piece, this.at);
  }

  seesText() {
    return this.sees('"') || this.sees("'");
  }

  /** Passes over a piece where it stands next. */
  passes(piece) {
    const isThere = this.sees(piece);
    this.at += isThere ? piece.length : 0;
    return isThere;
  }

  /** What a pattern with the flag `y` finds next, or null. */
  looksFor(pattern) {
    pattern.lastIndex = this.at;
    return pattern.exec(this.text)?.[0] ?? null;
  }

  /** Passes over what a pattern finds next, and gives it, or nothing. */
  takes(pattern) {
    const found = this.looksFor(pattern) ?? "";
    this.at += found.length;
    return found;
  }
}

/** The letter that an escape behind a backslash stands for. */
function escapedLetter(reader) {
  const at = reader.at - 1;
  const letter = reader.text[reader.at++];
  const length = HEX_LENGTHS[letter] ?? 0;
  const digits = reader.text.slice(reader.at, reader.at + length);
  reader.at += length;
  if (Object.hasOwn(ESCAPES, letter)) {
    return ESCAPES[letter];
  }
  const number = parseInt(digits, 16);
  if (length === 0 || !/^[\dA-Fa-f]*$/.test(digits) || digits.length < length || number > GREATEST_LETTER) {
    reader.fails("toml.escape", { at, found: `\`${reader.text.slice(at, reader.at)}\`` });
  }
  return String.fromCodePoint(number);
}

/** The next letter of a text, or what an escape stands for. In a text of several lines a backslash joins a line with the next. */
function nextLetter(reader, { hasEscapes, isLong }) {
  if (!hasEscapes || !reader.passes("\\")) {
    return reader.text[reader.at++];
  }
  if (isLong && reader.looksFor(JOINED_LINES) !== null) {
    reader.takes(JOINED_LINES);
    return "";
  }
  return escapedLetter(reader);
}

/** A text up to its end quotes. */
function quotedText(reader, quotes) {
  const start = reader.at;
  const kind = { hasEscapes: quotes[0] === '"', isLong: quotes.length === 3 };
  reader.passes(quotes);
  if (kind.isLong) {
    reader.takes(/\r?\n?/y);
  }
  let text = "";
  while (!reader.passes(quotes)) {
    if (reader.isAtEnd() || (!kind.isLong && reader.sees("\n"))) {
      reader.fails("toml.text", { at: start });
    }
    text += nextLetter(reader, kind);
  }
  // Up to two quotes may stand before the three that end a text.
  while (kind.isLong && reader.passes(quotes[0])) {
    text += quotes[0];
  }
  return text;
}

function textValue(reader) {
  return quotedText(reader, ['"""', "'''", '"', "'"].find((each) => reader.sees(each)));
}

/** Whether the text ends in a list, or a key with its equals sign or the head of a table stands there. */
function hasNoEnd(reader) {
  return reader.isAtEnd() || reader.looksFor(NO_ELEMENT) !== null;
}

function listValue(reader) {
  const at = reader.at;
  const items = placed([], at);
  reader.passes("[");
  reader.takes(BETWEEN);
  while (!reader.passes("]")) {
    if (hasNoEnd(reader)) {
      reader.fails("toml.list.end", { at });
    }
    items.push(value(reader));
    reader.takes(BETWEEN);
    if (hasNoEnd(reader)) {
      reader.fails("toml.list.end", { at });
    }
    if (!reader.passes(",") && !reader.sees("]")) {
      reader.fails("toml.list");
    }
    reader.takes(BETWEEN);
  }
  return items;
}

function inlineTable(reader) {
  const table = newTable(reader.at);
  reader.passes("{");
  reader.takes(BETWEEN);
  while (!reader.passes("}")) {
    pair(reader, table);
    reader.takes(BETWEEN);
    if (!reader.passes(",") && !reader.sees("}")) {
      reader.fails("toml.table");
    }
    reader.takes(BETWEEN);
  }
  return table;
}

/** The kind of a number, a truth value or a date by its source, and its value. */
function bareKind(reader, source, at) {
  const found = `\`${clipped(source)}\``;
  const text = source.replaceAll("_", "");
  if (source === "true" || source === "false") {
    return ["truth value", source === "true"];
  }
  if (INTEGER.test(source)) {
    const number = BigInt(text.replace("+", "").replace(/^-(.*)/, "$1"));
    if (number > (1n << 63n) - (source.startsWith("-") ? 0n : 1n)) {
      reader.fails("toml.bits", { at, found });
    }
    return ["integer", Number(text)];
  }
  if (FLOAT.test(source)) {
    return ["float", Number(text)];
  }
  return reader.fails(/^[+-.]*\d/.test(source) ? "toml.number" : "toml.word", { at, found });
}

function bareValue(reader) {
  const at = reader.at;
  if (reader.looksFor(DATE) !== null) {
    reader.takes(DATE);
    return reader.made("date", NaN, at, reader.at);
  }
  const source = reader.takes(BARE_VALUE);
  if (source === "") {
    reader.fails("toml.value");
  }
  return reader.made(...bareKind(reader, source, at), at, reader.at);
}

function value(reader) {
  const at = reader.at;
  if (reader.seesText()) {
    const text = textValue(reader);
    return reader.made("text", text, at, reader.at);
  }
  if (reader.sees("[")) {
    return listValue(reader);
  }
  return reader.sees("{") ? inlineTable(reader) : bareValue(reader);
}

/** The parts of a key, as of `a."b c".d`. */
function keyParts(reader) {
  const parts = [];
  do {
    reader.takes(BLANKS);
    const isText = reader.seesText();
    const part = isText ? quotedText(reader, reader.text[reader.at]) : reader.takes(BARE_KEY);
    if (part === "" && !isText) {
      reader.fails("toml.key");
    }
    parts.push(part);
    reader.takes(BLANKS);
  } while (reader.passes("."));
  return parts;
}

function placed(made, at) {
  made[PLACES] = { at, keys: new Map(), isHeaded: false };
  return made;
}

function newTable(at) {
  return placed(Object.create(null), at);
}

/** Puts a value under a key where there is none yet, and gives what stands there. */
function under(table, key, made, at) {
  if (!(key in table)) {
    table[key] = made;
    table[PLACES].keys.set(key, at);
  }
  return table[key];
}

/** The table under a key, made where it is not there; of a list of tables the last one. */
function tableAt(reader, table, parts, at) {
  return parts.reduce((inner, part) => {
    const found = under(inner, part, newTable(at), at);
    const table = Array.isArray(found) ? found.at(-1) : found;
    return table?.[PLACES]?.keys && !Array.isArray(table) ? table : reader.fails("toml.double", { at, key: part });
  }, table);
}

function pair(reader, table) {
  const at = reader.at;
  const parts = keyParts(reader);
  if (!reader.passes("=")) {
    reader.fails("toml.equals", { key: parts.join(".") });
  }
  reader.takes(BLANKS);
  const [owner, key] = [tableAt(reader, table, parts.slice(0, -1), at), parts.at(-1)];
  if (key in owner) {
    reader.fails("toml.double", { at, key });
  }
  owner[PLACES].keys.set(key, at);
  owner[key] = value(reader);
}

/** The table that a head opens: `[a.b]`, or a new one of a list by `[[a.b]]`. */
function headedTable(reader, top) {
  const at = reader.at;
  const isList = reader.passes("[[");
  if (!isList) {
    reader.passes("[");
  }
  const parts = keyParts(reader);
  const end = isList ? "]]" : "]";
  if (!reader.passes(end)) {
    reader.fails("toml.head", { wanted: end });
  }
  const [owner, key] = [tableAt(reader, top, parts.slice(0, -1), at), parts.at(-1)];
  const found = under(owner, key, isList ? headed(placed([], at)) : newTable(at), at);
  const places = found?.[PLACES];
  if (!places || Array.isArray(found) !== isList || places.isHeaded !== isList) {
    reader.fails("toml.double", { at, key });
  }
  const table = isList ? newTable(at) : found;
  if (isList) {
    found.push(table);
  }
  return headed(table);
}

function headed(made) {
  made[PLACES].isHeaded = true;
  return made;
}

/** The tables, lists, texts, numbers and truth values of a TOML document; of a text that is none, it throws `NotToml`. What stands for
 * a value that is no list and no table is made by `made`, of its kind (`text`, `integer`, `float`, `truth value`, `date`), the value, and
 * the places of the text at which it begins and ends. */
export function readToml(text, made = (kind, found) => found) {
  const reader = new Reader(text, made);
  const top = newTable(reader.at);
  let table = top;
  for (reader.takes(BETWEEN); !reader.isAtEnd(); reader.takes(BETWEEN)) {
    if (reader.sees("[")) {
      table = headedTable(reader, top);
    } else {
      pair(reader, table);
    }
    if (reader.looksFor(LINE_END) === null) {
      reader.takes(BLANKS);
      reader.fails("toml.rest");
    }
  }
  return top;
}
