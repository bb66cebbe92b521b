// Finds in the words of a call what they were refused for.

import { TABLE, askedBack, askedFor, between, fault, joinedWords, nearest, quoted } from "./faults.js";
import { counted } from "./fraction.js";
import { fileRecords } from "./recordfaults.js";
import { clipped } from "./toml.js";

const WHOLE_NUMBER = /^(?:0|-?[1-9]\d*)$/;
const MOST_BITS = 126n;
const UNITS_PARTS = 27720n; // a number that 1 to 12 divide: the draws of several units are so many times finer

/** Words that are no call, with what is wrong. */
export class WrongWords extends Error {
  constructor(sentence, fields) {
    super(sentence);
    this.fault = fault(sentence, fields);
  }
}

function coded(text) {
  return `\`${clipped(text)}\``;
}

/** What the words of a call give: its command, its arguments by their names, and its options. Throws `WrongWords` where they are no
 * call. */
export class Call {
  constructor([command, ...rest]) {
    if (command === undefined) {
      throw new WrongWords("call.none");
    }
    if (!Object.hasOwn(TABLE.commands, command)) {
      const meant = nearest(command, Object.keys(TABLE.commands));
      const told = meant ? askedBack(`\`${meant}\``) : TABLE.sentences["call.unknown.help"];
      throw new WrongWords("call.unknown", { found: coded(command), meant: told });
    }
    const { takes, options = "" } = TABLE.commands[command];
    this.command = command;
    this.takes = takes.split(" ");
    this.known = options.split(" ").filter(Boolean);
    this.options = {};
    const names = this.cut(rest);
    if (names.length !== this.takes.length) {
      const wanted = counted(this.takes.length, "word");
      throw new WrongWords("call.count", { takes: [command, ...this.takes].join(" "), found: names.length, wanted });
    }
    this.given = Object.fromEntries(this.takes.map((key, place) => [key, names[place]]));
    this.triesNumbers();
  }

  /** The names and numbers among words; options are kept. */
  cut(words) {
    const names = [];
    const left = [...words];
    while (left.length > 0) {
      const word = left.shift();
      if (word === "--") {
        return [...names, ...left];
      }
      if (word.startsWith("-") && word !== "-") {
        this.takesOption(word, left);
      } else {
        names.push(word);
      }
    }
    return names;
  }

  takesOption(word, left) {
    const [key] = word.split("=");
    if (key in this.options) {
      throw new WrongWords("call.twice", { key });
    }
    if (!key.startsWith("--")) {
      throw new WrongWords("call.no_option", { command: this.command, found: coded(key) });
    }
    if (!this.known.includes(key)) {
      const meant = nearest(key, this.known);
      throw new WrongWords("call.option", { command: this.command, found: coded(key), meant: askedBack(meant && `\`${meant}\``) });
    }
    if (key === word && left.length === 0) {
      throw new WrongWords("call.value", { key, wanted: TABLE.options[key].shown.split(" ")[1] });
    }
    this.options[key] = key === word ? left.shift() : word.slice(key.length + 1);
  }

  /** Refuses words that are to say numbers and do not. */
  triesNumbers() {
    const numbers = Object.entries(this.given).filter(([key]) => key === "NUMBER" || key.startsWith("DRAW"));
    for (const [key, text] of [...numbers, ...Object.entries(this.options)]) {
      const isWhole = WHOLE_NUMBER.test(text) && BigInt(text.replace("-", "")) < 1n << MOST_BITS;
      if (!isWhole) {
        throw new WrongWords("call.number", { key, found: coded(text), wanted: TABLE.sentences["call.whole"] });
      }
      const { least = -Infinity, most = Infinity } = TABLE.options[key] ?? {};
      if (BigInt(text) < least || BigInt(text) > most) {
        throw new WrongWords("call.number", { key, found: text, wanted: between(least, most) });
      }
    }
  }

  /** The name of the argument that names a second file, where there is one. */
  get second() {
    return this.takes.find((key) => key in TABLE.files && key !== "SETTING");
  }

  /** How many units the call is about, if it says so, else null. */
  get units() {
    const text = this.options["--units"] ?? (this.takes.includes("SETTING") ? this.given.NUMBER : undefined);
    return text === undefined ? null : Number(text);
  }
}

/** Why words are no call. */
export function usageFault(words) {
  try {
    return new Call(words) && null;
  } catch (wrong) {
    return wrong.fault;
  }
}

/** Which number is out of its range. */
export function numberFault(call) {
  const key = "--units" in call.options ? "--units" : "NUMBER";
  const text = call.options[key] ?? call.given[key];
  const { least, most } = TABLE.numbers[call.units === null ? "drawn" : "units"];
  const isRight = BigInt(text) >= least && BigInt(text) <= most;
  return isRight ? null : fault("call.number", { key, found: text, wanted: between(least, most) });
}

/** Which report is none of the setting. */
export function profileFault(call, setting) {
  const reports = call.given.PROFILE.split(",");
  const isAuction = setting.kind === "auction";
  const values = isAuction ? setting.top.values.map(({ value }) => String(value)) : [];
  const known = isAuction ? Array(Number(setting.top.bidders.value)).fill(values) : setting.types;
  if (reports.length !== known.length) {
    const wanted = `${known.length} ${known.length === 1 ? "is" : "are"}`;
    return fault("profile.count", { found: counted(reports.length, "report"), wanted, of: isAuction ? "bidder" : "agent" });
  }
  const place = reports.findIndex((report, agent) => !known[agent].includes(report));
  if (place < 0) {
    return null;
  }
  const meant = askedFor(isAuction ? null : nearest(reports[place], known[place]));
  return fault("profile.name", { number: place + 1, found: quoted(reports[place]), wanted: joinedWords(known[place]), meant });
}

/** Which draw is out of its range. */
export function drawFault(call, setting, answer) {
  const says = (key, wanted) => fault("call.number", { key, found: call.given[key], wanted });
  if ("DRAW" in call.given) {
    return says("DRAW", TABLE.sentences["draw.award"]);
  }
  const [first, second] = ["DRAW1", "DRAW2"].map((key) => BigInt(call.given[key]));
  const draws = firstDraws(call, setting, answer);
  if (first < 0n || first >= draws) {
    return says("DRAW1", between(0n, draws - 1n));
  }
  const isSecondDrawn = setting.kind === "auction" && call.units === null;
  return second === 0n && !isSecondDrawn ? null : says("DRAW2", isSecondDrawn ? TABLE.sentences["draw.second"] : "0");
}

/** How many first draws there are at the reports of a call. */
function firstDraws(call, setting, answer) {
  const [word, text] = fileRecords(answer).find(({ fields }) => ["table", "interim"].includes(fields[0])).fields;
  const [denominator, reports] = [BigInt(text), call.given.PROFILE.split(",")];
  if (word === "table") {
    return denominator;
  }
  if (setting.kind === "general") {
    return denominator * setting.weight(reports.map((report, agent) => setting.types[agent].indexOf(report)));
  }
  const counts = setting.top.values.map(({ value }) => reports.filter((report) => report === String(value)).length);
  return denominator * setting.weightOfCounts(counts) * (call.units === null ? 1n : UNITS_PARTS);
}
