// Finds in a file of records what it was refused for: in an answer, or in a file of conditions, of pivots or of odds.

import { TABLE, askedFor, between, fault, grouped, joinedWords, nearest, quoted, withFields } from "./faults.js";
import { counted } from "./fraction.js";
import { CALLED, countOfLists, firstOf, notASale } from "./settingfaults.js";

const QUOTED_FIELD = /"([^"]*(?:""[^"]*)*)(?:"([^,\r\n]*)|$)/y;
const PLAIN_FIELD = /[^,\r\n]*/y;
const NUMBER_TEXT = /^(?:0|-?[1-9]\d{0,59})$/;
const MOST_CONDITIONS = 1000;

/** The field at a place of a text, and where it ends. */
function fieldAt(text, at) {
  QUOTED_FIELD.lastIndex = at;
  const found = text[at] === '"' ? QUOTED_FIELD.exec(text) : null;
  if (found) {
    return [found[1].replaceAll('""', '"') + (found[2] ?? ""), QUOTED_FIELD.lastIndex];
  }
  PLAIN_FIELD.lastIndex = at;
  const [plain] = PLAIN_FIELD.exec(text);
  return [plain, at + plain.length];
}

/** The first records of a file, each with its fields and its place; lines in which nothing stands are passed over. */
export function fileRecords(text, most = Infinity) {
  const records = [];
  let at = text.startsWith("\ufeff") ? 1 : 0;
  while (at < text.length && records.length < most) {
    if (text[at] === "\r" || text[at] === "\n") {
      at += 1;
      continue;
    }
    const record = { fields: [], at };
    do {
      const [field, end] = fieldAt(text, at);
      record.fields.push(field);
      at = end + 1;
    } while (text[at - 1] === ",");
    records.push(record);
  }
  return records;
}

/** The words that the records of a step may begin with. */
function wordsOfStep({ name }) {
  if (name === "condition") {
    return Object.keys(TABLE.conditions);
  }
  return { tree: ["branch", "leaf"], face: ["row"] }[name] ?? [name.split("_")[0]];
}

const conditionForms = () => Object.values(TABLE.conditions).join(" ").split(" ");

/** The forms of the records of a file, in their order, and what was said so far. */
class Walk {
  constructor(asked, kind, steps) {
    this.asked = asked;
    this.setting = asked.setting;
    this.kind = kind;
    this.steps = this.parsed(steps);
    this.turn = 0; // how many records of this step there were
    this.denominator = 0n;
    this.last = -1n; // the index before
    this.sets = [];
    this.conditions = 0;
    this.conditionRows = 0;
  }

  /** How many there are of something. */
  size(name) {
    const { setting } = this;
    const sizes = {
      values: () => setting.top.values.length,
      counts: () => countOfLists(setting.top.bidders.value, setting.top.values.length),
      own: () => setting.types[this.turn].length,
      profiles: () => setting.profileCount,
      paid: () => (setting.top.payments.value ? setting.profileCount : 0),
      agents: () => setting.agents.length,
      outcomes: () => setting.outcomes.length,
    };
    return sizes[name]();
  }

  /** The steps that a text lists: `row*` for any number, `lottery*profiles` for so many, `end` for one. */
  parsed(steps) {
    return steps.split(" ").map((step) => {
      const [name, times] = step.split("*");
      return { name, times: times === undefined ? 1 : times === "" ? Infinity : this.size(times) };
    });
  }

  /** The form of the next record, which is passed over, or null where its word may not stand there; and the words that may. */
  nextForm(fields) {
    const words = [];
    while (this.steps.length > 0) {
      const [step] = this.steps;
      if (step.times > 0) {
        words.push(...wordsOfStep(step));
        if (wordsOfStep(step).includes(fields[0])) {
          return { form: this.taken(step, fields), words };
        }
      }
      if (step.times > 0 && step.times < Infinity) {
        break;
      }
      this.steps.shift();
      [this.turn, this.last] = [0, -1n];
    }
    return { form: null, words };
  }

  taken(step, fields) {
    step.times -= 1;
    if (step.name === "condition") {
      const forms = TABLE.conditions[fields[0]].split(" ");
      return forms.find((each) => TABLE.records[each].length === fields.length - 1) ?? forms[0];
    }
    if (step.name === "tree") {
      const inner = TABLE.tree[fields[0] === "leaf" ? fields.slice(0, 2).join(" ") : "branch"];
      this.steps.unshift(...(inner ? this.parsed(inner) : []));
      return inner ? this.taken(this.steps[0], fields) : "leaf";
    }
    return step.name;
  }

  /** Keeps what a record says that was taken. */
  notes(form, fields) {
    this.turn += 1;
    if (["table", "interim"].includes(form)) {
      this.denominator = BigInt(fields[1]);
    } else if (["row", "face", "shadow", "fix"].includes(form)) {
      this.last = BigInt(fields[1]);
    } else if (form?.startsWith("cut")) {
      this.sets.push(BigInt(fields[1]));
    } else if (conditionForms().includes(form)) {
      this.conditions += 1;
      this.conditionRows += this.rowsOf(form, fields);
    }
  }

  /** How many rows a condition has. */
  rowsOf(form, [, agent]) {
    const types = this.setting.types[this.setting.agentNames.indexOf(agent)];
    return form.startsWith("pay") ? this.size("profiles") / (form === "pay_of_type" ? types.length : 1) : 1;
  }

  /** The fields of a form behind its word: the label of each, its type, and its place among those of its type. */
  places(form) {
    return TABLE.records[form].flatMap((spec) => {
      const [label, rest] = spec.split(":");
      const [name, times] = rest.split("*");
      return Array.from({ length: times ? this.size(times) : 1 }, (_, place) => ({ label, name, place }));
    });
  }

  /** How many rows the program of the answer has, where it is known, else null. */
  get rows() {
    if (this.setting.kind === "auction") {
      return this.size("values") ** 2 + this.sets.length;
    }
    const more = { general: 0, fair: this.size("agents"), required: this.conditionRows }[this.kind];
    return more === undefined ? null : this.setting.rows + more;
  }

  /** How many bidders have each value, in the next record of masses. */
  get counts() {
    const { bidders, values } = this.setting.top;
    let [left, turn] = [Number(bidders.value), this.turn];
    const counts = Array.from({ length: values.length - 1 }, (_, place) => {
      const whole = left;
      while (turn >= countOfLists(left, values.length - 1 - place)) {
        turn -= countOfLists(left, values.length - 1 - place);
        left -= 1;
      }
      return whole - left;
    });
    return [...counts, left];
  }

  /** The profile of the next record, by the places of its types. */
  get profile() {
    return this.setting.profiles[this.turn];
  }
}

// --- a field --------------------------------------------------------------------------------------------------------------------

function numberIn(text) {
  return NUMBER_TEXT.test(text) ? BigInt(text) : null;
}

function isWithin(number, least, most) {
  return number !== null && number >= least && number <= most;
}

/** The words that a field may have, where they are few, else undefined. */
function knownWords({ setting }, name, fields) {
  const words = {
    type: () => setting.types[setting.agentNames.indexOf(fields[1])],
    outcome: () => setting.outcomes,
    agent: () => setting.agentNames,
    side: () => TABLE.sides,
    leaf: () => TABLE.leaves,
    one: () => ["1"],
  };
  return words[name]?.();
}

/** The one text that a field may have, in records that stand in an order, and how it is told; else undefined. */
function onlyText(walk, name, place) {
  const texts = {
    profile: () => walk.setting.types[place][walk.profile[place]],
    turn: () => walk.setting.agentNames[walk.turn],
    counts: () => `${walk.counts[place]}`,
  };
  return texts[name]?.();
}

/** What is wanted where a number is none of those of a type. */
function wantedNumber(name, number) {
  const { from, bits, wanted } = TABLE.fields[name];
  const most = (1n << BigInt(bits)) - 1n;
  return isWithin(number, from === undefined ? -most : BigInt(from), most) ? null : wanted;
}

function wantedIndex(walk, number) {
  const { rows } = walk;
  if (rows === null) {
    return TABLE.named["index.row"];
  }
  return number >= rows ? withFields(TABLE.named["index.below"], { most: rows - 1 }) : null;
}

function wantedSet(walk, number) {
  const size = walk.setting.kind === "auction" ? walk.size("values") : walk.setting.types.flat().length;
  const most = (1n << BigInt(size)) - 1n;
  if (!isWithin(number, 1n, most)) {
    return withFields(TABLE.named.set, { most });
  }
  return walk.sets.includes(number) ? TABLE.named["set.once"] : null;
}

/** The same of a number that depends on what stands in front of it. */
function wantedOfProgram(walk, name, number) {
  if (["index", "condition"].includes(name) && (number === null || number <= walk.last)) {
    return withFields(TABLE.named["index.above"], { least: walk.last });
  }
  if (name === "condition") {
    const fields = { least: walk.last + 1n, most: walk.conditions - 1 };
    return number >= walk.conditions ? withFields(TABLE.named.condition, fields) : null;
  }
  if (name === "index") {
    return wantedIndex(walk, number);
  }
  if (name === "set") {
    return wantedSet(walk, number);
  }
  const most = name === "share" ? walk.denominator : BigInt(walk.size(name === "rank" ? "profiles" : "outcomes") - 1);
  return isWithin(number, 0n, most) ? (TABLE.named[name] ?? null) : between(0n, most);
}

/** What is wanted where a mass of an auction is more than those who have the value can get. */
function wantedMass(walk, place, number) {
  if (walk.setting.kind !== "auction") {
    return null;
  }
  const { counts } = walk;
  const most = BigInt(counts[place]) * walk.denominator * walk.setting.weightOfCounts(counts);
  if (counts[place] === 0 && number) {
    return TABLE.named["mass.nobody"];
  }
  return walk.asked.units && number > most ? withFields(TABLE.named["mass.units"], { most: grouped(most) }) : null;
}

/** What is wanted in a field of a type where its text will not do, else null; and the word that was perhaps meant. */
function wantedIn(walk, { name, place }, fields, text) {
  const [known, only, number] = [knownWords(walk, name, fields), onlyText(walk, name, place), numberIn(text)];
  if (known !== undefined) {
    return known.includes(text) ? [null, null] : [joinedWords(known.map(quoted)), nearest(text, known)];
  }
  if (only !== undefined) {
    return [text === only ? null : name === "counts" ? only : quoted(only), null];
  }
  if (["index", "condition", "set", "share", "rank", "outcome_place"].includes(name)) {
    return [wantedOfProgram(walk, name, number), null];
  }
  if (name === "nothing") {
    return [TABLE.named[name], null];
  }
  if (name === "joined") {
    const profiles = walk.setting.profiles.map((profile) => walk.setting.nameOf(profile)).sort();
    return [profiles.includes(text) ? null : TABLE.named.joined, nearest(text, profiles)];
  }
  const wanted = wantedNumber(name, number) ?? (["numerator", "divisor"].includes(name) ? TABLE.named[name] : null);
  return [wanted ?? (name === "mass" ? wantedMass(walk, place, number) : null), null];
}

// --- a record -------------------------------------------------------------------------------------------------------------------

/** What is wrong with a field, counted from 1. */
function fieldFault(walk, form, { fields, at }, number) {
  const field = walk.places(form)[number - 2];
  const [wanted, meant] = wantedIn(walk, field, fields, fields[number - 1]);
  return wanted === null ? null : fieldSays(fields, number, { label: field.label, wanted, meant, at });
}

/** That something else is wanted in a field. */
function fieldSays(fields, number, { label, wanted, meant, at }) {
  const [key, found] = [fields[0], quoted(fields[number - 1])];
  return fault("record.field", { number, key, found, wanted, meant: askedFor(meant), label: ` (${label})`, at });
}

/** What is wrong with a record as a whole. */
function wholeFault(walk, { form, words }, { fields, at }) {
  const [word] = fields;
  const known = [...new Set(words)];
  if (form === null && known.length === 0) {
    return fault("record.after", { found: quoted(word), at });
  }
  if (form === null) {
    return fault("record.word", { found: quoted(word), wanted: joinedWords(known), meant: askedFor(nearest(word, known)), at });
  }
  const forms = conditionForms().includes(form) ? TABLE.conditions[word].split(" ") : [form];
  const sizes = forms.map((each) => walk.places(each).length);
  if (!sizes.includes(fields.length - 1)) {
    return fault("record.fields", { key: word, found: counted(fields.length - 1, "field"), wanted: areWanted(sizes), at });
  }
  return fault("record.conditions", { wanted: grouped(MOST_CONDITIONS), rows: grouped(TABLE.limits.rows), at });
}

function areWanted(sizes) {
  return `${joinedWords(sizes)} ${sizes.length === 1 && sizes[0] === 1 ? "is" : "are"}`;
}

/** By how much the numbers of a record are wrong together. */
function sumFault(walk, form, { fields, at }) {
  const isAdded = walk.places(form).map(({ name }) => ["natural", "mass"].includes(name));
  const total = fields.slice(1).reduce((sum, text, place) => (isAdded[place] ? sum + BigInt(text) : sum), 0n);
  const wholes = {
    lottery: () => 1n,
    mass: () => walk.setting.weightOfCounts(walk.counts) * BigInt(walk.asked.units ?? 1),
    mass_of: () => walk.setting.weight(walk.profile),
  };
  const most = walk.denominator * wholes[form]();
  const isLottery = form === "lottery";
  if (isLottery ? total === most : total <= most) {
    return null;
  }
  return fault(isLottery ? "record.sum" : "record.masses", { found: grouped(total), wanted: grouped(most), at });
}

// --- the first record -----------------------------------------------------------------------------------------------------------

/** The kinds of answers that a command reads of a setting. */
function kindsRead({ command, units, setting }) {
  const kinds = TABLE.commands[command].reads.split(" ");
  return units === null ? kinds.filter((kind) => TABLE.answers[kind].of === setting.kind) : ["units"];
}

/** What is wrong with a field of the first record of an answer. */
function firstFieldFault(asked, { fields, at }, number) {
  const [, version, kind, word] = fields;
  const forms = Object.keys(TABLE.answers[kind] ?? {}).filter((name) => name.includes(" "));
  const versions = [...new Set(forms.map((name) => name.split(" ")[1]))];
  const isRead = (name) => name.endsWith(version) && (TABLE.only[`${kind} ${name}`] ?? asked.command) === asked.command;
  const words = forms.filter(isRead).map((name) => name.split(" ")[0]);
  const isVersion = number === 2;
  const [known, text] = isVersion ? [versions.length > 0 ? versions : ["1", "2"], version] : [words, word];
  if (known.includes(text) || known.length === 0) {
    return null;
  }
  const meant = isVersion ? null : nearest(text, known);
  return fieldSays(fields, number, { label: isVersion ? "VERSION" : "WORD", wanted: joinedWords(known.map(quoted)), meant, at });
}

/** What is wrong with the kind of an answer. */
function kindFault(asked, { at }, kind) {
  const { command, setting } = asked;
  const [reads, of] = [kindsRead(asked), TABLE.answers[kind]?.of];
  if (reads.includes(kind)) {
    const noSale = kind === "asym" ? firstOf(notASale(setting)) : null;
    return noSale ? { ...noSale, isOfSetting: true } : fault("answer.plain", { found: quoted(kind), at });
  }
  if (of !== undefined && of !== setting.kind) {
    return fault("answer.setting", { found: of === "general" ? "a general setting" : "an auction", wanted: CALLED[setting.kind], at });
  }
  const wanted = `those of the kind ${joinedWords(reads.map(quoted))}`;
  const others = otherReaders(command, kind, of, reads);
  return fault("answer.kind", { found: quoted(kind), wanted, command: asked.units ? `${command} --units` : command, others, at });
}

/** What reads an answer of a kind, in the words that end a sentence. */
function otherReaders(command, kind, of, reads) {
  if (of === undefined) {
    return askedFor(nearest(kind, reads));
  }
  const takesUnits = kind === "units" && TABLE.commands[command].options === "--units";
  return takesUnits ? TABLE.sentences["answer.units"] : TABLE.sentences["answer.reads"];
}

/** What is wrong with the first record of an answer. */
function firstFault(asked, [first], field) {
  if (first === undefined) {
    return fault("record.ended", { found: counted(0, "record"), wanted: "answer", at: 0 });
  }
  const { fields, at } = first;
  if (field === 3 && fields.length > 2) {
    return kindFault(asked, first, fields[2]);
  }
  if (field > 0) {
    return fields.length === 4 ? firstFieldFault(asked, first, field) : null;
  }
  if (fields[0] !== "answer") {
    return fault("record.word", { found: quoted(fields[0]), wanted: "answer", meant: askedFor(nearest(fields[0], ["answer"])), at });
  }
  return fault("record.fields", { key: "answer", found: counted(fields.length - 1, "field"), wanted: areWanted([3]), at });
}

/** The walk through a file of a kind, or null where its first record does not tell it. */
function walkOf(asked, kind, first) {
  if (kind) {
    return new Walk(asked, kind, TABLE.answers[kind][kind === "pivots" ? asked.setting.kind : "1"]);
  }
  const [word, version, of, claim] = first?.fields ?? [];
  const steps = word === "answer" ? TABLE.answers[of]?.[`${claim} ${version}`] : undefined;
  return steps === undefined ? null : new Walk(asked, of, `answer ${steps}`);
}

/** What is wrong with a file of records that was refused for a cause, as docs/FORMATS.md names it; null where nothing is found. The
 * kind is `conditions`, `pivots` or `odds`, or empty of an answer. `asked` has the command, how many units it is about, if it says so,
 * and the setting. */
export function recordFault(asked, kind, text, cause) {
  const [, line, what, place] = /^line (\d+): (record|sum|ended|field (\d+))$/.exec(cause) ?? [];
  if (line === undefined) {
    return cause === "no table" ? fault("answer.none", { command: asked.command }) : null;
  }
  const [number, field, isEnded] = [Number(line), Number(place ?? 0), what === "ended"];
  const records = fileRecords(text, number);
  if (!kind && (number === 0 || (number === 1 && !isEnded))) {
    return firstFault(asked, records, field);
  }
  const walk = walkOf(asked, kind, records[0]);
  records.slice(0, isEnded ? number : number - 1).forEach(({ fields }) => walk.notes(walk.nextForm(fields).form, fields));
  if (isEnded) {
    const words = [...new Set(walk.nextForm([]).words)];
    const found = counted(number, "record");
    return words.length === 0 ? null : fault("record.ended", { found, wanted: joinedWords(words), at: text.length });
  }
  const next = walk.nextForm(records.at(-1).fields);
  if (what === "record") {
    return wholeFault(walk, next, records.at(-1));
  }
  if (next.form === null) {
    return null;
  }
  return what === "sum" ? sumFault(walk, next.form, records.at(-1)) : fieldFault(walk, next.form, records.at(-1), field);
}

/** Why a pivot, counted from 1, cannot be carried out. */
export function pivotFault({ setting }, text, number) {
  const records = fileRecords(text);
  const cuts = records.filter(({ fields }) => fields[0] === "cut").length;
  const { fields, at } = records[cuts + number - 1];
  const [, row, column] = fields;
  const rows = setting.kind === "auction" ? setting.top.values.length ** 2 + cuts : setting.rows;
  const columns = setting.kind === "auction" ? 3 * setting.top.values.length + rows : setting.columns + setting.conditions;
  if (BigInt(row) >= rows) {
    return fault("pivot.row", { number, found: row, wanted: between(0, rows - 1), at });
  }
  if (BigInt(column) >= columns) {
    return fault("pivot.column", { number, found: column, wanted: between(0, columns - 1), at });
  }
  return fault("pivot.entry", { number, row, column, at });
}
