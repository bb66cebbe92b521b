// Finds in a setting what it was refused for. It is asked for one cause, so that it need not look for any that comes before.

import { TABLE, askedFor, between, fault, grouped, joinedWords, nearest, quoted, withFields } from "./faults.js";
import { counted, greatestCommonDivisor } from "./fraction.js";
import { NotToml, PLACES, clipped, readToml } from "./toml.js";

const HEADS = { objective: "[objective]", agent: "[[agent]]", bidder: "[[bidder]]" };
const FRONTS = { general: ["", "objective", "agent"], auction: [""], bidders: ["", "bidder"] };
const LISTED = { agent: "agent", bidder: "group" }; // what the tables of a list are in sentences
const STARTS = { "answer,": "an answer", "require,": "a conditions file", "pivot,": "a pivots file", "interim,": "an odds file" };

/** The tables of a setting file, in which each value that is no list and no table has its kind, its place and its source. */
export class SettingFile {
  constructor(text) {
    this.top = readToml(text, (kind, value, at, end) => {
      const source = text.slice(at, end);
      return { kind, value: kind === "integer" ? BigInt(source.replaceAll("_", "").replace("+", "")) : value, at, source };
    });
  }

  get kind() {
    return this.top.kind?.value;
  }

  get agents() {
    return this.top.agent;
  }

  get agentNames() {
    return this.agents.map(({ name }) => name.value);
  }

  get outcomes() {
    return this.top.outcomes.map(({ value }) => value);
  }

  /** The tables whose keys have a front, each with what stands in front of a sentence on it. */
  tables(front) {
    if (front in LISTED) {
      return this.top[front].map((table, place) => {
        const name = table.name?.kind === "text" ? ` ${quoted(table.name.value)}` : "";
        return [table, `${LISTED[front]} ${place + 1}${name}: `];
      });
    }
    if (front === "objective") {
      return this.top.objective ? [[this.top.objective, ""]] : [];
    }
    return [[this.top, ""]];
  }

  /** The keys that a table with a front may have. */
  known(front) {
    return front ? TABLE.keys[front] : { ...TABLE.keys.head, ...TABLE.keys[this.kind] };
  }

  get fronts() {
    return FRONTS[this.kind];
  }

  /** The tables with values and weights, of an auction the top one, each with what stands in front of a sentence on it. */
  get groups() {
    return this.tables(this.kind === "bidders" ? "bidder" : "");
  }

  /** All keys with their tables: the front, the table, what stands in front of a sentence, the key, and what is known of it. */
  entries() {
    return this.fronts.flatMap((front) =>
      this.tables(front).flatMap(([table, place]) =>
        Object.entries(this.known(front)).map(([key, spec]) => ({ front, table, place, key, spec, value: table[key] })),
      ),
    );
  }

  /** The names of the types of each agent. */
  get types() {
    return this.agents.map(({ types }) => types.map(({ value }) => value));
  }

  get profileCount() {
    return this.types.reduce((product, { length }) => product * length, 1);
  }

  /** How many elements a list has that there is one of for each of these. */
  countOf(noun, table) {
    const lists = { type: table.types, outcome: this.top.outcomes, value: table.values };
    return noun === "profile" ? this.profileCount : lists[noun].length;
  }

  /** All profiles, by the places of their types. */
  get profiles() {
    return this.types.reduce((all, types) => all.flatMap((front) => types.map((_, place) => [...front, place])), [[]]);
  }

  nameOf(profile) {
    return profile.map((place, agent) => this.types[agent][place]).join("+");
  }

  weight(profile) {
    if (this.top.prior) {
      return this.top.prior[profile.reduce((rank, place, agent) => rank * this.agents[agent].types.length + place, 0)].value;
    }
    return profile.reduce((product, place, agent) => product * this.agents[agent].weights[place].value, 1n);
  }

  /** What an outcome is worth to an agent that has a type, at the profile of a rank. */
  utility(agent, rank, place, outcome) {
    return (agent.utility_at ? agent.utility_at[rank] : agent.utility[place])[outcome].value;
  }

  /** How many conditions the linear program has. */
  get conditions() {
    const [profiles, counts] = [this.profileCount, this.types.map(({ length }) => length)];
    const each = this.top.truth.value === "dominant" ? profiles : 0;
    const truth = counts.reduce((total, count) => total + (each || count) * (count - 1), 0);
    const interim = counts.reduce((total, count) => total + count, 0);
    const rational = { none: 0, "ex-post": profiles * counts.length, interim }[this.top.rational.value];
    return truth + rational + (this.top.no_deficit?.value ? profiles : 0);
  }

  /** How many rows the linear program has. */
  get rows() {
    return this.conditions + this.profileCount;
  }

  /** How many columns it has, without those of slacks. */
  get columns() {
    return this.profileCount * (this.outcomes.length + (this.top.payments.value ? 2 * this.agents.length : 0));
  }

  /** The weight of all profiles of an auction with these counts. */
  weightOfCounts(counts) {
    let [weight, had] = [1n, 0n];
    counts.forEach((count, place) => {
      for (let k = 1n; k <= count; k += 1n) {
        had += 1n;
        weight = (weight * had * this.top.weights[place].value) / k;
      }
    });
    return weight;
  }
}

function placeOf(thing) {
  return Object.hasOwn(thing, PLACES) ? thing[PLACES].at : thing.at;
}

function shownKey(front, key) {
  return front === "objective" ? `objective.${key}` : key;
}

function described(thing) {
  const kind = thing.kind && thing.source !== undefined ? thing.kind : Array.isArray(thing) ? "list" : "table";
  return withFields(TABLE.found[kind], { source: clipped(thing.source ?? "") });
}

/** What is to stand at a key. */
function wantedAt({ words, kind }) {
  return words ? joinedWords(words.map((word) => (typeof word === "string" ? quoted(word) : word))) : TABLE.kinds[kind];
}

/** That there are so many. */
function thereAre(count, noun) {
  return `there ${count === 1 ? "is" : "are"} ${counted(count, noun)}`;
}

/** The front of a key as the formats name it, and the key. */
function cutKey(whole) {
  const cut = whole.lastIndexOf(".");
  return cut < 0 ? ["", whole] : [whole.slice(0, cut), whole.slice(cut + 1)];
}

// --- keys -----------------------------------------------------------------------------------------------------------------------

function* missingKey(setting, whole) {
  const [front, key] = cutKey(whole);
  const known = setting.known(front);
  for (const [table, place] of setting.tables(front).filter(([each]) => !(key in each))) {
    for (const [found, at] of table[PLACES].keys) {
      if (!(found in known) && nearest(found, Object.keys(known)) === key) {
        yield fault("key.unknown", { found: quoted(found), at, place, meant: askedFor(key) });
      }
    }
    yield* front ? [] : strayedKey(setting, key);
    const at = front in LISTED ? placeOf(table) : null;
    yield fault("key.missing", { key: shownKey(front, key), wanted: wantedAt(known[key]), place, at });
  }
}

/** A key of the top table that stands under a head, as what follows the head does. */
function* strayedKey(setting, key) {
  for (const [front, head] of Object.entries(HEADS)) {
    for (const table of [setting.top[front] ?? []].flat()) {
      if (table[PLACES]?.keys.has(key) && !(key in TABLE.keys[front])) {
        yield fault("key.strayed", { key, found: head, wanted: TABLE.sentences["key.above"], at: table[PLACES].keys.get(key) });
      }
    }
  }
}

function* wrongKind(setting, whole) {
  const [front, key] = cutKey(whole);
  const { kind } = setting.known(front)[key];
  for (const [table, place] of setting.tables(front).filter(([each]) => key in each)) {
    for (const [label, found, wanted] of otherKinds(table[key], kind)) {
      const words = TABLE.kinds[wanted];
      yield fault("key.wrong", { key: label + shownKey(front, key), found: described(found), wanted: words, place, at: placeOf(found) });
    }
  }
}

/** A value where it is of another kind, or its elements that are: with what stands in front of the key, and the kind. */
function* otherKinds(found, kind) {
  const inner = TABLE.elements[kind];
  const isTable = kind === "table" && found.source === undefined && !Array.isArray(found);
  if (inner ? !Array.isArray(found) : !isTable && (found.source === undefined || found.kind !== kind)) {
    yield ["", found, kind];
  } else if (inner) {
    for (const [place, element] of found.entries()) {
      for (const [label, part, wanted] of otherKinds(element, inner)) {
        yield [`${label}${partName(element)} ${place + 1} of `, part, wanted];
      }
    }
  }
}

/** What a value is called as a part of a list. */
function partName(found) {
  return Array.isArray(found) ? "list" : "element";
}

function* unknownWord(setting, whole) {
  const [front, key] = cutKey(whole);
  const spec = setting.known(front)[key];
  const words = spec.words.map(String);
  for (const [table, place] of setting.tables(front)) {
    const found = table[key];
    if (found && key === "kind" && found.value === "bidders") {
      yield fault("kind.version", { found: quoted("bidders"), wanted: 3, of: setting.top.version.source, at: found.at });
    }
    if (found && !words.includes(String(found.value))) {
      const meant = askedFor(nearest(String(found.value), words));
      const fields = { key: shownKey(front, key), found: clipped(found.source), wanted: wantedAt(spec), meant };
      yield fault("key.wrong", { ...fields, place, at: found.at });
    }
  }
}

function* unknownKey(setting) {
  for (const front of setting.fronts) {
    const known = setting.known(front);
    for (const [table, place] of setting.tables(front)) {
      for (const [key, at] of table[PLACES].keys) {
        if (!(key in known)) {
          yield strangeKey(setting, front, key, { at, place });
        } else if (front === "agent") {
          yield* besideKey(setting, key, table, { at, place });
        }
      }
    }
  }
}

/** What a key is that is not known where it stands: one of another table, or perhaps another one. */
function strangeKey(setting, front, key, where) {
  const meant = nearest(key, Object.keys(setting.known(front)));
  const other = setting.fronts.find((each) => meant === null && key in setting.known(each));
  if (other === undefined) {
    return fault("key.unknown", { found: quoted(key), meant: askedFor(meant), ...where });
  }
  const wanted = withFields(TABLE.sentences[other ? "key.under" : "key.above"], { table: HEADS[other] });
  return fault("key.strayed", { key, found: HEADS[front] ?? "no head", wanted, ...where });
}

/** A key of an agent that may not stand for what stands elsewhere. */
function* besideKey(setting, key, table, where) {
  if (key === "weights" && setting.top.prior) {
    yield fault("key.beside", { found: key, wanted: "prior", ...where });
  }
  if (key === "utility_at" && setting.top.version.value === 1n) {
    yield fault("key.version", { found: key, ...where });
  }
  if (key === "utility_at" && table.utility) {
    yield fault("key.beside", { found: key, wanted: "utility", ...where });
  }
}

// --- contents -------------------------------------------------------------------------------------------------------------------

/** The lists of names: of what, what stands in front of a sentence, and the names. */
function namesOf(setting) {
  if (setting.kind === "bidders") {
    return [["group", "", setting.groups.map(([{ name }]) => name)]];
  }
  const types = setting.tables("agent").map(([agent, place]) => ["type", place, agent.types]);
  return [["agent", "", setting.agents.map(({ name }) => name)], ["outcome", "", setting.top.outcomes], ...types];
}

function* badName(setting) {
  for (const [noun, place, names] of namesOf(setting)) {
    const wrong = names.find(({ value }) => !/^[A-Za-z0-9_]{1,32}$/.test(value));
    if (wrong) {
      const of = ["type", "group"].includes(noun) ? `a ${noun}` : `an ${noun}`;
      yield fault("name.bad", { found: clipped(wrong.source), wanted: TABLE.sentences["name.letters"], of, place, at: wrong.at });
    }
  }
}

function* doubleName(setting) {
  for (const [noun, place, names] of namesOf(setting)) {
    const second = names.find((name, number) => names.slice(0, number).some(({ value }) => value === name.value));
    if (second) {
      yield fault("name.double", { found: clipped(second.source), of: `the ${noun}s`, place, at: second.at });
    }
  }
}

function* wrongSizes(setting) {
  for (const { spec, value, place, table, key } of setting.entries().filter((each) => each.spec.noun && each.value)) {
    const count = Array.isArray(value) ? value.length : Number(value.value);
    if (count < spec.least || count > spec.most) {
      const wanted = `${between(spec.least, spec.most)} are`;
      yield fault("size.wrong", { found: thereAre(count, spec.noun), wanted, place, at: table[PLACES].keys.get(key) });
    }
  }
  if (setting.kind === "general" && setting.profileCount > TABLE.limits.profiles) {
    const wanted = `at most ${grouped(TABLE.limits.profiles)} are`;
    yield fault("size.wrong", { found: thereAre(setting.profileCount, "profile"), wanted });
  }
  const bidders = setting.kind === "bidders" ? sumOf(setting.groups.map(([{ count }]) => count?.value ?? 1n)) : 0n;
  if (bidders > TABLE.limits.bidders) {
    const wanted = `at most ${grouped(TABLE.limits.bidders)} are`;
    yield fault("size.wrong", { found: `${thereAre(bidders, "bidder")} in all`, wanted });
  }
}

function* wrongShape(setting) {
  for (const { front, table, key, spec, value, place } of setting.entries().filter((each) => each.spec.per && each.value)) {
    const [name, per] = [shownKey(front, key), setting.countOf(spec.per, table)];
    if (value.length !== per) {
      const found = counted(value.length, spec.inner ? "list" : "number");
      yield fault("shape.wrong", { key: name, found, wanted: thereAre(per, spec.per), place, at: placeOf(value) });
    }
    const inner = spec.inner ? setting.countOf(spec.inner, table) : 0;
    for (const [number, list] of spec.inner ? value.entries() : []) {
      if (list.length !== inner) {
        const [part, found] = [`list ${number + 1} of ${name}`, counted(list.length, "number")];
        yield fault("shape.wrong", { key: part, found, wanted: thereAre(inner, spec.inner), place, at: placeOf(list) });
      }
    }
  }
}

function* outOfRange(setting) {
  for (const { front, key, spec, value, place } of setting.entries().filter((each) => each.spec.to !== undefined && each.value)) {
    for (const [label, number] of numbersIn(value)) {
      if (number.value < spec.from || number.value > spec.to) {
        const wanted = between(spec.from, spec.to);
        yield fault("key.wrong", { key: label + shownKey(front, key), found: number.source, wanted, place, at: number.at });
      }
    }
  }
  yield* setting.kind === "general" ? greatWorths(setting) : greatProducts(setting);
}

/** The numbers of a value, each with what stands in front of the key. */
function numbersIn(found) {
  if (!Array.isArray(found)) {
    return [["", found]];
  }
  return found.flatMap((element, place) =>
    numbersIn(element).map(([label, number]) => [`${label}${partName(element)} ${place + 1} of `, number]),
  );
}

/** The outcomes that are worth too much to the designer. */
function* greatWorths(setting) {
  const { objective } = setting.top;
  const [welfare, most] = [objective?.welfare?.value ?? 0n, BigInt(TABLE.limits.worth)];
  for (const [rank, profile] of setting.profiles.entries()) {
    for (const [outcome, name] of setting.outcomes.entries()) {
      const own = objective?.value?.[outcome].value ?? 0n;
      const worth = profile.reduce((total, place, agent) => total + setting.utility(setting.agents[agent], rank, place, outcome), 0n);
      const total = own + welfare * worth;
      if (total > most || total < -most) {
        const profileName = quoted(setting.nameOf(profile));
        yield fault("range.worth", { of: quoted(name), profile: profileName, found: grouped(total), wanted: between(-most, most) });
      }
    }
  }
}

/** The values of an auction that welfare makes too great. */
function* greatProducts(setting) {
  const { welfare } = setting.top;
  const most = BigInt(TABLE.limits.worth);
  for (const [{ values }, place] of welfare ? setting.groups : []) {
    for (const value of values) {
      const product = welfare.value * value.value;
      if (product > most || product < -most) {
        const [found, wanted] = [grouped(product), between(-most, most)];
        yield fault("range.product", { of: value.source, found, wanted, place, at: welfare.at });
      }
    }
  }
}

function* zeroWeight(setting) {
  for (const [{ values, weights }, place] of setting.kind === "general" ? [] : setting.groups) {
    const number = weights.findIndex(({ value }) => value === 0n);
    yield* number < 0 ? [] : [fault("weight.value", { found: values[number].source, place, at: weights[number].at })];
  }
  if (setting.kind !== "general") {
    return;
  }
  const { prior } = setting.top;
  for (const [number, [agent, place]] of setting.tables("agent").entries()) {
    for (const [kind, name] of agent.types.entries()) {
      if (!prior && agent.weights[kind].value === 0n) {
        yield fault("weight.type", { found: quoted(name.value), place, at: agent.weights[kind].at });
      } else if (prior && setting.profiles.every((profile) => profile[number] !== kind || setting.weight(profile) === 0n)) {
        yield fault("weight.prior", { found: quoted(name.value), place, at: placeOf(prior) });
      }
    }
  }
}

function sumOf(numbers) {
  return numbers.reduce((total, number) => total + number, 0n);
}

function* weightTotal(setting) {
  if (setting.kind === "bidders") {
    yield* groupTotals(setting);
    return;
  }
  const isOfAuction = setting.kind === "auction";
  const { weights, prior } = setting.top;
  const total = sumOf(isOfAuction ? weights.map(({ value }) => value) : setting.profiles.map((profile) => setting.weight(profile)));
  const list = isOfAuction ? weights : prior;
  if (total > TABLE.limits.weight) {
    const of = isOfAuction ? "" : TABLE.sentences["weight.profiles"];
    yield fault("weight.total", { of, found: grouped(total), wanted: grouped(TABLE.limits.weight), at: list ? placeOf(list) : null });
  }
}

/** By how much the weights of a group are too great together, where they are divided by their greatest common divisor. */
function* groupTotals(setting) {
  for (const [{ weights }, place] of setting.groups) {
    const total = sumOf(weights.map(({ value }) => value));
    const divisor = weights.map(({ value }) => value).reduce(greatestCommonDivisor);
    if (total > BigInt(TABLE.limits.weight) * divisor) {
      const of = divisor > 1n ? withFields(TABLE.sentences["weight.divided"], { divisor: grouped(divisor) }) : "";
      const found = grouped(total / divisor);
      yield fault("weight.total", { of, found, wanted: grouped(TABLE.limits.weight), place, at: placeOf(weights) });
    }
  }
}

/** The first number behind one that it may not follow. */
function outOfOrder(numbers, isWrong) {
  const place = numbers.findIndex(({ value }, number) => number > 0 && isWrong(numbers[number - 1].value, value));
  return place < 0 ? null : { found: numbers[place].source, of: numbers[place - 1].source, at: numbers[place].at };
}

function* valuesOrder(setting) {
  for (const [{ values }, place] of setting.groups) {
    const wrong = outOfOrder(values, (before, value) => value <= before);
    yield* wrong ? [fault("values.order", { ...wrong, place })] : [];
  }
}

function* slotsOrder(setting) {
  const wrong = outOfOrder(setting.top.slots, (before, amount) => amount > before);
  yield* wrong ? [fault("slots.order", wrong)] : [];
}

function* tooManyRows(setting) {
  const { rows, conditions, columns } = setting;
  const cells = rows * (columns + conditions + rows + 1);
  if (rows > TABLE.limits.rows) {
    yield fault("size.rows", { found: counted(rows, "row"), wanted: grouped(TABLE.limits.rows) });
  } else if (cells > TABLE.limits.cells) {
    yield fault("size.cells", { found: counted(cells, "cell"), wanted: grouped(TABLE.limits.cells) });
  }
}

/** How many lists say how many of so many have each of some values. */
export function countOfLists(bidders, values) {
  let lists = 1n;
  for (let k = 1n; k < BigInt(values); k += 1n) {
    lists = (lists * (BigInt(bidders) + k)) / k;
  }
  return Number(lists);
}

function* tooManyCounts(setting) {
  const { bidders, values, weights } = setting.top;
  const total = sumOf(weights.map(({ value }) => value)) ** bidders.value;
  const lists = countOfLists(bidders.value, values.length);
  if (total > TABLE.limits.lists) {
    const of = TABLE.sentences["weight.profiles"];
    yield fault("weight.total", { of, found: grouped(total), wanted: grouped(TABLE.limits.lists), at: placeOf(weights) });
  } else if (lists > TABLE.limits.counts) {
    yield fault("size.lists", { found: counted(lists, "list"), wanted: grouped(TABLE.limits.counts), at: bidders.at });
  }
}

// --- the command ----------------------------------------------------------------------------------------------------------------

/** What a setting of a kind is called behind a verb. */
export const CALLED = { general: "a general one", auction: "an auction", bidders: "an auction with groups of bidders" };
const SERVED = { general: "general settings", auction: "auctions" };

function* otherKind(setting, command, hasUnits) {
  const { serves = "general auction", others = "" } = TABLE.commands[command];
  const kinds = hasUnits ? ["auction"] : serves.split(" ");
  if (kinds.includes(setting.kind)) {
    return;
  }
  // No command serves groups of bidders.
  const names = setting.kind === "bidders" ? [] : others.split(/, | and /).filter(Boolean).map((name) => `\`${name}\``);
  const serve = TABLE.sentences[names.length === 1 ? "kind.serves" : "kind.serve"];
  yield fault("kind.other", {
    found: CALLED[setting.kind],
    command: hasUnits ? `${command} --units` : command,
    wanted: joinedWords(kinds.map((kind) => SERVED[kind]), "and"),
    others: names.length > 0 ? `: ${withFields(serve, { names: joinedWords(names, "and") })}` : "",
    at: setting.top.kind.at,
  });
}

export function* notASale(setting) {
  const { outcomes } = setting.top;
  const wanted = setting.agents.length + 1;
  if (outcomes.length !== wanted) {
    yield fault("sale.outcomes", { found: thereAre(outcomes.length, "outcome"), wanted, at: placeOf(outcomes) });
  }
  yield* saleWorths(setting);
  yield* saleKeys(setting, { truth: ["bayes"], rational: ["interim"] });
  for (const [agent, place] of setting.tables("agent")) {
    const number = agent.outside?.find(({ value }) => value !== 0n);
    yield* number ? [fault("sale.outside", { found: number.source, place, at: number.at })] : [];
  }
  yield* saleKeys(setting, { payments: [true], no_deficit: [false] });
  const { revenue } = setting.top.objective ?? {};
  if (revenue && revenue.value < 0n) {
    yield fault("sale.key", { key: "objective.revenue", found: revenue.source, wanted: "0 or more", at: revenue.at });
  }
  const types = setting.types.flat().length;
  if (types > TABLE.limits.sale_types) {
    yield fault("sale.types", { found: counted(types, "type"), wanted: TABLE.limits.sale_types });
  }
  yield* dependentUtilities(setting);
  yield* dependentWeights(setting);
}

/** What an outcome is worth to an agent that does not have the item at it, or less than nothing to the one that has. */
function* saleWorths(setting) {
  for (const [outcome, name] of setting.outcomes.entries()) {
    for (const [number, [agent, place]] of setting.tables("agent").entries()) {
      const isOwn = number === outcome - 1;
      const worths = (agent.utility_at ?? agent.utility).map((each) => each[outcome]);
      const wrong = worths.find(({ value }) => (isOwn ? value < 0n : value !== 0n));
      if (wrong) {
        yield fault("sale.worth", { of: quoted(name), found: wrong.source, wanted: isOwn ? "0 or more" : "0", place, at: wrong.at });
      }
    }
  }
}

/** The keys of the top table that have another value than that of a sale. */
function* saleKeys(setting, wanted) {
  for (const [key, [right]] of Object.entries(wanted)) {
    const found = setting.top[key];
    if (found && found.value !== right) {
      const told = typeof right === "string" ? quoted(right) : right;
      yield fault("sale.key", { key, found: clipped(found.source), wanted: told, at: found.at });
    }
  }
}

/** Whether what an agent gets for the item depends on the types of others. */
function* dependentUtilities(setting) {
  for (const [number, [agent, place]] of setting.tables("agent").entries()) {
    const firsts = new Map();
    for (const [rank, profile] of agent.utility_at ? setting.profiles.entries() : []) {
      const worth = setting.utility(agent, rank, profile[number], number + 1);
      if ((firsts.get(profile[number]) ?? worth) !== worth) {
        yield fault("sale.own", { of: quoted(setting.outcomes[number + 1]), place, at: placeOf(agent.utility_at[rank]) });
      }
      firsts.set(profile[number], firsts.get(profile[number]) ?? worth);
    }
  }
}

/** Whether the types of agents depend on each other. */
function* dependentWeights(setting) {
  const { profiles } = setting;
  const weights = profiles.map((profile) => setting.weight(profile));
  const total = sumOf(weights);
  const having = (agent, place) => sumOf(weights.filter((_, rank) => profiles[rank][agent] === place));
  const shares = setting.types.map((types, agent) => types.map((_, place) => having(agent, place)));
  const isRight = (profile, rank) =>
    weights[rank] * total ** BigInt(profile.length - 1) ===
    profile.reduce((product, place, agent) => product * shares[agent][place], 1n);
  if (!profiles.every(isRight)) {
    yield fault("sale.weights", { at: placeOf(setting.top.prior) });
  }
}

const OF_CONTENTS = {
  "unknown key": unknownKey,
  "bad name": badName,
  "double name": doubleName,
  sizes: wrongSizes,
  shape: wrongShape,
  "out of range": outOfRange,
  "zero weight": zeroWeight,
  "weight total": weightTotal,
  "values order": valuesOrder,
  "slots order": slotsOrder,
  "too many rows": tooManyRows,
  "too many counts": tooManyCounts,
  "not a sale": notASale,
};
const OF_KEYS = { missing: missingKey, "wrong kind": wrongKind, "unknown word": unknownWord };

/** Where a text is no TOML document, or what else it is. */
function notToml(text) {
  const start = Object.keys(STARTS).find((each) => text.startsWith(each));
  if (start) {
    return fault("toml.answer", { found: STARTS[start], at: 0 });
  }
  try {
    readToml(text);
  } catch (wrong) {
    if (wrong instanceof NotToml) {
      return fault(wrong.sentence, { ...wrong.fields, at: wrong.at });
    }
  }
  return null;
}

/** The first fault of some, or null. */
export function firstOf(faults) {
  return faults.next().value ?? null;
}

/** What is wrong with a setting that was refused for a cause, as docs/FORMATS.md names them; null where nothing is found. */
export function settingFault(text, cause, command, hasUnits) {
  if (cause === "not toml") {
    return notToml(text);
  }
  const setting = new SettingFile(text);
  if (cause === "other kind") {
    return firstOf(otherKind(setting, command, hasUnits));
  }
  if (cause in OF_CONTENTS) {
    return firstOf(OF_CONTENTS[cause](setting));
  }
  const cut = cause.lastIndexOf(" ");
  return firstOf(OF_KEYS[cause.slice(0, cut)](setting, cause.slice(cut + 1)));
}
