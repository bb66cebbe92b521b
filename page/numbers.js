// The numbers of a setting as tables to change them in. Each number has its place in the text, so that all else of the text stays as it
// is written.

import { profilesOf } from "./setting.js";
import { readToml } from "./toml.js";

const SMALLEST_REACH = 10; // how far a slider goes at least
const MOST_BIDDERS = 12;

/** What stands for a value: a number has its place. */
function withPlace(kind, found, start, end) {
  return kind === "integer" || kind === "float" ? { amount: found, start, end } : found;
}

/** The tables of a setting's numbers: each has a title, heads, and rows of a name and cells. A cell has a label of its own, its number
 * (`amount`), where it stands in the text (`start` and `end`), and how far a slider takes it (`least` and `most`). Of a text that cannot
 * be read there are none. */
export function numberTables(text) {
  try {
    const file = readToml(text, withPlace);
    const tables = file.kind === "auction" ? auctionTables(file) : generalTables(file);
    return tables.filter(({ rows }) => rows.some(({ cells }) => cells.length > 0));
  } catch {
    return [];
  }
}

/** All cells of tables, in their order. */
export function cellsOf(tables) {
  return tables.flatMap(({ rows }) => rows.flatMap(({ cells }) => cells));
}

/** A text with another number in the place of a cell's. */
export function withNumber(text, { start, end }, amount) {
  return `${text.slice(0, start)}${amount}${text.slice(end)}`;
}

/** What is the same in two texts whose tables differ in their numbers alone. */
export function shapeOf(tables) {
  return JSON.stringify(tables.map(({ title, heads, rows }) => [title, heads, rows.map(({ name, cells }) => [name, cells.length])]));
}

// --- auctions -------------------------------------------------------------------------------------------------------------------

function auctionTables({ bidders, values, weights, revenue, welfare, keep }) {
  const columns = values.map((_, place) => `${place + 1}`);
  const valueCells = values.map((value, place) => ({
    ...value,
    label: `Value ${place + 1}`,
    least: place > 0 ? values[place - 1].amount + 1 : 0,
    most: place + 1 < values.length ? values[place + 1].amount - 1 : reachOf(values),
  }));
  const weightCells = weights.map((weight, place) => ({
    ...weight,
    label: `Weight of the value ${values[place]?.amount}`,
    least: 1,
    most: reachOf(weights),
  }));
  const rest = [
    bidders && { ...bidders, label: "Bidders", least: 1, most: MOST_BIDDERS },
    ...named({ revenue, welfare, keep }).map(([name, cell]) => ranged(cell, AUCTION_LABELS[name], [cell])),
  ].filter(Boolean);
  return [
    { title: "Values and weights", heads: columns, rows: [{ name: "Value", cells: valueCells }, { name: "Weight", cells: weightCells }] },
    { title: "The auction", heads: rest.map(({ label }) => label), rows: [{ name: "", cells: rest }] },
  ];
}

const AUCTION_LABELS = { revenue: "Weight of revenue", welfare: "Weight of welfare", keep: "Worth to the seller" };

/** An auction's text with one more value, above the others, of the weight of the last one. */
export function withValueAdded(text) {
  const { values, weights } = readToml(text, withPlace);
  const [value, weight] = [values.at(-1), weights.at(-1)];
  const step = values.length > 1 ? value.amount - values.at(-2).amount : 1;
  return changed(text, [[value.end, value.end, `, ${value.amount + Math.max(1, step)}`], [weight.end, weight.end, `, ${weight.amount}`]]);
}

/** An auction's text without its last value. */
export function withoutLastValue(text) {
  const { values, weights } = readToml(text, withPlace);
  const cuts = [values, weights].filter((list) => list.length > 1);
  return changed(text, cuts.map((list) => [list.at(-2).end, list.at(-1).end, ""]));
}

/** A text with others in the place of parts, each given by its two ends. */
function changed(text, parts) {
  const lastFirst = parts.toSorted(([first], [second]) => second - first);
  return lastFirst.reduce((whole, [start, end, part]) => whole.slice(0, start) + part + whole.slice(end), text);
}

// --- general settings -----------------------------------------------------------------------------------------------------------

function generalTables({ outcomes, objective = {}, prior, agent }) {
  const profiles = profilesOf(agent).map((types) => types.join(", "));
  return [
    ...agent.map((each) => agentTable(each, outcomes)),
    ...agent.filter(({ utility_at: at }) => at).map(({ name, utility_at: at }) => interdependentTable(name, at, profiles, outcomes)),
    prior && columnTable("Joint weights", "Weight", profiles, prior),
    objectiveTable(objective, outcomes),
  ].filter(Boolean);
}

function agentTable({ name, types, weights, outside, utility }, outcomes) {
  const lists = Object.entries({ Weight: weights, Outside: outside }).filter(([, list]) => list);
  const own = (type, place) => lists.map(([head, list]) => ranged(list[place], `${head} of ${type}, ${name}`, list));
  const utilities = utility?.flat() ?? [];
  const labelOf = (outcome, type) => `Utility of ${outcomes[outcome]} to ${type}, ${name}`;
  const worth = (type, place) => utility?.[place].map((cell, outcome) => ranged(cell, labelOf(outcome, type), utilities)) ?? [];
  const heads = [...lists.map(([head]) => head), ...(utility ? outcomes : [])];
  return { title: name, heads, rows: types.map((type, place) => ({ name: type, cells: [...own(type, place), ...worth(type, place)] })) };
}

function interdependentTable(name, at, profiles, outcomes) {
  const all = at.flat();
  const cellOf = (profile) => (cell, outcome) => ranged(cell, `Utility of ${outcomes[outcome]} to ${name} at ${profile}`, all);
  const rows = profiles.map((profile, rank) => ({ name: profile, cells: at[rank].map(cellOf(profile)) }));
  return { title: `${name}, by the types of all`, heads: outcomes, rows };
}

function columnTable(title, head, names, list) {
  return { title, heads: [head], rows: names.map((name, place) => ({ name, cells: [ranged(list[place], `${head} of ${name}`, list)] })) };
}

function objectiveTable({ revenue, welfare, value = [] }, outcomes) {
  const cells = [
    ...named({ Revenue: revenue, Welfare: welfare }).map(([name, cell]) => ranged(cell, `Weight of ${name.toLowerCase()}`, [cell])),
    ...value.map((cell, outcome) => ranged(cell, `Designer's value of ${outcomes[outcome]}`, value)),
  ];
  const heads = [...named({ Revenue: revenue, Welfare: welfare }).map(([name]) => name), ...(value.length > 0 ? outcomes : [])];
  return { title: "Objective", heads, rows: [{ name: "", cells }] };
}

// --- how far sliders go ---------------------------------------------------------------------------------------------------------

/** The keys that are there. */
function named(table) {
  return Object.entries(table).filter(([, cell]) => cell);
}

/** A cell with its label, which goes twice as far as the numbers of its group, and below 0 where one of them does. */
function ranged(cell, label, group) {
  const most = reachOf(group);
  return { ...cell, label, least: group.some(({ amount }) => amount < 0) ? -most : 0, most };
}

function reachOf(group) {
  return Math.max(SMALLEST_REACH, ...group.map(({ amount }) => 2 * Math.abs(amount)));
}
