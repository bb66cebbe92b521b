// What the page knows of a setting: its names and sizes. Whether it is one is the program's word alone.

import { readToml } from "./toml.js";

/** The facts of a setting that the program took, or null where the page cannot read it. `kinds` are the kinds of commands that are for
 * it: its own kind, and `sale` where it is one. */
export function readSetting(text, isSale = false) {
  try {
    const file = readToml(text);
    const setting = file.kind === "auction" ? auctionOf(file) : generalOf(file);
    return { ...setting, kinds: [setting.kind, ...(isSale ? ["sale"] : [])] };
  } catch {
    return null;
  }
}

function generalOf(file) {
  return {
    kind: "general",
    outcomes: file.outcomes.map(String),
    agents: file.agent.map(({ name, types, weights }) => ({ name: String(name), types: types.map(String), weights: weights?.map(BigInt) })),
    prior: file.prior?.map(BigInt),
    hasPayments: file.payments === true,
    truth: file.truth,
    rational: file.rational,
  };
}

function auctionOf(file) {
  return { kind: "auction", bidders: file.bidders, values: file.values.map(BigInt), weights: file.weights.map(BigInt) };
}

/** What each agent may report: its name, and its types or values. */
export function reportersOf(setting) {
  if (setting.kind === "auction") {
    const values = setting.values.map(String);
    return Array.from({ length: setting.bidders }, (_, bidder) => ({ name: `Bidder ${bidder + 1}`, types: values }));
  }
  return setting.agents;
}

/** All profiles in their order: the last agent's type changes fastest. */
export function profilesOf(agents) {
  return agents.reduce((profiles, { types }) => profiles.flatMap((front) => types.map((type) => [...front, type])), [[]]);
}

/** The weight of the profile of some types; 0 where they are none. */
export function weightOfProfile({ agents, prior }, profile) {
  const places = agents.map(({ types }, agent) => types.indexOf(profile[agent]));
  if (prior) {
    return prior[places.reduce((rank, place, agent) => rank * agents[agent].types.length + place, 0)] ?? 0n;
  }
  return agents.reduce((product, { weights }, agent) => product * (weights?.[places[agent]] ?? 0n), 1n);
}

/** A setting in a few words. */
export function summaryOf(setting) {
  if (setting.kind === "auction") {
    return `an auction, ${many(setting.bidders, "bidder")}, ${many(setting.values.length, "value")}`;
  }
  const profiles = setting.agents.reduce((product, { types }) => product * types.length, 1);
  const sizes = [many(setting.agents.length, "agent"), many(profiles, "profile"), many(setting.outcomes.length, "outcome")];
  return `a general setting, ${sizes.join(", ")}`;
}

function many(count, word) {
  return `${count.toLocaleString("en")} ${word}${count === 1 ? "" : "s"}`;
}

/** The comment at the head of a setting's file, as one line; but for sentences that lead to a page beside the file, which is not here. */
export function remarkOf(text) {
  const lines = text.split(/\r?\n/);
  const end = lines.findIndex((line) => !line.startsWith("#"));
  return lines
    .slice(0, end < 0 ? lines.length : end)
    .map((line) => line.replace(/^#+\s*/, ""))
    .join(" ")
    .trim()
    .split(/(?<=\.)\s+(?=[A-Z])/)
    .filter((sentence) => !/\.md\b/.test(sentence))
    .join(" ");
}
