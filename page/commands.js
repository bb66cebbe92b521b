// The commands of the page, each in one entry: a further command of the program wants one more entry here, and a `view` only where its
// text should be shown as more than text.

import { answerView, asymView, determView, findView, ironUnitsView, ironView, requireView, unitsView } from "./answers.js";
import { awardView, thresholdView } from "./awards.js";
import { sampleConditions } from "./conditions.js";
import { rangeOfAward, rangeOfFirst, rangeOfSecond } from "./draws.js";
import {
  auditView,
  checkView,
  determCheckView,
  drillView,
  makeView,
  realiseView,
  replayView,
  reportView,
  rowsView,
  runView,
} from "./views.js";

/** What may stand beside the setting file: its name in sentences, and what a file of it is called. `of` has the other kinds whose files
 * will do as well, but for those without a mechanism where it `wantsMechanism`. `sample` makes a text to begin with from the
 * setting, where there is none. */
export const SECONDS = {
  answer: {
    label: "Answer",
    file: "answer.csv",
    hint: "What solve, find, iron, require, fair, findfair, asym, units or ironunits printed",
    of: ["required", "fairest", "sale", "units"],
  },
  conditions: {
    label: "Conditions",
    file: "conditions.csv",
    hint:
      "require,1, then a line for each condition, then end. revenue,SIDE,NUM,DEN with the side least or most; welfare,…; " +
      "utility,AGENT,…; chance,OUTCOME,…; at,PROFILE,OUTCOME,…; pay,AGENT,…; pay,AGENT,TYPE,…",
    sample: sampleConditions,
  },
  mechanism: {
    label: "Answer",
    file: "answer.csv",
    hint: "What solve, find, iron, require, fair or findfair printed, or a rule of your own",
    of: ["answer", "required", "fairest"],
    wantsMechanism: true,
  },
  drawn: {
    label: "Answer",
    file: "answer.csv",
    hint: "What solve, find, iron, require, fair, findfair, asym, units or ironunits printed, or a rule of your own",
    of: ["answer", "required", "fairest", "mechanism", "sale", "units"],
    wantsMechanism: true,
  },
  reported: {
    label: "Answer",
    file: "answer.csv",
    hint:
      "What solve, find, iron, require, fair, findfair, asym, units or ironunits printed, or a rule of your own; " +
      "of an auction its odds and pays will do",
    of: ["answer", "required", "fairest", "mechanism", "drawn", "sale", "units"],
    wantsMechanism: true,
  },
  rule: { label: "Answer", file: "rule.csv", hint: "What determ printed" },
  pivots: { label: "Pivots", file: "pivots.csv", hint: "Records pivot,ROW,COLUMN and then end" },
  odds: { label: "Odds", file: "odds.csv", hint: "interim,DEN, then odds with a number for each value, then end" },
};

/** The further words of commands. The program judges what is typed. One that `isOption` stands behind its name (`word`, where that is
 * another one), is left out where it is empty, and is folded away; `kind` is the kind of setting that it is for, where it is not for all;
 * `profile` is chosen, a report for each agent. */
export const FIELDS = {
  width: { label: "Width in bits", hint: "4 to 62; left empty it is 62", initial: "", isOption: true },
  units: { label: "Units", hint: "1 to 12, all alike; each bidder wants one", initial: "1" },
  ofUnits: {
    label: "Units",
    hint: "How many the answer is about, where units or ironunits printed it; else left empty",
    initial: "",
    isOption: true,
    word: "units",
    kind: "auction",
  },
  profile: { label: "Reports", initial: "" },
  first: { label: "First draw", hint: "from 0 to one below the denominator", initial: "0" },
  second: { label: "Second draw", hint: "0, but for an auction whose one item is sold", initial: "0" },
  draw: { label: "Draw", hint: "0, but where bidders share the last units", initial: "0" },
  number: { label: "Number", hint: "0 to 999999", initial: "2" },
};

/** `label` is the question that a command answers, as it is offered; of one that `isExpert` it is folded away. `asks` says what it does, `button` stands on the button that carries it out, and `next` on the one that asks it of an answer.
 * `kind` is the kind of setting that it is for, where it is not for all: `general`, `auction` or `sale`. `second` names the kind of its
 * second file, and `fields` its further words in order. `makes` names the kind of file that it prints, and `saves` how such a file is
 * called behind the name of its setting. `tooWide` has the commands to go on with where there is no answer, `draws` how many draws there
 * are for its fields, and `isLive` is of those that are asked anew as soon as one of their fields changes. */
export const COMMANDS = [
  {
    word: "solve",
    label: "Which rule is best?",
    asks: "Which rule is best? Finds it, with what shows that no other is better.",
    button: "Solve",
    fields: ["width"],
    view: answerView,
    makes: "answer",
    tooWide: ["find", "iron", "asym", "threshold"],
  },
  {
    word: "find",
    label: "The best rule, with longer numbers",
    isExpert: true,
    asks: "Which rule is best? Also where the numbers of solve grow too wide.",
    button: "Find with longer numbers",
    kind: "general",
    fields: [],
    view: findView,
    makes: "answer",
    saves: "found",
    tooWide: ["asym"],
  },
  {
    word: "iron",
    label: "The best auction in closed form",
    isExpert: true,
    asks: "Which auction is best, by virtual values? Also where the numbers of solve grow too wide.",
    button: "Solve in closed form",
    kind: "auction",
    fields: [],
    view: ironView,
    makes: "answer",
    tooWide: ["threshold"],
  },
  {
    word: "threshold",
    label: "Which prices should winners pay?",
    asks: "Which auction is best, as prices that winners alone pay? Truth is then best whatever the others bid.",
    button: "Set the prices",
    next: "Set prices that winners alone pay",
    kind: "auction",
    fields: ["units"],
    view: thresholdView,
    makes: "prices",
    isLive: true,
  },
  {
    word: "units",
    label: "What if there are several units?",
    asks: "Which auction is best, where several units of the item are sold?",
    button: "Sell the units",
    kind: "auction",
    fields: ["units", "width"],
    view: unitsView,
    makes: "units",
    tooWide: ["ironunits", "threshold"],
  },
  {
    word: "ironunits",
    label: "Several units in closed form",
    isExpert: true,
    asks: "Which auction of several units is best, by virtual values? Also where the numbers of units grow too wide.",
    button: "Sell the units in closed form",
    kind: "auction",
    fields: ["units"],
    view: ironUnitsView,
    makes: "units",
    tooWide: ["threshold"],
  },
  {
    word: "asym",
    label: "How often should each bidder win?",
    asks: "How often should each bidder have the item, where bidders differ?",
    button: "Sell the item",
    next: "Solve by how often each bidder wins",
    kind: "sale",
    fields: ["width"],
    view: asymView,
    makes: "sale",
    tooWide: ["find"],
  },
  {
    word: "determ",
    label: "Which rule without lotteries is best?",
    asks: "Which rule without lotteries is best? This may take long.",
    button: "Solve without lotteries",
    kind: "general",
    fields: ["width"],
    view: determView,
    makes: "rule",
    saves: "rule",
  },
  {
    word: "fair",
    label: "Which rule is the fairest?",
    asks: "Under which rule does the agent that gets least get most?",
    button: "Find the fairest",
    kind: "general",
    fields: ["width"],
    view: answerView,
    makes: "fairest",
    saves: "fairest",
    tooWide: ["findfair"],
  },
  {
    word: "findfair",
    label: "The fairest rule, with longer numbers",
    isExpert: true,
    asks: "The same as fair, also where the numbers of fair grow too wide.",
    button: "Find the fairest with longer numbers",
    kind: "general",
    fields: [],
    view: findView,
    makes: "fairest",
    saves: "fairest",
  },
  {
    word: "require",
    label: "Which rule is best under my conditions?",
    asks: "Which rule is best among those that meet conditions of yours?",
    button: "Find under conditions",
    kind: "general",
    second: "conditions",
    fields: [],
    view: requireView,
    makes: "required",
    saves: "required",
  },
  {
    word: "check",
    label: "Is this answer right?",
    asks: "Is what an answer claims so? Uses nothing of the part that searches.",
    button: "Check",
    next: "Check this answer",
    second: "answer",
    fields: ["ofUnits"],
    view: checkView,
  },
  {
    word: "determcheck",
    label: "Is this rule without lotteries best?",
    isExpert: true,
    asks: "Is what an answer about rules without lotteries claims so?",
    button: "Check",
    next: "Check this answer",
    kind: "general",
    second: "rule",
    fields: [],
    view: determCheckView,
  },
  {
    word: "audit",
    label: "Is my rule truthful?",
    asks: "Does a rule meet all conditions, and if not, which one does it break first?",
    button: "Audit",
    next: "Audit its rule",
    kind: "general",
    second: "mechanism",
    fields: [],
    view: auditView,
  },
  {
    word: "realise",
    label: "Can an auction have these odds?",
    asks: "Does some auction have these odds?",
    button: "Realise",
    kind: "auction",
    second: "odds",
    fields: [],
    view: realiseView,
  },
  {
    word: "run",
    label: "Which outcome comes?",
    asks: "Which outcome do two draws give at some reports, and who pays what?",
    button: "Run",
    next: "Draw an outcome",
    second: "drawn",
    fields: ["profile", "first", "second", "ofUnits"],
    draws: { first: rangeOfFirst, second: rangeOfSecond },
    view: runView,
  },
  {
    word: "award",
    label: "Who wins with these bids?",
    asks: "Who wins at these bids, and what does each winner pay? Losers pay nothing.",
    button: "Award",
    next: "Award it to bidders",
    kind: "auction",
    follows: "prices",
    fields: ["units", "profile", "draw"],
    draws: { draw: rangeOfAward },
    view: awardView,
    isLive: true,
  },
  {
    word: "report",
    label: "What does my rule do?",
    asks: "What does a rule do, and how far is it from truthful?",
    button: "Report",
    next: "Report on it",
    second: "reported",
    fields: ["ofUnits"],
    view: reportView,
  },
  {
    word: "rows",
    label: "The conditions as a linear program",
    isExpert: true,
    asks: "What are the conditions, as a linear program?",
    button: "Show the rows",
    fields: [],
    view: rowsView,
  },
  {
    word: "replay",
    label: "Numbers under listed pivots",
    isExpert: true,
    asks: "How large do numbers grow under listed pivots?",
    button: "Replay",
    second: "pivots",
    fields: ["width"],
    view: replayView,
  },
  {
    word: "make",
    label: "A setting to try things on",
    isExpert: true,
    asks: "A setting that a number stands for, to try things on.",
    button: "Make a setting",
    takesNoSetting: true,
    fields: ["number"],
    view: makeView,
    makes: "setting",
  },
  {
    word: "drill",
    label: "Solve and check a made setting",
    isExpert: true,
    asks: "Solves and checks the setting that a number stands for.",
    button: "Drill",
    takesNoSetting: true,
    fields: ["number"],
    view: drillView,
  },
];

/** The command with a word. */
export function commandOf(word) {
  return COMMANDS.find((command) => command.word === word);
}

/** Whether a command or a field is for a setting. Where none is known, each may be. */
export function fits({ kind }, setting) {
  return kind === undefined || !setting || setting.kinds.includes(kind);
}

const DONE = [0, 10, 11];
const NONE = 10; // no mechanism
const NO_ANSWER = [12, 22];

/** The commands that may follow where a command ended with a status. */
export function nextCommands(command, status, setting) {
  return COMMANDS.filter((each) => fits(each, setting) && follows(each, command, status));
}

function follows({ word, second, follows: kind = second }, { makes, tooWide = [] }, status) {
  if (NO_ANSWER.includes(status)) {
    return tooWide.includes(word);
  }
  const isTaken = makes !== undefined && (kind === makes || takenAs(makes).includes(kind));
  return isTaken && DONE.includes(status) && !(SECONDS[second]?.wantsMechanism && status === NONE);
}

/** The kinds of second files as which a file of a kind is taken. */
export function takenAs(kind) {
  return Object.keys(SECONDS).filter((each) => each === kind || SECONDS[each].of?.includes(kind));
}

/** The words of a call, as they would stand behind the program's name, without fields that are not for the setting. How many units there
 * are stands before a second file. */
export function wordsOf({ word, second, fields, takesNoSetting }, values, setting) {
  const given = (field) => {
    const { isOption, word: name = field } = FIELDS[field];
    if (!isOption) {
      return [values[field]];
    }
    return values[field] === "" || !fits(FIELDS[field], setting) ? [] : [`--${name}`, values[field]];
  };
  const units = fields.filter((field) => field === "units");
  const others = fields.filter((field) => field !== "units");
  return [
    word,
    ...(takesNoSetting ? [] : ["setting"]),
    ...units.flatMap(given),
    ...(second ? ["second"] : []),
    ...others.flatMap(given),
  ];
}

/** How a file that a command printed is called, after the name of its setting. */
export function fileOf({ word, makes, saves, takesNoSetting }, name) {
  if (makes === "setting") {
    return "setting.toml";
  }
  return takesNoSetting ? `${word}.csv` : `${name}-${saves ?? (word === "solve" ? "answer" : word)}.csv`;
}
