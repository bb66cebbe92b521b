// The question: which command, its second file, and its further words.

import { COMMANDS, FIELDS, SECONDS, commandOf, fits, takenAs, wordsOf } from "./commands.js";
import { button, byId, folded, make } from "./dom.js";
import { drawnBelow } from "./draws.js";
import { opensFile, save } from "./files.js";
import { reportersOf } from "./setting.js";

const DEFAULT = "solve";

/** What is asked of the setting, by the words of the commands that the program has. `onAsk` is called where the user asks it, `onChange`
 * where a field of a command changes that is asked anew at once, and `call` asks the program. */
export class Question {
  constructor(words, { onAsk, onChange, call }) {
    this.onAsk = onAsk;
    this.onChange = onChange;
    this.call = call;
    this.offered = COMMANDS.filter(({ word }) => words.includes(word));
    this.texts = Object.fromEntries(Object.keys(SECONDS).map((kind) => [kind, ""]));
    this.values = Object.fromEntries(Object.entries(FIELDS).map(([name, { initial }]) => [name, initial]));
    this.picked = [];
    this.samples = [];
    this.setting = null;
    this.fillCommands();
    this.wire();
    this.shows(DEFAULT);
  }

  fillCommands() {
    const [plain, expert] = [false, true].map((isExpert) => this.choicesOf(isExpert));
    byId("commands").append(plain, folded("For experts", expert));
  }

  /** The questions for all, or those for experts. */
  choicesOf(isExpert) {
    const found = this.offered.filter((command) => (command.isExpert ?? false) === isExpert);
    return make("div", { class: "choices" }, found.map((command) => this.choiceOf(command)));
  }

  choiceOf({ word, label, asks }) {
    const input = make("input", { type: "radio", name: "command", value: word, "aria-description": asks });
    input.addEventListener("change", () => this.shows(word));
    return make("label", { class: "choice" }, input, make("span", {}, label));
  }

  wire() {
    byId("question").addEventListener("submit", (event) => {
      event.preventDefault();
      this.onAsk();
    });
    byId("second").addEventListener("input", () => {
      const units = this.command.fields.includes("ofUnits") ? this.values.ofUnits : "";
      this.takes(this.command.second, byId("second").value, units);
    });
    byId("samples").addEventListener("change", ({ target }) => this.takesSample(target.value));
    byId("second-save").addEventListener("click", () => save(SECONDS[this.command.second].file, byId("second").value));
    opensFile(byId("second-open"), (text) => this.takes(this.command.second, text ?? ""));
  }

  /** The text of the second file, where the command has one. */
  get second() {
    return this.command.second ? this.texts[this.command.second] : "";
  }

  /** Whether the program has a command, and it is for the setting. */
  isOffered(word) {
    const command = this.offered.find((each) => each.word === word);
    return command !== undefined && fits(command, this.setting);
  }

  /** Shows what a command asks for. */
  shows(word) {
    this.command = commandOf(word);
    const choice = byId("commands").querySelector(`[value="${word}"]`);
    choice.checked = true;
    choice.closest("details")?.setAttribute("open", "");
    byId("asks").textContent = this.command.asks;
    byId("ask").textContent = this.command.button;
    byId("second-part").hidden = !this.command.second;
    if (this.command.second) {
      const { label, hint, sample } = SECONDS[this.command.second];
      if (sample && this.second === "") {
        this.texts[this.command.second] = sample(this.setting);
      }
      byId("second-label").textContent = label;
      byId("second-hint").textContent = `${hint}.`;
      byId("second").value = this.second;
      this.fillSamples();
    }
    this.fillFields();
  }

  fillFields() {
    const { draws } = this.command;
    const fields = this.command.fields.filter((name) => fits(FIELDS[name], this.setting));
    const [options, plain] = [true, false].map((isOption) => fields.filter((name) => (FIELDS[name].isOption ?? false) === isOption));
    byId("fields").replaceChildren(
      ...(plain.includes("profile") ? [this.reportsField()] : []),
      ...plain.filter((name) => name !== "profile").map((name) => this.fieldFor(name)),
      ...(draws ? [button("Draw by chance", () => this.draws(), { id: "chance" })] : []),
    );
    byId("options").replaceChildren(...(options.length > 0 ? [folded("Options", options.map((name) => this.fieldFor(name)))] : []));
  }

  fieldFor(name) {
    const { label, hint } = FIELDS[name];
    const input = make("input", { id: `field-${name}`, autocomplete: "off", spellcheck: "false", "aria-describedby": `hint-${name}` });
    input.value = this.values[name];
    input.addEventListener("input", () => this.writes(name, input.value.trim()));
    const text = make("span", { class: "hint", id: `hint-${name}` }, hint);
    return make("div", { class: "field" }, make("label", { for: input.id }, label), input, text);
  }

  /** A choice for each agent of what it reports; of an auction of what each bidder bids. */
  reportsField() {
    const reporters = this.setting ? reportersOf(this.setting) : [];
    const choices = reporters.map(({ name, types }, agent) => {
      const select = make("select", { id: `report-${agent}` }, types.map((type, place) => make("option", { value: place }, type)));
      select.value = this.picked[agent];
      select.addEventListener("change", () => this.picks(agent, Number(select.value)));
      return make("span", { class: "report" }, make("label", { for: select.id }, name), select);
    });
    const title = this.setting?.kind === "auction" ? "Bids" : FIELDS.profile.label;
    return make("fieldset", { class: "reports" }, make("legend", {}, title), make("div", { class: "line" }, choices));
  }

  writes(name, text) {
    this.values[name] = text;
    if (this.command.isLive && text !== "") {
      this.onChange();
    }
  }

  /** Has an agent report one of its types. Who shares the last units may be others then, so that the draw begins anew. */
  picks(agent, place) {
    this.picked[agent] = place;
    this.setsField("draw", FIELDS.draw.initial);
    this.namesReports();
    if (this.command.isLive) {
      this.onChange();
    }
  }

  namesReports() {
    const reporters = this.setting ? reportersOf(this.setting) : [];
    this.values.profile = reporters.map(({ types }, agent) => types[this.picked[agent]]).join(",");
  }

  /** Takes the text of a second file, for all commands that read it. `units` says how many units it is about, where that is known. */
  takes(kind, text, units = "") {
    const kinds = takenAs(kind);
    kinds.forEach((each) => {
      this.texts[each] = text;
    });
    if (kinds.includes("reported")) {
      this.setsField("ofUnits", units);
    }
    if (kinds.includes(this.command.second) && byId("second").value !== text) {
      byId("second").value = text;
    }
  }

  /** The second files that the gallery has beside a setting, and what each agent may report. */
  knows(entry, setting) {
    this.samples = entry?.seconds ?? [];
    if (setting) {
      const before = JSON.stringify(this.setting ? reportersOf(this.setting) : [], withoutWeights);
      this.setting = setting;
      this.picksWithin(reportersOf(setting));
      this.offers();
      if (before !== JSON.stringify(reportersOf(setting), withoutWeights)) {
        this.fillFields();
      }
    }
    if (this.command.second) {
      this.fillSamples();
    }
  }

  /** Keeps what each agent reports where it still may. An agent that is new reports its first type, and a bidder one of the values. */
  picksWithin(reporters) {
    const isAuction = this.setting.kind === "auction";
    this.picked = reporters.map(({ types }, agent) => {
      const begin = isAuction ? (2 + 2 * agent) % types.length : 0;
      return this.picked[agent] < types.length ? this.picked[agent] : begin;
    });
    this.namesReports();
  }

  /** Offers the commands that fit the setting, and no others. */
  offers() {
    for (const input of byId("commands").querySelectorAll("input")) {
      input.parentElement.hidden = !this.isOffered(input.value);
    }
    if (!this.isOffered(this.command.word)) {
      this.shows(DEFAULT);
    }
  }

  /** Forgets the second files, where another setting begins, but for those beside it that nothing prints. */
  forgets() {
    Object.keys(this.texts).forEach((kind) => this.takes(kind, ""));
    for (const { kind, text } of this.samples.toReversed()) {
      if (!takenAs(kind).includes("reported")) {
        this.takes(kind, text);
      }
    }
  }

  /** Begins with another setting, and asks of it what its example or a link says. */
  begins({ ask, profile = "", ...values }) {
    this.forgets();
    Object.entries(FIELDS).forEach(([name, { initial }]) => this.setsField(name, values[name] ?? initial));
    if (this.setting) {
      const [reports, reporters] = [profile.split(","), reportersOf(this.setting)];
      this.picked = reporters.map(({ types }, agent) => types.indexOf(reports[agent])).map((place) => (place < 0 ? undefined : place));
      this.picksWithin(reporters);
    }
    this.shows(this.isOffered(ask) ? ask : DEFAULT);
  }

  /** The words of what is asked, by their names: what a link holds. */
  parts() {
    const fields = this.command.fields.filter((name) => this.values[name] !== FIELDS[name].initial);
    return { ask: this.command.word, ...Object.fromEntries(fields.map((name) => [name, this.values[name]])) };
  }

  setsField(name, text) {
    this.values[name] = text;
    const input = byId(`field-${name}`);
    if (input) {
      input.value = text;
    }
  }

  fillSamples() {
    const samples = this.samples.filter(({ kind }) => takenAs(kind).includes(this.command.second));
    const options = samples.map(({ name }) => make("option", { value: name }, name));
    byId("samples").replaceChildren(make("option", { value: "" }, "Take one of the gallery\u2026"), ...options);
    byId("samples-part").hidden = samples.length === 0;
  }

  takesSample(name) {
    const sample = this.samples.find((each) => each.name === name);
    if (sample) {
      this.takes(sample.kind, sample.text);
    }
  }

  /** Draws all numbers by the browser's source of chance, each as likely as any other. How many there are may hang on what is printed
   * with those before, and with 0 for the others. */
  async draws() {
    const { command, second } = this;
    Object.keys(command.draws).forEach((name) => this.setsField(name, "0"));
    for (const [name, rangeOf] of Object.entries(command.draws)) {
      const { out } = await this.call(wordsOf(command, this.values, this.setting), second);
      const range = rangeOf({ setting: this.setting, reports: this.values.profile.split(","), second, printed: out });
      this.setsField(name, String(drawnBelow(range > 0n ? range : 1n)));
    }
    this.onAsk();
  }
}

/** Leaves out of a text what is no name. */
function withoutWeights(key, part) {
  return key === "weights" ? undefined : part;
}
