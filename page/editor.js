// The setting: the gallery to begin with, the editor, and what the program says of its text while it is written.

import { button, byId, make } from "./dom.js";
import { opensFile, save } from "./files.js";
import { asSentence, explained } from "./refusals.js";
import { readSetting, remarkOf, summaryOf } from "./setting.js";

const PAUSE = 250; // milliseconds without a key before the text is read
const REFUSED = 65;
const CHECK = ["check", "setting", "second"];
const SALE = ["asym", "setting", "--width", "4"]; // asks whether a setting is a sale, and looks no further than four bits for an answer

/** The settings of the gallery, in groups. */
function filledGallery(select, gallery) {
  const groups = [
    ["Auctions", gallery.filter(({ text }) => isAuction(text))],
    ["General settings", gallery.filter(({ text }) => !isAuction(text))],
  ];
  for (const [label, entries] of groups) {
    const options = entries.map(({ name, title }) => make("option", { value: name }, title));
    select.append(make("optgroup", { label }, options));
  }
}

function isAuction(text) {
  return /^kind = "auction"/m.test(text);
}

/** The editor of the setting. `onChange` hears of each text that was read, and `onBegin` of each other setting once it was read, with what
 * is to be asked of it. */
export class Editor {
  constructor(engine, gallery, { onChange, onBegin }) {
    this.engine = engine;
    this.gallery = gallery;
    this.onChange = onChange;
    this.onBegin = onBegin;
    this.area = byId("setting");
    this.state = byId("setting-state");
    this.entry = null;
    this.setting = null;
    this.reading = 0;
    this.timer = null;
    this.wire();
  }

  wire() {
    const select = byId("gallery");
    filledGallery(select, this.gallery);
    select.addEventListener("change", () => this.begins(select.value));
    this.area.addEventListener("input", () => this.readsSoon());
    byId("setting-save").addEventListener("click", () => save(`${this.name}.toml`, this.text));
    opensFile(byId("setting-open"), (text) => {
      if (text === null) {
        this.tell("bad", "That file is no text in UTF-8.");
      } else {
        this.takes(text);
      }
    });
  }

  get text() {
    return this.area.value;
  }

  /** What files of the setting are called. */
  get name() {
    return this.entry?.name ?? "setting";
  }

  /** Whether the gallery has a setting of this name. */
  has(name) {
    return this.gallery.some((each) => each.name === name);
  }

  /** Begins with a setting of the gallery, and asks what its page asks, or something else. */
  begins(name, asked) {
    const entry = this.gallery.find((each) => each.name === name) ?? null;
    byId("gallery").value = entry?.name ?? "";
    this.entry = entry;
    return entry ? this.fills(entry.text, { ...entry.asks, ...asked }) : this.reads();
  }

  /** Takes another text, and asks something of it. */
  takes(text, asked = {}) {
    this.entry = null;
    byId("gallery").value = "";
    return this.fills(text, asked);
  }

  /** Takes a text in which numbers moved. */
  moves(text) {
    this.area.value = text;
    this.readsSoon();
  }

  /** Puts a text into the editor, which is as high as the text is long, within bounds. */
  async fills(text, asked) {
    this.area.value = text;
    this.area.rows = Math.min(26, Math.max(12, text.split("\n").length + 1));
    this.area.scrollTop = 0;
    await this.reads();
    return this.onBegin(asked);
  }

  readsSoon() {
    clearTimeout(this.timer);
    this.timer = setTimeout(() => this.reads(), PAUSE);
  }

  /** Has the program read the text. It looks at the setting first, so that without an answer it refuses either the one or the
   * other. */
  async reads() {
    clearTimeout(this.timer);
    this.reading += 1;
    const { reading, text } = this;
    const told = await this.engine.call(CHECK, text).catch(() => null);
    const sold = await this.engine.call(SALE, text).catch(() => null);
    if (told === null || reading !== this.reading) {
      return;
    }
    this.setting = told.status === REFUSED ? null : readSetting(text, sold !== null && sold.status !== REFUSED);
    byId("remark").textContent = this.remark();
    byId("gallery").value = this.isExample() ? this.entry.name : "";
    byId("puzzle").textContent = this.isExample() ? this.entry.question : "";
    if (told.status === REFUSED) {
      this.tellRefusal(told.err.trim().replace(/^mechdes: setting refused: /, ""));
    } else {
      this.tell("good", this.setting ? `This is ${summaryOf(this.setting)}.` : "This setting is taken.");
    }
    this.onChange();
  }

  /** Whether the text is that of the example with which it began, or of the one that is there to be changed. */
  isExample() {
    const { entry, text } = this;
    return entry !== null && (entry.isOwn === true || entry.text === text);
  }

  /** What the text says of itself. What an example says of itself goes where its text is changed. */
  remark() {
    return this.entry !== null && !this.isExample() ? "" : remarkOf(this.text);
  }

  tell(kind, ...content) {
    this.state.className = `state ${kind}`;
    this.state.replaceChildren(...content);
  }

  tellRefusal(refusal) {
    const told = explained(CHECK, `setting refused: ${refusal}`, { setting: this.text }, { setting: "" });
    const go = told?.line && button(`Go to line ${told.line}`, () => this.goesTo(told.line), { class: "small" });
    this.tell("bad", make("strong", {}, `Refused: ${refusal}.`), told ? ` ${asSentence(told.text)}` : "", ...(go ? [" ", go] : []));
  }

  /** Marks a line of the text, counted from 1. */
  goesTo(line) {
    const lines = this.text.split("\n");
    const start = lines.slice(0, line - 1).reduce((total, { length }) => total + length + 1, 0);
    byId("text-of-setting").open = true;
    this.area.focus();
    this.area.setSelectionRange(start, start + lines[line - 1].length);
  }
}
