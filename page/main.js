// The page: it begins with a setting of the gallery or of a link, asks the library what the user asks, and shows what it says.

import { showsExact } from "./amounts.js";
import { fileOf, nextCommands, wordsOf } from "./commands.js";
import { conditionRowNames, conditionsOf } from "./conditions.js";
import { button, byId, keepsOpen, make } from "./dom.js";
import { Editor } from "./editor.js";
import { Engine, Interrupted, canRun, unpacked } from "./engine.js";
import { useSentences } from "./faults.js";
import { save } from "./files.js";
import { fragmentOf, partsOf } from "./link.js";
import { patternDefinitions } from "./pictures.js";
import { Question } from "./question.js";
import { firstWith, recordsOf, withWord } from "./records.js";
import { asSentence, explained } from "./refusals.js";
import { readSetting } from "./setting.js";
import { Sliders } from "./sliders.js";
import { readToml } from "./toml.js";
import { conditionNames, verdict, view } from "./verdicts.js";
import { textView } from "./views.js";

const FIRST = "auction-reserve";
const REFUSED_FROM = 64;
const MOST_SHOWN = 200000; // letters of a text that the page shows; a longer one can be saved whole
const MOST_NAMED = 2000; // conditions whose names are asked for
const PATIENCE = 300; // milliseconds of a call after which the page says that it works

const STATUS_WORDS = {
  64: "The words are no command",
  65: "The setting is refused",
  66: "The second file is refused",
  67: "A word is refused",
  72: "There is no memory for this",
};

class Page {
  constructor(worker, module, { gallery, words }) {
    // One worker reads the setting while it is written, and the other one carries commands out.
    this.engine = new Engine(worker, module);
    this.editor = new Editor(new Engine(worker, module), gallery, {
      onChange: () => this.settingChanged(),
      onBegin: (asked) => this.begins(asked),
    });
    this.question = new Question(words, {
      onAsk: () => this.asks(),
      onChange: () => this.asksAnew(),
      call: (told, second) => this.engine.call(told, this.editor.text, second),
    });
    this.sliders = new Sliders((text) => this.numbersMoved(text), () => this.marksStale(true));
    this.printed = { text: "", file: "answer.csv" };
    this.asked = null;
    this.running = 0; // calls whose answer is not shown yet
    this.isMoved = false;
    this.isMoving = false;
    this.wire();
  }

  wire() {
    byId("stop").addEventListener("click", () => this.engine.stop());
    byId("printed-save").addEventListener("click", () => save(this.printed.file, this.printed.text));
    byId("link").addEventListener("click", () => this.links());
    byId("setting").addEventListener("input", () => this.marksStale(this.editor.text !== this.asked));
    byId("exact").addEventListener("change", ({ target }) => this.showsAgain(target.checked));
    byId("setting").addEventListener("keydown", (event) => {
      if (event.key === "Enter" && (event.ctrlKey || event.metaKey)) {
        event.preventDefault();
        this.asks();
      }
    });
    addEventListener("hashchange", () => this.follows(location.hash));
  }

  /** Begins with what a link says, and else with the first example. */
  async opens() {
    if (!(await this.follows(location.hash))) {
      await this.editor.begins(FIRST);
    }
  }

  /** Takes the setting and the question of a fragment, where it has some that are not there yet. */
  async follows(fragment) {
    if (fragment === this.fragment) {
      return true;
    }
    this.fragment = fragment;
    try {
      const parts = await partsOf(fragment);
      if (parts === null) {
        return false;
      }
      const { example, setting, ...asked } = parts;
      if (setting === undefined && !this.editor.has(example)) {
        throw new RangeError(`there is no example ${example}`);
      }
      await (setting === undefined ? this.editor.begins(example, asked) : this.editor.takes(setting, asked));
      return true;
    } catch (fault) {
      byId("link-state").textContent = `The link cannot be read: ${fault.message}.`;
      return false;
    }
  }

  /** Puts the setting and the question into the address of the page, and copies that. */
  async links() {
    const { entry, text } = this.editor;
    const what = entry && entry.text === text ? { example: entry.name } : { setting: text };
    this.fragment = await fragmentOf({ ...this.question.parts(), ...what });
    history.replaceState(null, "", this.fragment);
    const isCopied = await (navigator.clipboard?.writeText(location.href) ?? Promise.reject()).then(() => true, () => false);
    byId("link-text").hidden = isCopied;
    byId("link-text").value = location.href;
    byId("link-state").textContent = isCopied
      ? "Copied. What stands behind its # is the setting; it goes behind the address of any copy of this page."
      : "The link is the address of the page; copy it from here.";
    if (!isCopied) {
      byId("link-text").select();
    }
  }

  /** Marks the answer that stands there as one about another setting, or as one about this one. */
  marksStale(isStale) {
    byId("stale").hidden = !isStale;
    byId("answer").classList.toggle("stale", isStale);
  }

  settingChanged() {
    const { entry, setting, text } = this.editor;
    this.marksStale(text !== this.asked);
    this.question.knows(entry, setting);
    this.sliders.shows(text);
  }

  /** Asks of a setting that begins what is to be asked of it. */
  begins(asked) {
    this.question.begins(asked);
    return this.asks({ isQuiet: true });
  }

  /** Asks again of the setting whose numbers moved. */
  numbersMoved(text) {
    this.editor.moves(text);
    const setting = readSetting(text, this.editor.setting?.kinds.includes("sale"));
    this.question.knows(this.editor.entry, setting);
    if (this.question.command.second || this.question.command.takesNoSetting) {
      this.question.shows("solve");
    }
    this.asksAnew();
  }

  /** Asks again as something moves: one call at a time, and the last one of what stands there in the end. */
  async asksAnew() {
    this.isMoved = true;
    if (this.isMoving) {
      return;
    }
    this.isMoving = true;
    while (this.isMoved) {
      this.isMoved = false;
      await this.asks({ isQuiet: true });
    }
    this.isMoving = false;
  }

  /** Carries out what is asked, and shows what comes. A quiet question leaves the reader where it is. */
  async asks({ isQuiet = false } = {}) {
    const { command, values, second } = this.question;
    const words = wordsOf(command, values, this.question.setting);
    const asked = { command, words, values: { ...values }, settingText: this.editor.text, second, name: this.editor.name };
    this.asked = asked.settingText;
    this.busy(true);
    try {
      const told = await this.engine.call(words, asked.settingText, second);
      await this.shows(asked, told);
      if (!isQuiet) {
        comesIntoView(byId("answer"));
      }
    } catch (fault) {
      this.tellFault(fault);
    } finally {
      this.busy(false);
    }
  }

  busy(isMore) {
    this.running += isMore ? 1 : -1;
    const isBusy = this.running > 0;
    clearTimeout(this.patience);
    byId("answer").setAttribute("aria-busy", String(isBusy));
    byId("stop").hidden = true;
    if (isBusy) {
      this.patience = setTimeout(() => {
        byId("stop").hidden = false;
        byId("progress").textContent = "Working\u2026";
      }, PATIENCE);
    }
  }

  tellFault(fault) {
    if (!(fault instanceof Interrupted)) {
      console.error(fault);
    }
    byId("progress").textContent = fault.message;
  }

  /** Shows the last text again, with exact fractions alone or with decimals. */
  async showsAgain(isExact) {
    showsExact(isExact);
    if (this.shown) {
      await this.shows(...this.shown);
    }
  }

  /** Shows a text of the program: what it says in a few words, its pictures and tables, and the text itself. */
  async shows(asked, told) {
    const { command, values, settingText, name } = asked;
    this.shown = [asked, told];
    const isRefused = told.status >= REFUSED_FROM;
    const text = isRefused ? told.err : told.out;
    this.printed = { text, file: fileOf(command, name) };
    const found = isRefused ? refusalView(asked, told) : await this.viewOf(asked, told.out);
    byId("verdict").className = `verdict ${found.kind}`;
    byId("verdict").replaceChildren(
      make("p", { class: "large" }, ...found.shown),
      make("p", {}, ...[found.words].flat()),
      ...this.further(command, told),
    );
    keepsOpen(byId("content"), found.content);
    byId("content").replaceChildren(...found.content);
    byId("printed").textContent = text.length > MOST_SHOWN ? `${text.slice(0, MOST_SHOWN)}\n\u2026` : text;
    byId("shown").hidden = false;
    byId("nothing").hidden = true;
    byId("exact-part").hidden = false;
    this.marksStale(command.takesNoSetting !== true && settingText !== this.editor.text);
    byId("answer").dataset.status = told.status;
    byId("progress").textContent = `${found.large}. Status ${told.status}, after ${secondsText(told.seconds)}.`;
    if (told.out.startsWith("answer,")) {
      this.question.takes(command.makes, told.out, command.makes === "units" ? values.units : "");
    }
  }

  /** What is shown of a text that is no refusal. */
  async viewOf({ command, values, settingText, second: judged }, text) {
    const [records, setting] = [recordsOf(text), readSetting(settingText)];
    const call = (words, second) => this.engine.call(words, settingText, second);
    const namesFor = (answer) => this.namesFor(answer, setting, call);
    return (command.view ?? textView)(records, { setting, judged, values, call, namesFor, names: await namesFor(records) });
  }

  /** The names of the conditions of which an answer has multipliers. */
  async namesFor(records, setting, call) {
    const [, kind] = firstWith(records, "answer") ?? [];
    const count = withWord(records, "row").length;
    if (!NAMED_BY_ROWS.includes(kind) || count === 0 || count > MOST_NAMED) {
      return [];
    }
    const told = await call(["rows", "setting"]);
    const names = conditionNames(recordsOf(told.out), records);
    const levels = kind === "fair" ? (setting?.agents ?? []).map(({ name }) => `${name} gets the level`) : [];
    const wanted = kind === "required" ? conditionRowNames(conditionsOf(records), setting) : [];
    return [...names, ...levels, ...wanted];
  }

  /** What may be done next. */
  further(command, told) {
    if (command.makes === "setting" && told.status === 0) {
      return [make("p", {}, button("Put it into the editor", () => this.editor.takes(told.out)))];
    }
    const next = nextCommands(command, told.status, this.editor.setting)
      .filter(({ word }) => this.question.isOffered(word))
      .map((each) => button(each.next ?? each.button, () => this.goesOnWith(each)));
    return next.length > 0 ? [make("p", { class: "buttons" }, next)] : [];
  }

  /** Asks a command, and leads to its fields where it has some of its own. */
  async goesOnWith({ word, fields }) {
    this.question.shows(word);
    await this.asks();
    if (fields.includes("profile")) {
      byId("fields").querySelector("select")?.focus();
    }
  }
}

const NAMED_BY_ROWS = ["general", "auction", "required", "fair", "units"];

/** Where the answer stands below the question, and not beside it, the page moves there. */
function comesIntoView(element) {
  if (!matchMedia("(min-width: 64rem)").matches) {
    const isCalm = matchMedia("(prefers-reduced-motion: reduce)").matches;
    element.scrollIntoView({ block: "start", behavior: isCalm ? "auto" : "smooth" });
  }
}

function refusalView({ words, settingText, second }, { status, err }) {
  const told = explained(words, err, { setting: settingText, second }, { setting: "", second: "" });
  const says = [make("code", {}, err.trim()), told ? ` ${asSentence(told.text)}` : ""];
  return view(verdict(STATUS_WORDS[status] ?? "Refused", says, "bad"));
}

function secondsText(seconds) {
  return seconds < 0.1 ? `${Math.max(1, Math.round(seconds * 1000))} ms` : `${seconds.toFixed(1)} s`;
}

async function begins() {
  if (!canRun()) {
    byId("unfit").hidden = false;
    return;
  }
  document.body.append(patternDefinitions());
  const module = await unpacked(byId("module").textContent);
  const contents = JSON.parse(byId("contents").textContent);
  useSentences(contents.sentences);
  const page = new Page(byId("worker").textContent, module, contents);
  await page.opens();
  // For scripts that try the page.
  window.mechdes = Object.assign(page, { readToml });
  document.documentElement.dataset.ready = "yes";
}

begins();
