// The numbers of the setting as fields, and a slider that moves the one that was chosen.

import { byId, head, make, table } from "./dom.js";
import { cellsOf, numberTables, shapeOf, withNumber, withValueAdded, withoutLastValue } from "./numbers.js";

const MOST_CELLS = 240;
const NARROWEST_CELL = 7; // letters

/** The fields of a setting's numbers. `onMove` is given the text of the setting after each change, and `onWrong` is called where what is
 * written in a field is no whole number. */
export class Sliders {
  constructor(onMove, onWrong) {
    this.onMove = onMove;
    this.onWrong = onWrong;
    this.text = "";
    this.shape = "";
    this.cells = [];
    this.inputs = [];
    this.chosen = 0;
    byId("slider").addEventListener("input", ({ target }) => this.moves(this.chosen, target.value));
    byId("value-more").addEventListener("click", () => this.changes(withValueAdded(this.text)));
    byId("value-less").addEventListener("click", () => this.changes(withoutLastValue(this.text)));
  }

  /** Shows the numbers of a text. Where it differs from the one before in its numbers alone, each field stays. */
  shows(text) {
    const tables = numberTables(text);
    const cells = cellsOf(tables);
    const isShown = cells.length > 0 && cells.length <= MOST_CELLS;
    this.text = text;
    this.cells = cells;
    byId("numbers").hidden = !isShown;
    if (isShown && shapeOf(tables) !== this.shape) {
      this.builds(tables);
    }
    this.shape = isShown ? shapeOf(tables) : "";
    if (isShown) {
      this.fills();
    }
  }

  builds(tables) {
    this.inputs = this.cells.map((_, place) => this.inputFor(place));
    let next = 0;
    const parts = tables.map(({ title, heads, rows }) => {
      const body = rows.map(({ name, cells }) => [head(name), ...cells.map(() => this.inputs[next++])]);
      return table(title, ["", ...heads], body);
    });
    byId("number-tables").replaceChildren(...parts);
    byId("value-buttons").hidden = !this.cells.some(({ label }) => label === "Value 1");
    this.chooses(Math.max(0, this.cells.findIndex(({ label }) => label.startsWith("Weight"))));
  }

  inputFor(place) {
    const input = make("input", { type: "number", step: 1, class: "cell" });
    input.addEventListener("focus", () => this.chooses(place));
    input.addEventListener("input", () => this.moves(place, input.value));
    input.addEventListener("blur", () => this.fills());
    return input;
  }

  /** Lays the numbers into the fields, but for the one that is being written in. */
  fills() {
    this.cells.forEach(({ label, amount }, place) => {
      const input = this.inputs[place];
      input.setAttribute("aria-label", label);
      input.style.width = `${Math.max(NARROWEST_CELL, `${amount}`.length + 4)}ch`;
      if (input !== document.activeElement) {
        input.value = amount;
      }
    });
    const { label, amount } = this.cells[this.chosen];
    byId("slider-label").textContent = label;
    byId("slider").value = amount;
    byId("slider-value").textContent = amount;
  }

  /** Has the slider move a number. How far it goes stays as it was when the number was chosen. */
  chooses(place) {
    this.inputs[this.chosen]?.classList.remove("chosen");
    this.chosen = place;
    this.inputs[place].classList.add("chosen");
    const { least, most } = this.cells[place];
    Object.assign(byId("slider"), { min: least, max: most, disabled: least >= most });
    this.fills();
  }

  moves(place, written) {
    if (/^-?\d+$/.test(written)) {
      this.changes(withNumber(this.text, this.cells[place], BigInt(written)));
    } else {
      this.onWrong();
    }
  }

  changes(text) {
    this.shows(text);
    this.onMove(text);
  }
}
