// Makes elements of the page and of pictures. Text goes in as text, never as HTML.

const DRAWINGS = "http://www.w3.org/2000/svg";

function filled(element, attributes, children) {
  for (const [name, content] of Object.entries(attributes)) {
    if (content !== undefined && content !== null && content !== false) {
      element.setAttribute(name, content === true ? "" : content);
    }
  }
  element.append(...children.flat(Infinity).filter(isShown));
  return element;
}

/** What is no child: what a condition left out. */
function isShown(child) {
  return child !== null && child !== undefined && child !== false && child !== "";
}

/** An element of the page. */
export function make(name, attributes = {}, ...children) {
  return filled(document.createElement(name), attributes, children);
}

/** An element of a picture. */
export function draw(name, attributes = {}, ...children) {
  return filled(document.createElementNS(DRAWINGS, name), attributes, children);
}

/** The element of the page with an id. */
export function byId(id) {
  return document.getElementById(id);
}

/** A button with what it does. */
export function button(text, onClick, attributes = {}) {
  const made = make("button", { type: "button", ...attributes }, text);
  made.addEventListener("click", onClick);
  return made;
}

/** A cell of a table: heads name their row, numbers stand to the right. A head of no text is no head. */
function cell(content) {
  if (content?.isHead) {
    return content.text === "" ? make("td") : make("th", { scope: "row" }, content.text);
  }
  const isNumber = content?.isNumber === true;
  return make("td", { class: isNumber && "number" }, isNumber ? content.text : content);
}

export function head(text) {
  return { isHead: true, text };
}

/** A cell with a number: of a fraction its elements are given. */
export function number(shown) {
  return { isNumber: true, text: Array.isArray(shown) ? shown : breakable(String(shown)) };
}

/** A number of many digits, which may break behind the stroke of a fraction. */
export function breakable(text) {
  return text.length <= 14 ? text : text.split(/(?<=\/)/).flatMap((part, place) => (place ? [make("wbr"), part] : [part]));
}

/** A table with its caption, that scrolls where it is wider than the page. A head that begins with `#` stands above numbers. */
export function table(caption, heads, rows, note = "") {
  const columns = heads.map((text) =>
    text === "" ? make("td") : make("th", { scope: "col", class: text.startsWith("#") && "number" }, text.replace(/^#/, "")),
  );
  const title = make("caption", {}, caption, note && make("span", { class: "soft" }, ` ${note}`));
  const body = rows.map((cells) => make("tr", {}, cells.map(cell)));
  return scrolling(caption, make("table", {}, title, make("thead", {}, make("tr", {}, columns)), make("tbody", {}, body)));
}

// Tells what was laid out anew. Tests have no layout.
const watcher =
  typeof ResizeObserver === "undefined" ? null : new ResizeObserver((seen) => seen.forEach(({ target }) => marksScroller(target)));

/** What may be wider than the page: where it is, it scrolls by keys too, and has a name. */
export function scrolling(label, content) {
  const made = make("div", { class: "scroll", "data-label": label }, content);
  watcher?.observe(made);
  return made;
}

function marksScroller(element) {
  const isWide = element.scrollWidth > element.clientWidth;
  for (const [name, text] of Object.entries({ role: "region", tabindex: "0", "aria-label": element.dataset.label })) {
    if (isWide) {
      element.setAttribute(name, text);
    } else {
      element.removeAttribute(name);
    }
  }
}

/** A part that is folded away. */
export function folded(title, ...content) {
  return make("details", {}, make("summary", {}, title), content);
}

/** A folded part whose content is made where it is first opened. */
export function foldedLater(title, contentOf) {
  const place = make("div", { "aria-live": "polite" });
  const made = folded(title, place);
  const fills = async () => {
    place.replaceChildren("Working\u2026");
    place.replaceChildren(...(await contentOf()).filter(isShown));
  };
  made.addEventListener("toggle", () => made.open && place.childNodes.length === 0 && fills());
  return made;
}

/** Opens the parts of a new content that were open in the one before it, by their titles without numbers. */
export function keepsOpen(before, content) {
  const titleOf = (part) => part.querySelector("summary").textContent.replace(/\d+/g, "");
  const wereOpen = new Set([...before.querySelectorAll("details[open]")].map(titleOf));
  const parts = content.flatMap((each) => [each, ...each.querySelectorAll("details")]);
  for (const part of parts.filter(({ localName }) => localName === "details")) {
    part.open ||= wereOpen.has(titleOf(part));
  }
}
