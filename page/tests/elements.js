// Elements for tests of views: as much of them as the page's scripts ask for, without a browser.

class Element {
  constructor(localName) {
    this.localName = localName;
    this.attributes = new Map();
    this.childNodes = [];
  }

  setAttribute(name, text) {
    this.attributes.set(name, String(text));
  }

  getAttribute(name) {
    return this.attributes.get(name) ?? null;
  }

  append(...children) {
    this.childNodes.push(...children);
  }

  addEventListener() {}

  get textContent() {
    return this.childNodes.map((child) => child.textContent ?? child).join("");
  }

  querySelectorAll(name) {
    const inner = this.childNodes.filter((child) => child instanceof Element);
    return inner.flatMap((child) => [...(child.localName === name ? [child] : []), ...child.querySelectorAll(name)]);
  }

  querySelector(name) {
    return this.querySelectorAll(name)[0] ?? null;
  }
}

globalThis.document = {
  createElement: (name) => new Element(name),
  createElementNS: (_, name) => new Element(name),
};

/** The texts of the cells of all tables of a view, row by row, without the heads of columns. */
export function cellsOfTables({ content }) {
  const bodies = content.flatMap((part) => [part, ...part.querySelectorAll("tbody")]).filter(({ localName }) => localName === "tbody");
  return bodies.map((body) => body.querySelectorAll("tr").map((row) => row.childNodes.map(({ textContent }) => textContent)));
}

/** The descriptions of the pictures of a view. */
export function picturesOf({ content }) {
  return content.flatMap((part) => part.querySelectorAll("desc").map(({ textContent }) => textContent));
}
