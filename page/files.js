// Files of the reader's machine: opened and saved as text.

import { make } from "./dom.js";

/** Saves a text as a file. */
export function save(name, text) {
  const address = URL.createObjectURL(new Blob([text], { type: "text/plain" }));
  make("a", { href: address, download: name }).click();
  setTimeout(() => URL.revokeObjectURL(address), 1000);
}

/** Has a button open a file as text. A file that is no text in UTF-8 is told of, and not taken. */
export function opensFile(opener, onText) {
  const input = make("input", { type: "file", hidden: true });
  opener.after(input);
  opener.addEventListener("click", () => input.click());
  input.addEventListener("change", async () => {
    const [file] = input.files;
    input.value = "";
    if (file) {
      onText(textOf(await file.arrayBuffer()), file.name);
    }
  });
}

function textOf(bytes) {
  try {
    return new TextDecoder("utf-8", { fatal: true }).decode(bytes);
  } catch {
    return null;
  }
}
