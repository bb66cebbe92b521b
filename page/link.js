// A link to a question: what stands behind its `#` never leaves the machine, and holds the whole setting.

const LONGEST_SETTING = 1 << 20; // letters of a setting

/** The fragment of a question: `parts` by their names, of which `setting` is packed. */
export async function fragmentOf({ setting, ...parts }) {
  const fields = new URLSearchParams(Object.entries(parts).filter(([, text]) => text !== undefined));
  if (setting !== undefined) {
    fields.set("setting", await packed(setting));
  }
  return `#${fields}`;
}

/** The parts of a fragment, of which `setting` is unpacked; null where it holds no question. A setting that cannot be unpacked is an
 * error. */
export async function partsOf(fragment) {
  const parts = Object.fromEntries(new URLSearchParams(fragment.replace(/^#/, "")));
  if (parts.setting !== undefined) {
    parts.setting = await unpackedText(parts.setting);
  }
  return parts.setting === undefined && parts.example === undefined ? null : parts;
}

async function packed(text) {
  const stream = new Blob([text]).stream().pipeThrough(new CompressionStream("gzip"));
  const bytes = new Uint8Array(await new Response(stream).arrayBuffer());
  const letters = Array.from(bytes, (byte) => String.fromCharCode(byte)).join("");
  return btoa(letters).replaceAll("+", "-").replaceAll("/", "_").replace(/=+$/, "");
}

/** The text of a packed setting. It reads no further than a setting may be long. */
async function unpackedText(packedText) {
  const letters = atob(packedText.replaceAll("-", "+").replaceAll("_", "/"));
  const bytes = Uint8Array.from(letters, (letter) => letter.charCodeAt(0));
  const unpacking = new Blob([bytes]).stream().pipeThrough(new DecompressionStream("gzip"));
  const reader = unpacking.pipeThrough(new TextDecoderStream("utf-8", { fatal: true })).getReader();
  let text = "";
  for (let part = await reader.read(); !part.done; part = await reader.read()) {
    text += part.value;
    if (text.length > LONGEST_SETTING) {
      await reader.cancel();
      throw new RangeError("the setting of the link is too long");
    }
  }
  return text;
}
