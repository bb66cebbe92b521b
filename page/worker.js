// The worker that holds the module: it answers one call after the other, away from the page. The page makes it from this text.

const OUT_ROOM = 1 << 20;
const ERR_ROOM = 1 << 10;
const COUNTS_ROOM = 16;
const NO_MEMORY = 72;

let compiled = null;
let live = null;

/** The functions and the memory of the module. One in which a call failed is not used again. */
function library() {
  live ??= new WebAssembly.Instance(compiled, {}).exports;
  return live;
}

/** A block of the module's memory with these bytes. A view of the memory holds only until the memory grows. */
function placed(exports, bytes) {
  const at = taken(exports, bytes.length);
  new Uint8Array(exports.memory.buffer).set(bytes, Number(at));
  return at;
}

function taken(exports, length) {
  const at = exports.page_take(BigInt(length));
  if (at === 0n) {
    throw new RangeError("no memory");
  }
  return at;
}

function textAt(exports, at, length) {
  return new TextDecoder().decode(new Uint8Array(exports.memory.buffer, Number(at), length));
}

/** Calls the library once with rooms of these sizes. Where a text is longer than its room, the rooms that it wants come back. */
function calledWith(exports, given, outRoom, errRoom) {
  const out = taken(exports, outRoom);
  const err = taken(exports, errRoom);
  const counts = taken(exports, COUNTS_ROOM);
  const read = given.flatMap(({ at, length }) => [at, BigInt(length)]);
  // The status is one byte of the word that comes back; the others may hold anything.
  const status = exports.mechdes_call(...read, out, BigInt(outRoom), err, BigInt(errRoom), counts) & 255;
  const lengths = new BigUint64Array(exports.memory.buffer, Number(counts), 2);
  const [outLength, errLength] = [Number(lengths[0]), Number(lengths[1])];
  const fits = outLength <= outRoom && errLength <= errRoom;
  const told = fits && { status, out: textAt(exports, out, outLength), err: textAt(exports, err, errLength) };
  [out, err, counts].forEach((block) => exports.page_give(block));
  return told || { outLength, errLength };
}

/** Carries out a call, of which the words and both files are given as bytes. */
function answered(exports, texts) {
  const given = texts.map((bytes) => ({ at: placed(exports, bytes), length: bytes.length }));
  let told = calledWith(exports, given, OUT_ROOM, ERR_ROOM);
  if (told.status === undefined) {
    told = calledWith(exports, given, Math.max(OUT_ROOM, told.outLength), Math.max(ERR_ROOM, told.errLength));
  }
  given.forEach(({ at }) => exports.page_give(at));
  return told;
}

function bytesOf(text) {
  return typeof text === "string" ? new TextEncoder().encode(text) : text;
}

/** What a call gives. A trap of the module is a fault that is told, and the next call has a new instance. */
function outcomeOf({ words, setting, second }) {
  try {
    return answered(library(), [words.join("\n"), setting, second].map(bytesOf));
  } catch (fault) {
    live = null;
    return fault instanceof RangeError && fault.message === "no memory"
      ? { status: NO_MEMORY, out: "", err: "" }
      : { fault: String(fault) };
  }
}

self.onmessage = ({ data }) => {
  if (data.module) {
    compiled = new WebAssembly.Module(data.module);
    self.postMessage({ isReady: true });
    return;
  }
  const start = performance.now();
  const outcome = outcomeOf(data);
  self.postMessage({ number: data.number, ...outcome, seconds: (performance.now() - start) / 1000 });
};
