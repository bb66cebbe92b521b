// Calls of the library from the page. Each engine is a worker with the module in it, so that the page stays awake while a call runs,
// and a call can be stopped.

/** A call that was stopped, or that the module could not end. */
export class Interrupted extends Error {}

/** Whether this browser can run the module. */
export function canRun() {
  return [typeof WebAssembly, typeof CompressionStream, typeof BigUint64Array].every((kind) => kind !== "undefined");
}

/** The module, out of the text that the page holds it as: base64 of what gzip made of it. */
export async function unpacked(text) {
  const packed = Uint8Array.from(atob(text.trim()), (letter) => letter.charCodeAt(0));
  const stream = new Blob([packed]).stream().pipeThrough(new DecompressionStream("gzip"));
  return new Uint8Array(await new Response(stream).arrayBuffer());
}

/** A worker with the module. */
export class Engine {
  constructor(source, module) {
    this.address = URL.createObjectURL(new Blob([source], { type: "text/javascript" }));
    this.module = module;
    this.waiting = new Map();
    this.number = 0;
    this.worker = null;
  }

  /** The worker, made where there is none. */
  started() {
    if (this.worker === null) {
      this.worker = new Worker(this.address);
      this.worker.onmessage = ({ data }) => this.hears(data);
      this.worker.onerror = (event) => this.ends(event.message || "the worker failed");
      this.worker.postMessage({ module: this.module });
    }
    return this.worker;
  }

  hears(data) {
    const promise = this.waiting.get(data.number);
    this.waiting.delete(data.number);
    if (data.fault) {
      promise?.reject(new Interrupted(`The module stopped: ${data.fault}`));
    } else {
      promise?.resolve(data);
    }
  }

  /** Carries out a command over two files. The words are those behind the program's name, of which `setting` names the first
   * file and any other name the second. */
  call(words, setting = "", second = "") {
    this.number += 1;
    const { number } = this;
    const promise = new Promise((resolve, reject) => this.waiting.set(number, { resolve, reject }));
    this.started().postMessage({ number, words, setting, second });
    return promise;
  }

  /** Stops the call that runs, and those that wait for it. */
  stop() {
    this.ends("Stopped.");
  }

  ends(words) {
    this.worker?.terminate();
    this.worker = null;
    const ended = [...this.waiting.values()];
    this.waiting.clear();
    ended.forEach(({ reject }) => reject(new Interrupted(words)));
  }
}
