// Calls of the library: words and files in, what was printed and saved out. The module runs in a worker, so a call can
// be stopped; the files stand on both sides, so a fresh worker goes on where the last one was.

const TEXT = new TextEncoder(), BYTES = new TextDecoder();

export const bytes_of = (text) => TEXT.encode(text);
export const text_of = (bytes) => BYTES.decode(bytes);

// Whether this browser has memories with 64-bit addresses: a module with one, and nothing else.
export function has_wide_memory() {
  return typeof WebAssembly === 'object'
    && WebAssembly.validate(new Uint8Array([0, 97, 115, 109, 1, 0, 0, 0, 5, 3, 1, 4, 1]));
}

export class Stopped extends Error {}

// A worker that runs this text.
export function worker_of(text) {
  const at = URL.createObjectURL(new Blob([text], { type: 'text/javascript' })), worker = new Worker(at);
  URL.revokeObjectURL(at);
  return worker;
}

export class Library {
  // `make` makes a worker, `module` is the compiled module.
  constructor(make, module) {
    this.make = make;
    this.module = module;
    this.files = new Map();
    this.waiting = new Map();
    this.dropped = [];
    this.count = 0;
    this.calls = 0;
    this.last = null;
  }

  begin() {
    this.worker = this.make();
    this.fresh = new Set(this.files.keys());
    this.worker.postMessage({ module: this.module });
    this.worker.onmessage = ({ data }) => this.told(data);
    this.worker.onerror = (event) => this.fail(new Error(event.message));
  }

  told(data) {
    const call = this.waiting.get(data.id);
    if (!call) return;
    this.waiting.delete(data.id);
    this.last = { ms: data.ms, memory: data.memory };
    if ('broken' in data) return call.fail(new Error(data.broken));
    for (const [name, bytes] of Object.entries(data.saved)) this.files.set(name, bytes);
    call.done(data);
  }

  fail(why) {
    this.worker.terminate();
    this.worker = null;
    const calls = [...this.waiting.values()];
    this.waiting.clear();
    for (const it of calls) it.fail(why);
  }

  // Ends what is running; each call that waits fails as stopped.
  stop() {
    if (this.worker) this.fail(new Stopped());
  }

  put(name, bytes) {
    this.files.set(name, typeof bytes === 'string' ? bytes_of(bytes) : bytes);
    this.fresh?.add(name);
  }

  // Makes the files what they were.
  restore(files) {
    for (const name of this.files.keys()) if (!files.has(name)) this.drop(name);
    for (const [name, bytes] of files) if (this.files.get(name) !== bytes) this.put(name, bytes);
  }

  // Forgets a file.
  drop(name) {
    this.files.delete(name);
    this.dropped.push(name);
  }

  // What these words ask for: the exit status, both outputs, and the files that were saved.
  ask(words) {
    if (!this.worker) this.begin();
    const put = {};
    for (const it of words) {
      if (this.fresh.has(it) && this.files.has(it)) {
        put[it] = this.files.get(it);
        this.fresh.delete(it);
      }
    }
    this.calls++;
    const id = ++this.count;
    return new Promise((done, fail) => {
      this.waiting.set(id, { done, fail });
      this.worker.postMessage({ id, words: words.map(String), put, drop: this.dropped.splice(0) });
    });
  }
}
