// A worker that holds the module and the files: it does what the words of a command line ask for, over files by name,
// and sends back what was printed and saved. It knows nothing of the machine.
'use strict';

const coder = new TextEncoder(), decoder = new TextDecoder();
const files = new Map();
let module = null, library = null;

// The buffers that the module writes to; one that was too short is made anew, and kept.
const rooms = { out: 1 << 20, err: 1 << 16, files: 64, saved: 1 << 22 };
const UNITS = { out: 1, err: 1, files: 16, saved: 1 };

function begin() {
  const { exports } = new WebAssembly.Instance(module, {});
  library = { ...exports, buffers: {} };
}

function take(bytes) {
  const at = library.page_take(BigInt(bytes));
  if (at === 0n) throw new Error('memory');
  return at;
}

// These bytes in the module's memory.
function put(bytes) {
  const at = take(bytes.length);
  new Uint8Array(library.memory.buffer, Number(at), bytes.length).set(bytes);
  return at;
}

function buffer(name) {
  const bytes = rooms[name] * UNITS[name], old = library.buffers[name];
  if (old && old.bytes === bytes) return old.at;
  if (old) library.page_give(old.at);
  library.buffers[name] = { at: take(bytes), bytes };
  return library.buffers[name].at;
}

const bytes_at = (at, length) => new Uint8Array(library.memory.buffer, Number(at), length);

// The named files that the words name: their sizes, and their names and bytes one behind another.
function packed(words) {
  const named = [...new Set(words)].filter((it) => files.has(it)).map((it) => [coder.encode(it), files.get(it)]);
  const sizes = new BigUint64Array(2 * named.length);
  const contents = new Uint8Array(named.reduce((sum, [name, bytes]) => sum + name.length + bytes.length, 0));
  let at = 0;
  named.forEach(([name, bytes], k) => {
    sizes[2 * k] = BigInt(name.length);
    sizes[2 * k + 1] = BigInt(bytes.length);
    contents.set(name, at);
    contents.set(bytes, at + name.length);
    at += name.length + bytes.length;
  });
  return { count: named.length, sizes: new Uint8Array(sizes.buffer), contents };
}

// One call of the module, with the buffers as they are.
function call(words) {
  const line = coder.encode(words.join('\n')), given = packed(words);
  const lent = [put(line), put(given.sizes), put(given.contents), put(new Uint8Array(32))];
  const parts = ['out', 'err', 'files', 'saved'];
  const room = parts.flatMap((it) => [buffer(it), BigInt(rooms[it])]);
  const status = library.svc_page_answer(lent[0], BigInt(line.length), lent[1], BigInt(given.count), lent[2],
    BigInt(given.contents.length), ...room, lent[3]);
  const lengths = new BigUint64Array(library.memory.buffer, Number(lent[3]), 4);
  const wanted = Object.fromEntries(parts.map((it, k) => [it, Number(lengths[k])]));
  for (const it of lent) library.page_give(it);
  return { status, wanted };
}

// What the words ask for.
function answer(words) {
  let { status, wanted } = call(words);
  while (status === 3) {
    const short = Object.keys(rooms).filter((it) => wanted[it] > rooms[it]);
    if (!short.length) throw new Error('memory');
    for (const it of short) rooms[it] = 2 * wanted[it];
    ({ status, wanted } = call(words));
  }
  const saved = {}, sizes = new BigUint64Array(bytes_at(library.buffers.files.at, 16 * wanted.files).slice().buffer);
  let at = library.buffers.saved.at;
  for (let k = 0; k < wanted.files; k++) {
    const name = decoder.decode(bytes_at(at, Number(sizes[2 * k])));
    const bytes = bytes_at(at + sizes[2 * k], Number(sizes[2 * k + 1])).slice();
    at += sizes[2 * k] + sizes[2 * k + 1];
    if (!(name in saved)) saved[name] = bytes;
  }
  for (const [name, bytes] of Object.entries(saved)) files.set(name, bytes);
  const text = (name) => decoder.decode(bytes_at(library.buffers[name].at, wanted[name]));
  return { status, out: text('out'), err: text('err'), saved };
}

onmessage = ({ data }) => {
  if (data.module) {
    module = data.module;
    return;
  }
  for (const it of data.drop) files.delete(it);
  for (const [name, bytes] of Object.entries(data.put)) files.set(name, bytes);
  const begun = performance.now();
  try {
    if (!library) begin();
    const told = answer(data.words);
    postMessage({ id: data.id, ms: performance.now() - begun, memory: library.memory.buffer.byteLength, ...told });
  } catch (why) {
    library = null;
    postMessage({ id: data.id, broken: String(why && why.message || why) });
  }
};
