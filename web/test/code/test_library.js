// The worker and the calls of it, over a module that is played here: it answers by what it was handed.

import { deepEqual, equal, rejects } from 'node:assert/strict';
import { readFileSync } from 'node:fs';
import { createContext, runInContext } from 'node:vm';
import { Library, Stopped, bytes_of, text_of } from '../../library.js';
import { ROOT } from './cases.js';

const SOURCE = readFileSync(`${ROOT}web/worker.js`, 'utf8');

// A module: `does` gets the words and the files, and answers the status, both outputs and what is saved, as [name,
// bytes].
function module_of(does) {
  const memory = new ArrayBuffer(1 << 24), view = new DataView(memory);
  const at = (place, length) => new Uint8Array(memory, Number(place), Number(length));
  let free = 8, given = 0;
  const page_take = (bytes) => { const place = free; free += (Number(bytes) + 8) & ~7; given++; return BigInt(place); };
  const svc_page_answer = (words, length, sizes, count, contents, size, out, outs, err, errs, files, most, saved,
    saveds, lengths) => {
    const found = [];
    let place = Number(contents);
    for (let n = 0; n < Number(count); n++) {
      const [name, bytes] = [0, 8].map((more) => Number(view.getBigUint64(Number(sizes) + 16 * n + more, true)));
      found.push([text_of(at(place, name).slice()), text_of(at(place + name, bytes).slice())]);
      place += name + bytes;
    }
    const told = does(text_of(at(words, length).slice()).split('\n'), new Map(found));
    const all = [bytes_of(told.out ?? ''), bytes_of(told.err ?? ''), told.saved ?? []];
    const inside = all[2].flatMap(([name, bytes]) => [bytes_of(name), bytes_of(bytes)]);
    const wanted = [all[0].length, all[1].length, all[2].length, inside.reduce((sum, it) => sum + it.length, 0)];
    wanted.forEach((it, n) => view.setBigUint64(Number(lengths) + 8 * n, BigInt(it), true));
    if ([outs, errs, most, saveds].some((room, n) => wanted[n] > Number(room))) return 3;
    at(out, all[0].length).set(all[0]);
    at(err, all[1].length).set(all[1]);
    inside.forEach((it, n) => view.setBigUint64(Number(files) + 8 * n, BigInt(it.length), true));
    let to = Number(saved);
    for (const it of inside) { at(to, it.length).set(it); to += it.length; }
    return told.status ?? 0;
  };
  return { memory: { buffer: memory }, page_take, page_give: () => { given--; }, svc_page_answer, lent: () => given };
}

// A worker as the browser makes one: its script, and messages that come later.
function worker_over(exports) {
  const it = { ended: false, terminate() { it.ended = true; } };
  const inside = createContext({ TextEncoder, TextDecoder, performance, BigInt, Uint8Array, BigUint64Array, Error,
    WebAssembly: { Instance: class { exports = exports; } },
    postMessage: (data) => setImmediate(() => it.ended || it.onmessage({ data })) });
  runInContext(SOURCE.replace("'use strict';", ''), inside);
  it.postMessage = (data) => setImmediate(() => it.ended || inside.onmessage({ data }));
  return it;
}

function library_of(does) {
  const made = [], exports = module_of(does);
  const library = new Library(() => { made.push(worker_over(exports)); return made.at(-1); }, {});
  return { library, made, exports };
}

const echo = (words, files) =>
  ({ out: `${words.join(' ')}: ${[...files].map(([name, it]) => `${name}=${it}`).join(' ')}` });

export async function words_and_the_files_they_name_are_handed_in() {
  const { library } = library_of(echo);
  library.put('a.csv', 'één');
  library.put('b.csv', 'two');
  library.put('c.csv', 'three');
  equal((await library.ask(['show', 'b.csv', 'a.csv', 'b.csv'])).out, 'show b.csv a.csv b.csv: b.csv=two a.csv=één');
}

export async function both_outputs_and_the_status_come_back() {
  const { library } = library_of(() => ({ status: 1, out: 'o', err: 'svcsim: é' }));
  const { status, out, err, saved } = await library.ask(['list']);
  deepEqual([status, out, err, Object.keys(saved)], [1, 'o', 'svcsim: é', []]);
}

export async function what_is_saved_is_there_for_the_next_call() {
  const saved = [['x', 'one'], ['y', '']];
  const { library } = library_of((words, files) => (words[0] === 'save' ? { saved } : echo(words, files)));
  await library.ask(['save']);
  deepEqual([text_of(library.files.get('x')), library.files.get('y').length], ['one', 0]);
  equal((await library.ask(['look', 'x', 'y'])).out, 'look x y: x=one y=');
}

export async function of_a_file_saved_twice_the_first_stays() {
  const { library } = library_of(() => ({ saved: [['x', 'one'], ['x', 'two']] }));
  await library.ask(['save']);
  equal(text_of(library.files.get('x')), 'one');
}

export async function buffers_that_are_too_short_are_made_anew() {
  const long = 'x'.repeat(3 << 20);
  let calls = 0;
  const { library } = library_of(() => { calls++; return { out: long, err: long.slice(0, 1 << 17) }; });
  const told = await library.ask(['show']);
  deepEqual([told.out.length, told.err.length, calls], [3 << 20, 1 << 17, 2]);
  await library.ask(['show']);
  equal(calls, 3);
}

export async function what_is_lent_for_a_call_is_given_back() {
  const { library, exports } = library_of(echo);
  await library.ask(['one']);
  const before = exports.lent();
  await library.ask(['two']);
  equal(exports.lent(), before);
}

export async function files_are_handed_over_once_and_again_where_they_change() {
  const seen = [], { library } = library_of(echo);
  library.put('a', 'one');
  await library.ask(['x', 'a']);
  const post = library.worker.postMessage;
  library.worker.postMessage = (data) => { seen.push(Object.keys(data.put).join()); post(data); };
  await library.ask(['x', 'a']);
  library.put('a', 'two');
  equal((await library.ask(['x', 'a'])).out, 'x a: a=two');
  deepEqual(seen, ['', 'a']);
}

export async function a_dropped_file_is_gone_on_both_sides() {
  const { library } = library_of(echo);
  library.put('a', 'one');
  await library.ask(['x', 'a']);
  const before = new Map(library.files);
  library.restore(new Map());
  equal((await library.ask(['x', 'a'])).out, 'x a: ');
  library.restore(before);
  equal((await library.ask(['x', 'a'])).out, 'x a: a=one');
}

export async function a_stopped_call_fails_and_a_fresh_worker_goes_on() {
  const { library, made } = library_of(echo);
  library.put('a', 'one');
  await library.ask(['x', 'a']);
  const waits = library.ask(['y']);
  library.stop();
  await rejects(waits, Stopped);
  equal((await library.ask(['z', 'a'])).out, 'z a: a=one');
  deepEqual([made.length, made[0].ended], [2, true]);
}

export async function a_module_that_fails_is_made_anew() {
  let calls = 0;
  const { library } = library_of((words, files) => {
    if (++calls === 1) throw new Error('unreachable');
    return echo(words, files);
  });
  await rejects(library.ask(['x']), /unreachable/);
  equal((await library.ask(['x'])).out, 'x: ');
}
