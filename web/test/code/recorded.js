// A library of recorded rows, in place of the module: a request is answered as the case is that asks the same of files
// with the same bytes. What no case asks is a failure.

import { existsSync } from 'node:fs';
import { bytes_of, text_of } from '../../library.js';
import { lines_of } from '../../rows.js';
import { CASES, DATA, bytes, text } from './cases.js';

const TRACE_HEAD = lines_of(text('traces/ten_events.csv'))[0] + '\n';
const FLAGS = ['--detail', '--moves', '--rows', '--explain', '--dot', '--header'];
// Options in which a case may differ from what is asked: of several cases the one with the most of them is taken, and
// then the one with the most tasks, since a program has no more than it has.
const LOOSE = ['--units', '--sets', '--ways', '--tasks', '--from', '--count', '--states', '--events', '--names'];
const SAVED = { assemble: [1, '--names'], draw: [2], export: [2], run: ['--trace'], script: ['--trace'],
  explore: ['--trace'], check: ['--script'] };

// The words, apart: files and options by place and name.
function apart([command, ...words]) {
  const parts = new Map();
  let at = 0;
  for (let n = 0; n < words.length; n++) {
    const it = words[n];
    if (!it.startsWith('--')) parts.set(at++, it);
    else if (FLAGS.includes(it)) parts.set(it, '');
    else parts.set(it, words[++n]);
  }
  parts.delete('--explain');
  const saves = (SAVED[command] ?? []).filter((it) => parts.has(it));
  return { command, parts, saves: new Map(saves.map((it) => [it, parts.get(it)])) };
}

const front_of = (trace, count) => trace.split('\n').slice(0, count + 1).join('\n') + '\n';

// What is asked, without the names of files: each is replaced by what it holds.
function asked(words, holds) {
  const it = apart(words), fixed = [it.command], loose = new Map();
  const at = it.command === 'show' ? it.parts.get('--at') : undefined;
  for (const [part, word] of it.parts) {
    if (part === '--at' && at !== undefined || (it.command === 'assemble' && part === '--names')) continue;
    let value = it.saves.has(part) ? 'saved' : holds(word) ?? word;
    if (part === 1 && at !== undefined) value = front_of(value, Number(at));
    if (LOOSE.includes(part)) loose.set(part, value);
    else fixed.push(`${part} ${value}`);
  }
  return { ...it, fixed: fixed.sort().join('\0'), loose };
}

const held = (name) => (name && existsSync(DATA + name) && /\.\w+$/.test(name) ? text(name) : undefined);
const RECORDED = CASES.filter((it) => it.words !== '' && !it.out.includes('help')).map((it) =>
  ({ ...it, asked: asked(it.words.split(' ').filter(Boolean), held) }));

const equal = (a, b) => [...a].filter(([name, value]) => b.get(name) === value).length;
const tasks = (it) => Number(it.asked.loose.get('--tasks') ?? Infinity);

export class Recorded {
  constructor() {
    this.files = new Map();
    this.calls = [];
  }

  put(name, what) {
    this.files.set(name, typeof what === 'string' ? bytes_of(what) : what);
  }

  restore(files) {
    this.files = new Map(files);
  }

  stop() {}

  async ask(words) {
    this.calls.push(words.join(' '));
    const it = asked(words, (name) => this.files.has(name) ? text_of(this.files.get(name)) : undefined);
    const found = this.found(it);
    if (found) return this.answer(found, it);
    if (it.command === 'script') return this.played(it);
    throw new Error(`no case asks: ${words.join(' ')}`);
  }

  // The case that asks this.
  found(it) {
    const rank = (one) => equal(it.loose, one.asked.loose);
    const fits = (one) => one.status !== '1' || rank(one) === it.loose.size;
    const same = RECORDED.filter((one) => one.asked.fixed === it.fixed && fits(one));
    return same.sort((a, b) => rank(b) - rank(a) || (tasks(b) > tasks(a) ? 1 : tasks(b) < tasks(a) ? -1 : 0))[0];
  }

  answer(found, it) {
    const files = Object.fromEntries(found.saved.split(' ').filter(Boolean).map((one) => one.split('='))), saved = {};
    for (const [part, name] of it.saves) {
      const file = files[found.asked.saves.get(part)];
      if (file) this.files.set(name, saved[name] = bytes(file));
    }
    const out = found.out ? text(found.out) : '', err = found.err && `${found.err}\n`;
    return { status: Number(found.status), out, err, saved };
  }

  // The first steps of a longer script are answered as they are there, and lead to the entries among these answers.
  played(it) {
    const [image, script] = [0, 1].map((n) => text_of(this.files.get(it.parts.get(n))));
    const longer = RECORDED.find(({ out, asked: { command, parts } }) => command === 'script' && out
      && held(parts.get(0)) === image && held(parts.get(1))?.startsWith(script));
    if (!longer) throw new Error(`no case plays: ${lines_of(script).slice(1).join(' ')}`);
    const answers = lines_of(text(longer.out)).slice(0, lines_of(script).length - 1);
    const rows = answers.filter((row) => !/^(refused,|none$|taken,)/.test(row));
    if (it.saves.has('--trace')) this.put(it.saves.get('--trace'), TRACE_HEAD + rows.map((row) => row + '\n').join(''));
    return { status: 2, out: answers.map((row) => row + '\n').join(''), err: '', saved: {} };
  }
}
