// What the page asks the library for, one function a request. Files go by the names in FILES.

import { Stopped, text_of } from './library.js';
import { TRACE_COLUMNS, drawn_of, explored_of, fault_of, lines_of, listing_of, played_of, shown_of, sound_of,
  summary_of, table_of } from './rows.js';

const FILES = {
  text: 'program.s', image: 'image.svci', names: 'names.csv', listed: 'opened.svci',
  script: 'script.csv', tried: 'tried.csv', begin: 'begin.csv',
  trace: 'trace.csv', front: 'front.csv', run: 'run.csv', witness: 'witness.csv',
  rows: 'rows.csv', picture: 'picture.svg', export: 'export.txt',
};
// More tasks than a history of 100,000 entries can commit, and as many as the table of needs shows.
const MOST_TASKS = 50000, MOST_DEPENDING = 300;
export const HEADER = 'kind,unit,arg';

// A fault that the program told.
export class Fault extends Error {
  constructor(err) {
    super(err.replace(/^svcsim: /gm, '').trimEnd());
    this.err = err;
  }
}

const script_text = (steps) => [HEADER, ...steps].join('\n') + '\n';
const steps_of = (bytes) => lines_of(text_of(bytes)).slice(1);

export class Requests {
  // `library` answers at once; `other` is for what may take long, so that it can be stopped alone.
  constructor(library, other) {
    this.library = library;
    this.other = other;
    this.config = { units: 2, sets: 16, ways: 2 };
  }

  machine() {
    return ['--units', this.config.units, '--sets', this.config.sets, '--ways', this.config.ways];
  }

  async ask(words, library = this.library) {
    try {
      return await library.ask(words.map(String));
    } catch (why) {
      if (why instanceof Stopped) throw why;
      throw new Error(`the module failed at “${words.join(' ')}”: ${why.message}`);
    }
  }

  // The same, where status 1 is a fault.
  async get(words, library = this.library) {
    const told = await this.ask([...words, '--explain'], library);
    if (told.status === 1) throw new Fault(told.err);
    return told;
  }

  // Assembles the text. It answers a fault of the text; without one there is a new image.
  async assemble(text) {
    this.library.put(FILES.text, text);
    const told = await this.ask(['assemble', FILES.text, FILES.image, '--names', FILES.names]);
    return told.status === 1 ? fault_of(told.err) : null;
  }

  async list() {
    return listing_of((await this.get(['list', FILES.image, '--names', FILES.names])).out);
  }

  // The text that an image is assembled from.
  async listed(bytes) {
    this.library.put(FILES.listed, bytes);
    return (await this.get(['list', FILES.listed])).out;
  }

  async sequential() {
    const told = await this.ask(['seq', FILES.image, '--tasks', MOST_TASKS]);
    return told.status === 1 ? null : summary_of(lines_of(told.out));
  }

  // Plays a script, whose trace is then the one that the requests below are about.
  async play(steps) {
    this.library.put(FILES.script, script_text(steps));
    const told = await this.get(['script', FILES.image, FILES.script, ...this.machine(), '--trace', FILES.trace]);
    return { steps, played: played_of(told.out, steps.length) };
  }

  // The same of a trace, by the script that leads to it.
  async follow(trace) {
    this.library.put(FILES.trace, trace);
    return { steps: await this.leading(FILES.trace), played: sound_of(text_of(trace)) };
  }

  // The script that leads to a trace.
  async leading(trace) {
    await this.get(['check', FILES.image, trace, ...this.machine(), '--script', FILES.begin]);
    return steps_of(this.library.files.get(FILES.begin));
  }

  // A run by a schedule behind these steps.
  async run(steps, { order, seed, burst }) {
    const words = ['run', FILES.image, ...this.machine(), '--schedule', order, '--burst', burst];
    if (order === 'random') words.push('--seed', seed);
    if (steps.length) words.push('--after', await this.without_kept_bursts(steps));
    await this.get([...words, '--trace', FILES.run]);
    return this.follow(this.library.files.get(FILES.run));
  }

  // A script that does the same as these steps, and keeps no burst to be submitted later: no run goes on behind such a
  // one.
  async without_kept_bursts(steps) {
    this.library.put(FILES.script, script_text(steps));
    await this.get(['script', FILES.image, FILES.script, ...this.machine(), '--trace', FILES.tried]);
    await this.leading(FILES.tried);
    return FILES.begin;
  }

  // The machine after these entries, with the first words of memory. The trace is lent up to them, since rows behind
  // them are read too.
  async show(entries, words) {
    this.library.put(FILES.front, [TRACE_COLUMNS, ...entries.map((it) => it.row), ''].join('\n'));
    const more = words > 0 ? ['--memory', `0-${words - 1}`] : [];
    const asked = ['show', FILES.image, FILES.front, '--detail', '--moves', ...more, ...this.machine()];
    return shown_of((await this.get(asked)).out);
  }

  // What the library answers to a move that is made behind the steps: a refusal, or none.
  async try_move(steps, move) {
    this.library.put(FILES.tried, script_text([...steps, move]));
    const told = await this.get(['script', FILES.image, FILES.tried, ...this.machine()]);
    const { refused } = played_of(told.out, steps.length + 1), last = refused.at(-1);
    return last?.step === steps.length ? last.why : '';
  }

  // So many columns of the lanes, as rows.
  async draw(from, count) {
    const columns = ['--from', from, '--count', count];
    await this.get(['draw', FILES.image, FILES.trace, FILES.rows, '--rows', ...columns, ...this.machine()]);
    return drawn_of(text_of(this.library.files.get(FILES.rows)));
  }

  // All of them as a picture, which joins what would overlap.
  async picture() {
    await this.get(['draw', FILES.image, FILES.trace, FILES.picture, '--names', FILES.names, ...this.machine()]);
    return this.library.files.get(FILES.picture);
  }

  // The trace for a viewer; waves have the values of the first words.
  async exported(format, words) {
    const more = format === 'vcd' && words > 0 ? ['--words', `0-${words - 1}`] : [];
    await this.get(['export', FILES.image, FILES.trace, FILES.export, '--format', format, ...more, ...this.machine()]);
    return this.library.files.get(FILES.export);
  }

  async profile(by) {
    const asked = ['profile', FILES.image, FILES.trace, '--by', by, '--names', FILES.names, ...this.machine()];
    return table_of((await this.get(asked)).out);
  }

  async depend(by) {
    const asked = ['depend', FILES.image, '--by', by, '--tasks', MOST_DEPENDING, '--names', FILES.names];
    return table_of((await this.get(asked)).out);
  }

  // What the trace shows, as rows of an exploration.
  async observed() {
    return explored_of((await this.get(['explore', FILES.image, '--of', FILES.trace, ...this.machine()])).out).seen;
  }

  explore_words({ burst, states }) {
    return ['explore', FILES.image, ...this.machine(), '--burst', burst, '--states', states];
  }

  // Every schedule; it may take long, and `stop_exploring` ends it.
  async explore(how) {
    this.other.put(FILES.image, this.library.files.get(FILES.image));
    return explored_of((await this.get(this.explore_words(how), this.other)).out);
  }

  // A schedule that shows what the row says, with the row that it shows.
  async witness(how, seen) {
    this.other.put(FILES.image, this.library.files.get(FILES.image));
    const wanted = [seen.what, seen.task, seen.word].join().replace(/,+$/, '');
    const words = [...this.explore_words(how), '--find', wanted, '--trace', FILES.witness];
    const found = explored_of((await this.get(words, this.other)).out).seen[0];
    return { found, ...await this.follow(this.other.files.get(FILES.witness)) };
  }

  stop() {
    this.library.stop();
  }

  stop_exploring() {
    this.other.stop();
  }

  // The files as they are, and as they were: for a change that fails.
  files() {
    return new Map(this.library.files);
  }

  restore(files) {
    this.library.restore(files);
  }

  file(name) {
    return this.library.files.get(FILES[name]);
  }
}
