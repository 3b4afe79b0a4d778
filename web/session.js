// What is open: a program, a script and a moment of it, with what the library has answered about them. Each change is a
// job; jobs run one after another, and what is drawn is always of one moment. A job that fails or is stopped leaves all
// as it was.

const KEPT_MOMENTS = 400, SHOWN_WORDS = 64, LONG_JOB = 500;
const STATE = ['lesson', 'text', 'steps', 'k', 'word', 'fault', 'listing', 'words', 'sequential', 'has_image',
  'image_count', 'needed', 'played', 'drawing', 'moments', 'seen', 'costs', 'undo_list', 'redo_list', 'witness'];
// Standings that an exploration follows, where nothing else was asked.
export const MOST_STATES = 20000;

export class Session {
  // `draw` shows the session, `tell` says what went wrong, and `wait` whether something takes long.
  constructor(requests, { draw, tell, wait }) {
    Object.assign(this, { requests, draw, tell, wait, jobs: Promise.resolve(), wanted: null, busy: 0 });
    Object.assign(this, { lesson: '', text: '', steps: [], k: 0, word: 0 });
    Object.assign(this, { fault: null, listing: [], words: [], sequential: null, has_image: false, image_count: 0 });
    Object.assign(this, { undo_list: [], redo_list: [], witness: -1 });
    this.by = { order: 'youngest', seed: 0, burst: 63 };
    this.forget();
  }

  // Forgets what was answered about a trace.
  forget() {
    this.played = { answers: [], entries: [], step_of: [], refused: [] };
    this.drawing = { bars: [], marks: [], arrows: [] };
    this.moments = new Map();
    this.seen = null;
    this.costs = null;
  }

  get config() {
    return this.requests.config;
  }

  get entries() {
    return this.played.entries;
  }

  // ---- jobs

  // Runs a job when those before it are done.
  job(what) {
    this.busy++;
    this.jobs = this.jobs.then(() => this.guarded(what)).then(() => {
      this.busy--;
      return this.draw();
    }).catch(this.tell);
    return this.jobs;
  }

  async guarded(what) {
    const before = this.state(), clock = setTimeout(() => this.wait(true), LONG_JOB);
    try {
      await what();
    } catch (why) {
      this.restore(before);
      this.tell(why);
    } finally {
      clearTimeout(clock);
      this.wait(false);
    }
  }

  state() {
    const fields = Object.fromEntries(STATE.map((it) => [it, this[it]]));
    return { fields, config: { ...this.config }, by: { ...this.by }, files: this.requests.files() };
  }

  restore({ fields, config, by, files }) {
    Object.assign(this, fields);
    Object.assign(this.config, config);
    Object.assign(this.by, by);
    this.requests.restore(files);
  }

  // Ends what takes long.
  stop() {
    this.requests.stop();
  }

  // What is asked beside the jobs. While one of them changes the files, the answer may be of files that don't belong
  // together: then it is none.
  async beside(ask, none) {
    const { played, image_count } = this;
    const is_same = () => played === this.played && image_count === this.image_count && this.busy === 0;
    try {
      const it = await ask();
      return is_same() ? it : none;
    } catch (why) {
      if (is_same()) throw why;
      return none;
    }
  }

  // ---- the program

  // Assembles the text, and says whether that makes an image.
  async assemble() {
    this.fault = await this.requests.assemble(this.text);
    if (this.fault) return false;
    const { code, words } = await this.requests.list();
    Object.assign(this, { has_image: true, image_count: this.image_count + 1, needed: null, listing: code, words });
    this.sequential = await this.requests.sequential();
    return true;
  }

  // Takes another text; where it makes an image, the script is played again on it.
  edit(text) {
    return this.job(async () => {
      this.text = text;
      if (await this.assemble()) await this.play(this.steps, this.k);
    });
  }

  // Opens a program with a machine. Without steps it is run by its schedule.
  load({ lesson, text, config, by, steps, k }) {
    return this.job(async () => {
      Object.assign(this, { lesson, text, undo_list: [], redo_list: [], witness: -1, word: 0 });
      Object.assign(this.config, config);
      Object.assign(this.by, by);
      this.forget();
      const nothing = { has_image: false, steps: [], k: 0, listing: [], words: [] };
      if (!await this.assemble()) return Object.assign(this, nothing);
      return this.take(await (steps ? this.requests.play(steps) : this.requests.run([], this.by)), k ?? 0);
    });
  }

  set_config(config) {
    return this.job(async () => {
      Object.assign(this.config, config);
      await this.play(this.steps, this.k);
    });
  }

  // ---- the script

  // Plays a script; the moment is after so many entries, or as many as there are.
  async play(steps, k) {
    if (this.has_image) await this.take(await this.requests.play(steps), k);
  }

  // Takes a script that was played. The moments before its first new entry stay as they were.
  async take({ steps, played }, k) {
    const machine = this.machine_key(), kept = machine === this.machine_of ? this.moments_before(played.entries) : [];
    this.forget();
    Object.assign(this, { steps, played, machine_of: machine, moments: new Map(kept) });
    if (played.entries.length) this.drawing = await this.requests.draw(0, played.entries.length);
    await this.move_to(Math.min(k, played.entries.length));
  }

  machine_key() {
    return [this.image_count, ...Object.values(this.config)].join();
  }

  moments_before(entries) {
    const differs = entries.findIndex((it, n) => it.row !== this.entries[n]?.row);
    return [...this.moments].filter(([n]) => n <= (differs < 0 ? entries.length : differs));
  }

  // The steps up to the one that made the last entry shown.
  front(k = this.k) {
    return k ? this.steps.slice(0, this.played.step_of[k - 1] + 1) : [];
  }

  // Takes other steps, which undo takes back.
  async change(made, k, witness = -1) {
    const before = { steps: this.steps, k: this.k, witness: this.witness };
    await this.take(made, k);
    Object.assign(this, { undo_list: [...this.undo_list, before], redo_list: [], witness });
  }

  rewrite(steps, k) {
    return this.job(async () => this.change(await this.requests.play(steps), k));
  }

  // Goes back to the last of one list; what was there goes to the other one.
  back(from, to) {
    return this.job(async () => {
      const it = this[from].at(-1), now = { steps: this.steps, k: this.k, witness: this.witness };
      if (!it) return;
      await this.play(it.steps, it.k);
      Object.assign(this, { [from]: this[from].slice(0, -1), [to]: [...this[to], now], witness: it.witness });
    });
  }

  undo() {
    return this.back('undo_list', 'redo_list');
  }

  redo() {
    return this.back('redo_list', 'undo_list');
  }

  // The script's next step, if there is one.
  next_step() {
    const next = this.played.step_of[this.k];
    return next === undefined ? null : this.steps[next];
  }

  // Makes a move: the script's next one is only stepped over.
  make(move, is_hidden) {
    if (!is_hidden && move === this.next_step()) return this.go(this.k + 1);
    return this.job(async () => {
      const made = await this.requests.play([...this.front(), move]), last = made.played.refused.at(-1);
      if (last?.step === made.steps.length - 1) throw new Refused(last.why);
      await this.change(made, this.k + 1);
    });
  }

  run(is_on) {
    return this.job(async () => {
      const made = await this.requests.run(is_on ? this.front() : [], this.by);
      await this.change(made, is_on ? this.k : 0);
    });
  }

  load_trace(bytes) {
    return this.job(async () => this.change(await this.requests.follow(bytes), 0));
  }

  async load_witness(at, seen) {
    let row = null;
    await this.job(async () => {
      const made = await this.requests.witness(this.limits(), seen);
      await this.change(made, made.steps.length, at);
      row = made.found;
    });
    return row;
  }

  // ---- the moment

  // Goes to the moment after so many entries; of many that are asked for at once the last one counts.
  go(k) {
    const to = Math.max(0, Math.min(this.entries.length, k));
    const is_waiting = this.wanted !== null;
    this.wanted = to;
    if (is_waiting) return this.jobs;
    return this.job(async () => {
      const at = Math.min(this.wanted, this.entries.length);
      this.wanted = null;
      await this.move_to(at);
    });
  }

  // Where a step from here would lead, with what waits counted.
  get aim() {
    return this.wanted ?? this.k;
  }

  async move_to(k) {
    await this.moment(Math.max(0, k - 1));
    await this.moment(k);
    this.k = k;
  }

  // Each moment is asked for once; those that were looked at last are kept.
  async moment(k) {
    const it = this.moments.get(k) ?? await this.shown(k);
    this.moments.delete(k);
    this.moments.set(k, it);
    if (this.moments.size > KEPT_MOMENTS) this.moments.delete(this.moments.keys().next().value);
  }

  async shown(k) {
    return { ...await this.requests.show(this.entries.slice(0, k), this.shown_words()), tried: new Map() };
  }

  // Memory is shown of the first words of the data.
  shown_words() {
    return Math.min(this.words.length, SHOWN_WORDS);
  }

  // The machine now, and before the last entry shown.
  now() {
    return this.moments.get(this.k) ?? EMPTY;
  }

  before() {
    return this.moments.get(Math.max(0, this.k - 1)) ?? EMPTY;
  }

  // Tries what the rows of the moves don't tell: bursts of more than one turn, where one turn is accepted. It is given
  // up, and answers false, where something else is to be done.
  async try_bursts() {
    const now = this.now(), front = this.front(), played = this.played;
    const goes_on = () => this.wanted === null && this.busy === 0 && played === this.played;
    for (const move of this.bursts_to_try(now)) {
      if (!goes_on()) return false;
      const refusal = await this.beside(() => this.requests.try_move(front, move), null);
      if (refusal === null) return false;
      now.tried.set(move, refusal);
    }
    return goes_on();
  }

  bursts_to_try(now) {
    const units = now.moves.filter((it) => it.kind === 'submit' && !it.refusal).map((it) => it.unit);
    return units.flatMap((unit) => this.bursts().slice(1).map((turns) => `submit,${unit},${turns}`))
      .filter((it) => !now.tried.has(it));
  }

  // By how many turns a task may be run on: one, as many as the machine's burst says, or as many as there are to the
  // next bus request.
  bursts() {
    return [...new Set([1, this.by.burst, 63])].sort((a, b) => a - b);
  }

  entry_addresses() {
    return this.listing.filter((it) => it.is_entry).map((it) => it.address);
  }

  // ---- tables

  limits() {
    return { burst: this.by.burst, states: this.by.states ?? MOST_STATES };
  }

  // What this trace shows, as observations with their entries.
  async observed() {
    if (this.seen) return this.seen;
    const played = this.played;
    const list = this.entries.length ? await this.beside(() => this.requests.observed(), null) : [];
    if (!list) return new Map();
    const seen = new Map(list.map((it) => [it.key, Number(it.steps)]));
    if (played === this.played) this.seen = seen;
    return seen;
  }

  // What the tasks of the sequential run need of one another.
  async needs() {
    this.needed ??= { task: await this.requests.depend('task'), pair: await this.requests.depend('pair') };
    return this.needed;
  }

  async cost() {
    if (this.costs) return this.costs;
    const played = this.played, costs = {};
    for (const by of ['task', 'word', 'unit', 'pc']) {
      costs[by] = await this.beside(() => this.requests.profile(by), null);
      if (!costs[by]) return null;
    }
    if (played === this.played) this.costs = costs;
    return costs;
  }
}

const EMPTY = {
  tasks: [], lines: [], spills: [], memory: [], pcs: [], registers: [], orders: [], moves: [], ending: ['open', ''],
  due: '', guess: '', tried: new Map(),
};

// A move that the machine refuses.
export class Refused extends Error {
  constructor(number) {
    super(number);
    this.number = number;
  }
}
