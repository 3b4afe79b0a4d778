// Rows that the library prints, as values. Nothing is worked out here but where a field begins and ends.

export const lines_of = (text) => (text === '' ? [] : text.replace(/\n$/, '').split('\n'));

const number_or = (field, none) => (field === '' || field === undefined ? none : Number(field));

export const TRACE_COLUMNS = 'kind,unit,arg,local,ask,reply,addr,word,served,from,cause,first,squashed';

// A row of a trace: an entry.
export function entry_of(row) {
  const f = row.split(',');
  return {
    row, kind: f[0], unit: Number(f[1]), arg: f[2], local: number_or(f[3], 0), ask: f[4], reply: f[5],
    word: number_or(f[6], -1), value: f[7], served: f[8], from: number_or(f[9], -1),
    cause: f[10], first: number_or(f[11], -1), count: number_or(f[12], 0),
  };
}

// What a script's steps were answered.
export function played_of(text, steps) {
  const answers = lines_of(text).slice(0, steps), entries = [], step_of = [], refused = [];
  answers.forEach((it, step) => {
    if (it.startsWith('refused,')) refused.push({ step, why: it.slice(8) });
    else if (it === 'none') refused.push({ step, why: 'none' });
    else if (!it.startsWith('taken,')) {
      entries.push(entry_of(it));
      step_of.push(step);
    }
  });
  return { answers, entries, step_of, refused };
}

// The same of a trace, whose every row is the answer to a step.
export function sound_of(trace) {
  const answers = lines_of(trace).slice(1);
  return { answers, entries: answers.map(entry_of), step_of: [...answers.keys()], refused: [] };
}

// What a row of each kind holds, by the kind: the list that it goes to, and a value of its fields.
function sorted_by(kinds, text, lists) {
  for (const row of lines_of(text)) {
    const fields = row.split(','), [list, value] = kinds[fields[0]] ?? [];
    if (list) lists[list].push(value(fields));
  }
  return lists;
}

const SHOWN = {
  task: ['tasks', (f) => ({ task: Number(f[1]), unit: Number(f[2]), entry: f[3], turns: Number(f[4]), state: f[5] })],
  line: ['lines', (f) => ({ unit: Number(f[1]), word: Number(f[2]), value: f[3], bits: f[4] })],
  spill: ['spills', (f) => ({ word: Number(f[1]), value: f[2] })],
  memory: ['memory', (f) => ({ word: Number(f[1]), committed: f[2], backing: f[3] })],
  pc: ['pcs', (f) => ({ unit: Number(f[1]), address: f[2] })],
  register: ['registers', (f) => ({ unit: Number(f[1]), name: f[2], value: f[3] })],
  order: ['orders', (f) => ({ word: Number(f[1]), holders: f.slice(2).map((it) => it.split(':')) })],
  move: ['moves', (f) => ({ unit: Number(f[1]), kind: f[2], arg: f[3], refusal: f[4] })],
  due: ['due', (f) => f[1]], guess: ['guess', (f) => f[1]],
  exit: ['ending', (f) => f.slice(0, 2)], trap: ['ending', (f) => f.slice(0, 2)],
  full: ['ending', (f) => f.slice(0, 2)], open: ['ending', (f) => f.slice(0, 2)],
};

// The machine at a moment: the rows of `show`.
export function shown_of(text) {
  const lists = Object.fromEntries(Object.values(SHOWN).map(([list]) => [list, []]));
  const { due, guess, ending, ...rest } = sorted_by(SHOWN, text, lists);
  return { ...rest, due: due[0] ?? '', guess: guess[0] ?? '', ending: ending[0] ?? null };
}

const DRAWN = {
  bar: ['bars', (f) => ({ task: Number(f[1]), unit: Number(f[2]), entry: f[3], first: number_or(f[4], -1),
    last: number_or(f[5], -1), fate: f[6] })],
  mark: ['marks', (f) => ({ at: Number(f[1]), unit: Number(f[2]), task: Number(f[3]), kind: f[4],
    word: number_or(f[5], -1), value: f[6], by: f[7] })],
  arrow: ['arrows', (f) => ({ from: number_or(f[1], -1), to: number_or(f[2], -1), kind: f[3],
    word: number_or(f[4], -1) })],
};

// What a picture shows: the rows of `draw --rows`.
export const drawn_of = (text) => sorted_by(DRAWN, text, { bars: [], marks: [], arrows: [] });

// What an exploration prints: its counts, and what can be seen.
export function explored_of(text) {
  const it = { seen: [] };
  for (const row of lines_of(text)) {
    const f = row.split(',');
    if (f[0] !== 'seen') it[f[0]] = f[1];
    else {
      const [, what, task, word, value, by, steps] = f;
      it.seen.push({ what, task, word, value, by, steps, key: [what, task, word, value, by].join() });
    }
  }
  return it;
}

// A table: a row of names, and rows of fields.
export function table_of(text) {
  const [head, ...rows] = lines_of(text).map((it) => it.split(','));
  return { head: head ?? [], rows };
}

// A summary's rows, by name; words that were put out are a list.
export function summary_of(lines) {
  const it = { out: [], counts: {} };
  for (const row of lines) {
    const [name, value] = row.split(',');
    if (name === 'out') it.out.push(value);
    else if (['exit', 'trap', 'full', 'open'].includes(name)) it.ending = [name, value];
    else it.counts[name] = Number(value);
  }
  return it;
}

// A listing: its instructions, which of them begin a task, and its words of data, each with the name that the library
// tells.
export function listing_of(text) {
  const code = [], words = [];
  let is_entry = false, is_data = false;
  for (const line of lines_of(text)) {
    if (line === '.data') is_data = true;
    if (line === '.svc_entry' || line.startsWith('.svc_entry ')) is_entry = true;
    const parts = /^(.*)\t# (0x[0-9a-f]{8})(.*)$/.exec(line);
    if (!parts) continue;
    const notes = parts[3].trim().split(' ');
    if (is_data) {
      words.push({ name: notes[0] });
      continue;
    }
    code.push({ address: Number(parts[2]), text: parts[1].trim(), is_entry, name: notes[1] ?? '' });
    is_entry = false;
  }
  return { code, words };
}

// A fault of a text: its line and column, and what it says.
export function fault_of(err) {
  const message = err.replace(/^svcsim: /, '').trimEnd(), parts = /^[^:]*:(\d+):(\d+): (.*)$/s.exec(message);
  return parts ? { line: Number(parts[1]), column: Number(parts[2]), says: parts[3] }
    : { line: 0, column: 0, says: message.replace(/^program\.s: /, '') };
}
