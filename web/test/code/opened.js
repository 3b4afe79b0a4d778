// Sessions over recorded rows: the two tasks of p.s on four units, and the ten events.

import { Requests } from '../../requests.js';
import { drawn_of, entry_of, lines_of } from '../../rows.js';
import { Session } from '../../session.js';
import { Recorded } from './recorded.js';
import { text } from './cases.js';

export const UNPREDICTED = { on: false, ask: null, said: null };
export const TEN = lines_of(text('scripts/ten_events.csv')).slice(1);
export const FOUR = { units: 4, sets: 16, ways: 2 };

// A session in which p.s is open, with these steps, at this moment. The names are those of names/p.csv.
export async function opened(k = 0, steps = TEN) {
  const library = new Recorded(), requests = new Requests(library, library), faults = [];
  library.put('names.csv', text('names/p.csv'));
  const session = new Session(requests, { draw() {}, tell: (why) => faults.push(why), wait() {} });
  await session.load({ lesson: 'p', text: text('assembly/p.s'), config: FOUR, by: {}, steps, k });
  return { session, requests, library, faults };
}

// A session of rows alone: entries, the moments before and after the last of them, and a picture's rows.
export function shown({ entries, before, after, rows = '', units = 4, names = [] }) {
  const list = entries.map(entry_of), k = list.length;
  return {
    entries: list, k, config: { ...FOUR, units }, has_image: true, listing: [], word: 0,
    words: names.map((name) => ({ name })), sequential: null, played: { step_of: [], answers: [] },
    drawing: drawn_of(rows), moments: new Map([[k - 1, before], [k, after]]), now: () => after, before: () => before,
    next_step: () => null, bursts: () => [1, 63], entry_addresses: () => [],
  };
}
