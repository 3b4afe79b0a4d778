// What is open in the page, and when what of it is drawn.

import { $ } from './document.js';
import { draw_lanes, draw_listing, draw_moment, draw_moves, draw_program, draw_sentence, draw_tables } from './draw.js';
import { fragment_of } from './files.js';
import { Stopped } from './library.js';
import { Refused } from './session.js';
import { explored_key, tables } from './tables.js';
import { TEXTS } from './texts.js';

export const page = { session: null, requests: null, programs: [] };
export const predict = { on: false, ask: null, said: null, right: 0, asked: 0 };
const LONG_RUN = 500, REST = 150, BETWEEN_ADDRESSES = 400, LONG_SCRIPT = 400, QUICK = 1500;
let later = 0, drawn = 0;

// ---- what is told

export function tell(text, is_bad = false) {
  const box = $('mmsg');
  box.textContent = text;
  box.className = is_bad ? 'fault' : 'msg';
}

export function tell_why(why) {
  if (why instanceof Stopped) return tell(TEXTS.stopped_job, true);
  if (why instanceof Refused) return tell(TEXTS.was_refused(TEXTS.refusal[why.number] ?? why.number), true);
  return tell(why.err === undefined ? TEXTS.broken(why.message) : why.message, true);
}

// Whether something takes long enough that it may be stopped.
export function show_wait(is_long) {
  $('wait').hidden = !is_long;
}

// ---- what is drawn

function draw_bar({ k, entries, undo_list, redo_list, has_image }) {
  const score = predict.on && predict.asked ? TEXTS.score(predict.right, predict.asked) : '';
  $('at').textContent = score + TEXTS.position(k, predict.on ? '?' : entries.length);
  $('b0').disabled = $('bb').disabled = k === 0;
  $('bf').disabled = k >= entries.length;
  $('bn').disabled = k >= entries.length || predict.on;
  $('bu').disabled = !undo_list.length;
  $('br').disabled = !redo_list.length;
  $('bpred').setAttribute('aria-pressed', predict.on);
  $('bon').disabled = !has_image;
}

// What is being typed stays.
function draw_machine({ config, by }) {
  const values = { mu: config.units, ms: config.sets, mw: config.ways, mb: by.burst, sched: by.order, seed: by.seed };
  for (const [id, value] of Object.entries(values)) if (document.activeElement !== $(id)) $(id).value = value;
  $('seed').disabled = by.order !== 'random';
}

export function draw() {
  const { session } = page;
  if (predict.ask && predict.ask.k !== session.k) predict.ask = null;
  draw_program(session);
  draw_machine(session);
  draw_bar(session);
  draw_listing(session);
  draw_sentence(session, predict);
  draw_lanes(session, predict);
  draw_moment(session, predict);
  draw_moves(session, predict);
  remember(session);
  draw_answers();
}

// What the library has yet to be asked for, of what was drawn last. Of a long run that waits until the student rests,
// so that a step waits for no move that is tried.
export async function draw_answers() {
  const { session } = page, turn = ++drawn, is_last = () => turn === drawn;
  $('units').setAttribute('aria-busy', 'true');
  if (session.entries.length > LONG_RUN) await new Promise((done) => setTimeout(done, REST));
  if (!is_last()) return;
  try {
    await draw_tables(session, predict);
    if (tables.tab === 'all' && tables.is_quick) explore();
    if (!predict.ask && await session.try_bursts() && is_last()) draw_moves(session, predict);
  } catch (why) {
    if (!(why instanceof Stopped)) tell_why(why);
  }
  if (is_last()) $('units').setAttribute('aria-busy', 'false');
}

// The address says what is open: not at each step, and not of long scripts, since browsers refuse a flood of changes.
function remember(session) {
  clearTimeout(later);
  if (session.steps.length > LONG_SCRIPT || !session.has_image) return;
  later = setTimeout(async () => history.replaceState(null, '', await fragment_of(session)), BETWEEN_ADDRESSES);
}

// ---- all schedules

// Looks at all schedules, in the other worker. One that took long isn't looked at again unasked.
export async function explore(is_asked = false) {
  const { session, requests } = page, key = explored_key(session);
  if (tables.begun || session.busy || !session.has_image || (tables.of === key && !is_asked)) return;
  const turn = ++tables.turn;
  Object.assign(tables, { begun: performance.now(), fault: '', explored: null });
  const clock = setInterval(() => tables.tab === 'all' && draw_tables(session, predict), 1000);
  try {
    tables.explored = await requests.explore(session.limits());
    tables.of = key;
  } catch (why) {
    if (turn === tables.turn) tables.fault = why instanceof Stopped ? TEXTS.stopped : why.message;
  }
  clearInterval(clock);
  if (turn === tables.turn) tables.is_quick = !tables.fault && performance.now() - tables.begun < QUICK;
  tables.begun = 0;
  await draw_answers();
}
