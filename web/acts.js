// What is done when something is pressed, typed or chosen.

import { $ } from './document.js';
import { draw_program, scroll_program } from './draw.js';
import { fragment_of, open_file } from './files.js';
import { question } from './say.js';
import { draw, draw_answers, page, predict, tell, tell_why } from './shown.js';
import { tables } from './tables.js';
import { TEXTS } from './texts.js';

const TYPED = 250, COPIED = 1500;
let typing = 0;

const no_question = () => Object.assign(predict, { ask: null, said: null });

// ---- the moment

export function go(k) {
  no_question();
  return page.session.go(k);
}

export const go_back = () => go(page.session.aim - 1);
export const go_to_end = () => (predict.on ? null : go(page.session.entries.length));

export function go_to_note() {
  const { k, entries } = page.session;
  const at = entries.findIndex((it, n) => n >= k && (it.cause || it.kind === 'commit'));
  return go(at < 0 ? entries.length : at + 1);
}

// One entry on; where the student predicts, the question on it comes first.
export function step() {
  const { session } = page;
  if (predict.ask || session.aim >= session.entries.length) return null;
  const asked = predict.on && session.wanted === null ? question(session, session.k) : null;
  if (!asked) return go(session.aim + 1);
  Object.assign(predict, { ask: { ...asked, k: session.k }, said: null });
  draw();
  return document.querySelector('[data-answer]')?.focus({ preventScroll: true });
}

export async function answer(n) {
  const { session } = page, it = predict.ask?.options[n];
  if (!it) return;
  predict.asked++;
  if (it.is_right) predict.right++;
  Object.assign(predict, { ask: null, said: { k: session.k + 1, is_right: it.is_right, label: it.label } });
  await session.go(session.k + 1);
  $('bf').focus({ preventScroll: true });
}

// Where the student predicts, the slider goes on by one entry, as a step does.
export function slide(event) {
  const to = Number(event.target.value), { k } = page.session;
  if (!predict.on || to <= k) return go(to);
  event.target.value = k;
  return step();
}

// A column of the lanes was pressed.
export const go_to_column = (at) => (predict.on && at >= page.session.k ? null : go(at + 1));

export function set_predict(is_on) {
  const { session } = page;
  Object.assign(no_question(), { on: is_on, right: 0, asked: 0 });
  return is_on && session.k >= session.entries.length ? go(0) : draw();
}

// ---- the program

export const program_of = (name) => page.programs.find((it) => it.lesson === name);

// The menu names the program whose text this is: another one is your own, and each of the menu can be chosen then.
export function show_lesson() {
  const it = program_of(page.session.lesson);
  $('lesson').value = it?.text === $('src').value ? it.lesson : '';
}

export async function load(program) {
  const { session, requests } = page;
  no_question();
  requests.stop_exploring();
  Object.assign(tables, { turn: tables.turn + 1, explored: null, of: '', is_quick: true, fault: '' });
  $('src').value = program.text;
  tell('');
  await session.load(program);
  if (session.lesson !== program.lesson) $('src').value = session.text;
  show_lesson();
  scroll_program(session);
}

// What is typed is assembled when the student rests.
export function on_typed() {
  draw_program(page.session);
  show_lesson();
  clearTimeout(typing);
  typing = setTimeout(() => page.session.edit($('src').value), TYPED);
}

export async function open_chosen() {
  const { session } = page, [file] = $('file').files;
  $('file').value = '';
  if (!file) return;
  tell(TEXTS.opened(file.name));
  await open_file(session, file).catch(tell_why);
  $('src').value = session.text;
  show_lesson();
  draw();
}

// ---- the machine and the script

const number_in = (id) =>
  Math.max(Number($(id).min), Math.min(Number($(id).max), Math.floor(Number($(id).value)) || 0));

// Says how many steps are refused, where a script was played since.
function tell_refused(before) {
  const { played, steps } = page.session, count = played.refused.length;
  if (played !== before) tell(count ? TEXTS.refused_steps(count, steps.length) : '', count > 0);
}

export async function set_machine() {
  const { session } = page, before = session.played, sets = 2 ** Math.round(Math.log2(Math.max(1, number_in('ms'))));
  await session.set_config({ units: number_in('mu'), sets, ways: number_in('mw') });
  tell_refused(before);
}

export function set_schedule() {
  Object.assign(page.session.by, { burst: number_in('mb'), order: $('sched').value, seed: number_in('seed') });
  return draw();
}

export async function run(is_on) {
  const { session } = page, before = session.steps;
  tell(TEXTS.working);
  no_question();
  await session.run(is_on);
  const is_told = session.steps === before && $('mmsg').classList.contains('fault');
  if (!is_told) tell(TEXTS.ran(session.entries.length, session.by.order));
}

export async function apply_script() {
  const { session } = page, before = session.played;
  const steps = $('steps').value.split('\n').map((it) => it.trim()).filter((it) => it !== '');
  await session.rewrite(steps, session.k);
  tell_refused(before);
}

export async function load_witness(at) {
  no_question();
  const found = await page.session.load_witness(at, tables.explored.seen[at]);
  if (found) tell(TEXTS.witness([found.what, found.task, found.word, found.value, found.by].filter(Boolean).join(' ')));
  document.querySelector(`[data-witness="${at}"]`)?.focus({ preventScroll: true });
}

// ---- tables, links and looks

export function show_tab(tab) {
  tables.tab = tab;
  return draw_answers();
}

export async function set_filter(filter) {
  tables.filter = filter;
  await draw_answers();
  document.querySelector(`[data-filter=${filter}]`)?.focus();
}

export async function copy_link() {
  const button = $('blink');
  history.replaceState(null, '', await fragment_of(page.session));
  const is_copied = await navigator.clipboard?.writeText(location.href).then(() => true, () => false);
  button.textContent = is_copied ? TEXTS.copied : TEXTS.in_address;
  setTimeout(() => { button.textContent = TEXTS.link; }, COPIED);
}

export function set_theme(is_dark) {
  document.documentElement.dataset.theme = is_dark ? 'dark' : 'light';
  $('btheme').setAttribute('aria-pressed', is_dark);
}

export const is_dark = () => document.documentElement.dataset.theme === 'dark';
export const is_projected = () => document.documentElement.classList.contains('projector');

export function set_projector(is_on) {
  document.documentElement.classList.toggle('projector', is_on);
  $('bproj').setAttribute('aria-pressed', is_on);
  $('keyd').open = !is_on;
  return draw();
}
