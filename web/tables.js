// The tables below: what all schedules show, the trace, the script, and what speculation cost.

import { escaped } from './html.js';
import { entry_html, word_html } from './names.js';
import { TRACE_COLUMNS } from './rows.js';
import { MOST_STATES } from './session.js';
import { TEXTS } from './texts.js';

export const TABS = ['all', 'trace', 'script', 'cost', 'needs'];
const AROUND = 200;

// What the tables show beside the session: the tab, what is filtered, the exploration and its state.
export const tables = {
  tab: 'all', filter: 'all', explored: null, of: '', begun: 0, turn: 0, is_quick: true, fault: '',
};

export function explored_key({ image_count, config, by }) {
  return [image_count, config.units, config.sets, config.ways, by.burst, by.states].join();
}

// ---- all schedules

// Who served a load, or why tasks are squashed.
function by_text(session, { what, by, word }) {
  if (what !== 'squash') return by.startsWith('version:') ? TEXTS.version_of(by.slice(8)) : TEXTS.seen_by[by];
  if (by === 'violation') return TEXTS.by_word(word_html(session, word));
  return by === 'guess' ? TEXTS.by_guess : TEXTS.by_cancel;
}

function phrase(session, it) {
  const parts = {
    task: TEXTS.task(it.task), word: it.word === '' ? '' : word_html(session, it.word), by: by_text(session, it),
    value: it.what === 'begin' ? entry_html(session, it.value) : escaped(it.value),
  };
  return TEXTS.seen[it.what]?.(parts) ?? escaped(it.key);
}

// Only the first row with the same task and word has a witness that the library finds.
function is_first(seen, at) {
  const same = (a, b) => a.what === b.what && a.task === b.task && a.word === b.word;
  return seen.findIndex((it) => same(it, seen[at])) === at;
}

function seen_row(session, predict, it, at, list, in_run) {
  const entry = in_run.get(it.key), is_in = entry !== undefined && !(predict.on && entry >= session.k);
  const steps = TEXTS.steps(Number(it.steps)) + (is_in ? TEXTS.in_run(entry) : '');
  const inside = `<span class="ic" aria-hidden="true">${is_in ? TEXTS.filled : TEXTS.empty}</span>`
    + `<span>${phrase(session, it)}</span><span class="stp">${steps}</span>`;
  if (!is_first(list, at)) return `<li><div class="row_only">${inside}</div></li>`;
  const more = session.witness === at ? ' class="cur" aria-current="true"' : '';
  return `<li><button data-witness="${at}"${more}>${inside}</button></li>`;
}

function exploring_html() {
  const seconds = Math.floor((performance.now() - tables.begun) / 1000);
  return `<p class="chips" role="status">${TEXTS.exploring(seconds)} <button id="bstop">${TEXTS.stop}</button></p>`;
}

// The button that begins an exploration, and its limit.
const begin_html = ({ by }) =>
  `<div class="chips"><label>${TEXTS.standings} <input id="states" type="number" min="1" max="1000000"`
  + ` value="${by.states ?? MOST_STATES}"></label><button id="bexplore">${TEXTS.explore}</button></div>`;

const filter_html = ([key, text]) =>
  `<button data-filter="${key}" aria-pressed="${tables.filter === key}">${text}</button>`;

async function explored_html(session, predict, it) {
  const in_run = await session.observed(), is_whole = it.whole === 'yes';
  const is_shown = ({ what }) => tables.filter === 'all' || what === tables.filter;
  const row = (one, at) => (is_shown(one) ? seen_row(session, predict, one, at, it.seen, in_run) : '');
  const filters = Object.entries(TEXTS.filters).map(filter_html).join('');
  const says = is_whole ? TEXTS.whole(session.config.units, session.by.burst) : TEXTS.not_whole;
  return `<div class="chips"><span>${TEXTS.show_what}</span>${filters}`
    + `<span class="soft end">${TEXTS.explored(it)}</span></div><ul class="seen">${it.seen.map(row).join('')}</ul>`
    + `<p class="legend">${TEXTS.seen_key} ${says}</p>${is_whole ? '' : begin_html(session)}`;
}

export async function all_html(session, predict) {
  if (tables.begun) return exploring_html();
  const is_there = tables.explored && tables.of === explored_key(session);
  if (is_there) return explored_html(session, predict, tables.explored);
  return begin_html(session) + (tables.fault ? `<p class="fault">${escaped(tables.fault)}</p>` : '');
}

// ---- rows

const table = ({ head, rows }) =>
  `<table class="rows"><thead><tr>${head.map((it) => `<th>${escaped(it)}</th>`).join('')}</tr></thead><tbody>`
  + rows.map((row) => `<tr>${row.map((it) => `<td>${escaped(it)}</td>`).join('')}</tr>`).join('') + '</tbody></table>';

// A table whose rows have a number in front.
const numbered = (head, rows) =>
  `<table class="rows"><thead><tr><th></th>${head.map((it) => `<th>${it}</th>`).join('')}</tr></thead>`
  + `<tbody>${rows}</tbody></table>`;

const scrolled = (label, html) => `<div class="scroll" tabindex="0" role="region" aria-label="${label}">${html}</div>`;

// The rows around the moment.
function around(session, limit) {
  const from = Math.max(0, session.k - AROUND), to = Math.min(limit, session.k + AROUND);
  const left_out = limit - (to - from);
  return { from, to, note: left_out > 0 ? `<p class="legend">${TEXTS.rows_left_out(left_out)}</p>` : '' };
}

function row_of(session, at, cells) {
  const kind = at === session.k - 1 ? 'cur' : at >= session.k ? 'later' : '';
  const fields = cells.map((it) => `<td>${escaped(it)}</td>`).join('');
  return `<tr data-k="${at + 1}" class="${kind}"><td>${at}</td>${fields}</tr>`;
}

// The trace as far as it may be seen.
export function trace_html(session, predict) {
  const limit = predict.on ? session.k : session.entries.length;
  const { from, to, note } = around(session, limit);
  const rows = session.entries.slice(from, to).map((it, n) => row_of(session, from + n, it.row.split(','))).join('');
  return scrolled(TEXTS.trace, numbered(TRACE_COLUMNS.split(','), rows)) + note;
}

export const script_html = () =>
  `<div class="two"><div><label class="sr" for="steps">${TEXTS.script_label}</label>`
  + '<textarea id="steps" class="code" spellcheck="false" wrap="off"></textarea>'
  + `<p><button id="bapply" class="pri">${TEXTS.apply}</button></p></div><div id="answers"></div></div>`
  + `<p class="legend">${TEXTS.script_says}</p>`;

const steps_in_sight = (session, predict) => (predict.on ? session.front() : session.steps);

// The script as it can be edited, one step a line.
export const script_text = (session, predict) => steps_in_sight(session, predict).map((it) => it + '\n').join('');

// What a step was answered: a refusal in words, an entry, or else the row.
function answer_html(refusal, entry, row) {
  if (refusal) return `✕ ${TEXTS.refusal[refusal.why] ?? refusal.why}`;
  return entry === undefined ? escaped(row) : TEXTS.entry(entry);
}

// The steps beside what they were answered.
export function answers_html(session, predict) {
  const { answers, refused, step_of } = session.played, steps = steps_in_sight(session, predict);
  const entry_of = new Map(step_of.map((step, entry) => [step, entry]));
  const refusal_of = new Map(refused.map((it) => [it.step, it]));
  const current = session.k ? step_of[session.k - 1] : -1;
  const from = Math.max(0, current - AROUND), to = Math.min(steps.length, Math.max(0, current) + AROUND);
  const row = (it, n) => {
    const step = from + n, entry = entry_of.get(step), refusal = refusal_of.get(step);
    const kind = [step === current && 'cur', step > current && 'later', refusal && 'refused'].filter(Boolean).join(' ');
    return `<tr class="${kind}"${entry === undefined ? '' : ` data-k="${entry + 1}"`}><td>${step}</td>`
      + `<td>${escaped(it)}</td><td>${answer_html(refusal, entry, answers[step] ?? '')}</td></tr>`;
  };
  return scrolled(TEXTS.script, numbered(TEXTS.answer_head, steps.slice(from, to).map(row).join('')));
}

// What speculation cost; null while the library can't be asked.
export async function cost_html(session, predict) {
  if (predict.on) return `<p class="empty">${TEXTS.hidden_table}</p>`;
  const costs = await session.cost();
  if (!costs) return null;
  const part = (title, { head, rows }) => `<h3>${title}</h3>${table({ head, rows: rows.slice(0, 500) })}`;
  const parts = [part(TEXTS.by_task, costs.task), part(TEXTS.by_word_table, costs.word),
    part(TEXTS.by_unit, costs.unit), part(TEXTS.by_pc, costs.pc)];
  return scrolled(TEXTS.cost, parts.join(''));
}

export async function needs_html(session) {
  const { task, pair } = await session.needs();
  const part = (title, { head, rows }) =>
    `<div><h3>${title}</h3>${scrolled(title, table({ head, rows: rows.slice(0, 300) }))}</div>`;
  return `<p class="legend">${TEXTS.needs_says}</p>`
    + `<div class="two needs">${part(TEXTS.by_task, task)}${part(TEXTS.by_pair, pair)}</div>`;
}
