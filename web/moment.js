// The machine at the moment shown: caches, the versions of a word, memory and output. All of it are rows of `show` and
// `draw --rows`; what changed is what differs from the rows of the moment before.

import { escaped } from './html.js';
import { has_name, word_html, word_text } from './names.js';
import { ending_text, entry_link } from './say.js';
import { TEXTS } from './texts.js';

const BITS = TEXTS.bit;

function bits(now, old) {
  const set = BITS.filter((_, n) => now[n] !== '-').map((it) => it[1]).join(', ');
  const one = ([letter, says], n) => {
    const is_set = now[n] !== '-', is_changed = old && old[n] !== now[n];
    const title = `${letter}: ${says}${is_set ? '' : TEXTS.not_set}${is_changed ? TEXTS.changed : ''}`;
    const kind = `bit${is_set ? ' on' : ''}${is_changed ? ' chg' : ''}`;
    return `<span class="${kind}" title="${title}">${is_set ? letter : '·'}</span>`;
  };
  return `<span class="bits" role="img" aria-label="${TEXTS.bits(set)}">${BITS.map(one).join('')}</span>`;
}

const gone_html = (session, old) =>
  `<div class="ln gone"><span class="nm">${word_html(session, old.word)}</span><span class="vl">${old.value}</span>`
  + `<span class="gh">${TEXTS.gone}</span></div>`;

// A line as a box, beside what it was before the entry.
function line_html(session, now, old, is_marked) {
  if (!now) return gone_html(session, old);
  const is_new = is_marked && !old, is_changed = old && old.value !== now.value;
  const number = has_name(session, now.word) ? ` <small>${TEXTS.word(now.word)}</small>` : '';
  return `<div class="ln${is_new ? ' isnew' : ''}">${is_new ? `<span class="newtag">${TEXTS.new}</span>` : ''}`
    + `<span class="nm">${word_html(session, now.word)}${number}</span>`
    + `<span class="vl${is_changed ? ' chg' : ''}">${now.value}</span>`
    + `${bits(now.bits, is_marked && old ? old.bits : null)}</div>`;
}

function cache_html(session, unit, now, before, is_marked) {
  const task = now.tasks.find((it) => it.unit === unit), all = session.config.sets * session.config.ways;
  const lines = now.lines.filter((it) => it.unit === unit);
  const old = is_marked ? before.lines.filter((it) => it.unit === unit) : lines;
  const words = [...new Set([...lines, ...old].map((it) => it.word))].sort((a, b) => a - b);
  const of = (list, word) => list.find((it) => it.word === word);
  const boxes = words.map((word) => line_html(session, of(lines, word), of(old, word), is_marked)).join('');
  const runs = task ? TEXTS.runs_task(task.task) : TEXTS.has_no_task;
  return `<div class="cache"><div class="hdr"><h3>${TEXTS.Unit(unit)} <span class="soft">${runs}</span></h3>`
    + `<span class="empty">${TEXTS.used(lines.length, all)}</span></div>`
    + `${boxes || `<p class="empty">${TEXTS.no_line}</p>`}</div>`;
}

export function caches_html(session, now, before, is_marked) {
  const units = [...Array(session.config.units).keys()];
  const caches = units.map((unit) => cache_html(session, unit, now, before, is_marked)).join('');
  const key = BITS.map(([letter, says]) => `<b>${letter}</b>&nbsp;${says}`).join(' · ');
  return `<div class="units_list">${caches}</div><p class="legend">${key}</p>`;
}

// The last entry before this moment at which a task on a unit did this with a word.
function done_at(session, kind, task, word) {
  let found = -1;
  for (const it of session.drawing.marks) {
    if (it.at >= session.k) break;
    if (it.kind === kind && it.word === word && it.task === task) found = it.at;
  }
  return found < 0 ? '' : ` ${entry_link(found)}`;
}

const is_version = (line) => line.bits[1] === 'S';

// The lines of a word from the oldest to the youngest version, as the library orders them.
function ordered(now, word) {
  const holders = now.orders.find((it) => it.word === word)?.holders ?? [];
  return holders.map(([unit, holder]) => ({
    line: now.lines.find((it) => it.unit === Number(unit) && it.word === word),
    unit: Number(unit), is_committed: holder === 'committed', task: holder,
  }));
}

const node = (kind, who, value, says) =>
  `<li class="${kind}"><div class="nd"><span>${who}</span><span class="v">${value}</span></div>`
  + `<small>${says}</small></li>`;

const stale = (line) => (line?.bits[4] === 'T' ? TEXTS.stale : '');

// What an active task holds of a word, and since when.
function held_by(session, task, line, spill) {
  const at = (kind) => done_at(session, kind, task, session.word) + stale(line);
  if (line && is_version(line)) return TEXTS.own_version + TEXTS.stored + at('store');
  if (line) return TEXTS.a_copy + TEXTS.loaded + at('load');
  return spill ? TEXTS.spilled_version + TEXTS.stored + at('store') : TEXTS.untouched;
}

function task_node(session, now, it, line) {
  const is_head = it === now.tasks[0], spill = is_head && now.spills.find((one) => one.word === session.word);
  const kind = [is_head && 'hd', (spill || (line && is_version(line))) && 'ver', !line && !spill && 'none'];
  const badge = is_head ? ` <span class="badge head">${TEXTS.head}</span>` : '';
  const value = (line || spill || { value: '' }).value, says = held_by(session, it.task, line, spill);
  return node(kind.filter(Boolean).join(' '), TEXTS.task_in(it.task, it.unit) + badge, value, says);
}

function committed_node({ line, unit }) {
  const says = (is_version(line) ? TEXTS.a_version : TEXTS.a_copy) + stale(line);
  return node(is_version(line) ? 'ver' : '', TEXTS.committed_in(unit), line.value, says);
}

export function versions_html(session) {
  const now = session.now(), { word } = session, list = ordered(now, word);
  const row = now.memory.find((it) => it.word === word);
  const line_of = ({ task }) => list.find((it) => it.task === String(task))?.line;
  const nodes = [
    node('ver', TEXTS.memory_itself, row ? row.backing : '–', row ? TEXTS.behind_caches : TEXTS.in_no_cache),
    ...list.filter((it) => it.is_committed).map(committed_node),
    ...now.tasks.map((it) => task_node(session, now, it, line_of(it))),
  ];
  return `<ol class="vol">${nodes.join('')}</ol>`
    + (now.tasks.length ? `<p class="legend">${TEXTS.versions_key}</p>` : `<p class="empty">${TEXTS.no_task}</p>`);
}

const FIRST_WORDS = 16, MOST_WORDS = 64, MOST_OUT = 64;

// The words that are listed: the first of the data, and those that the run loads or stores.
export function words_of(session) {
  const words = new Set(session.words.slice(0, FIRST_WORDS).keys());
  for (const it of session.drawing.marks) if (it.word >= 0 && words.size < MOST_WORDS) words.add(it.word);
  return [...words].sort((a, b) => a - b);
}

export const words_html = (session) =>
  words_of(session).map((it) => `<option value="${it}">${escaped(word_text(session, it))}</option>`).join('');

function memory_row(session, word, row, old) {
  const cell = (field, more = '') => {
    const is_changed = row && old && old[field] !== row[field];
    return `<td class="n${is_changed ? ' chg' : ''}">${row ? row[field] + more : '–'}</td>`;
  };
  const differs = row && row.committed !== row.backing ? ` <span title="${TEXTS.differs}">≠</span>` : '';
  return `<tr><td>${word_html(session, word)}</td>${cell('backing')}${cell('committed', differs)}</tr>`;
}

function spill_html(session, now, { word, value }, is_new) {
  const tag = is_new ? `<span class="newtag st">${TEXTS.new}</span> ` : '';
  const says = TEXTS.spilled(word_html(session, word), value, now.tasks[0]?.task);
  return `<p class="spl${is_new ? ' isn' : ''}">${tag}${says}</p>`;
}

export function memory_html(session, now, before, is_marked) {
  const words = words_of(session), of = (list, word) => list.find((it) => it.word === word);
  const old = is_marked ? before.memory : [];
  const row = (word) => memory_row(session, word, of(now.memory, word), of(old, word));
  const spill = (it) => spill_html(session, now, it, is_marked && !of(before.spills, it.word));
  const head = TEXTS.memory_head.map((it, n) => `<th${n ? ' class="n"' : ''}>${it}</th>`).join('');
  const left_out = session.words.length - words.length, note = (text) => `<p class="legend">${text}</p>`;
  const table = `<table><thead><tr>${head}</tr></thead><tbody>${words.map(row).join('')}</tbody></table>`;
  return `<div class="scroll tall" tabindex="0" role="region" aria-label="${TEXTS.memory}">${table}</div>`
    + now.spills.map(spill).join('')
    + (words.every((word) => of(now.memory, word)) ? '' : note(TEXTS.no_row))
    + (left_out > 0 ? note(TEXTS.more_words(left_out)) : '');
}

// The words put out by committed tasks, in the tasks' order, and those that wait.
export function outputs(session) {
  const k = session.k, done = [], waiting = [], bars = new Map();
  for (const it of session.drawing.bars) bars.set(it.task, [...(bars.get(it.task) ?? []), it]);
  for (const it of session.drawing.marks) {
    if (it.kind !== 'output' || it.at >= k) continue;
    const bar = bars.get(it.task)?.find((one) => one.first <= it.at && (one.last < 0 || one.last >= it.at));
    if (!bar) continue;
    if (bar.last < 0 || bar.last >= k) waiting.push(it);
    else if (bar.fate === 'committed') done.push(it);
  }
  return { done: done.sort((a, b) => a.task - b.task || a.at - b.at), waiting };
}

const ends = (ending) => (ending ? `<small>${TEXTS.sequential_ends(ending_text(ending))}</small>` : '');

const word_out = (value, kind = '', more = '') => `<span class="ow${kind}">${escaped(value)}${more}</span>`;

// How the words of this run compare with those of the sequential one.
function verdict(done, now, wanted, ending) {
  const is_front = done.every((it, n) => wanted[n] === it.value), has_stopped = now.ending[0] !== 'open';
  if (!is_front) return '';
  if (has_stopped && done.length === wanted.length && now.ending.join() === ending?.join()) return TEXTS.same;
  return done.length ? TEXTS.so_far : '';
}

export function output_html(session, now) {
  const { done, waiting } = outputs(session), { out: wanted, ending } = session.sequential ?? { out: [] };
  const run = done.map((it, n) => word_out(it.value, wanted[n] === it.value ? ' eq' : '')).join('')
    + waiting.map((it) => word_out(it.value, ' pend', ` <small>${TEXTS.waits(it.task)}</small>`)).join('')
    + (now.ending[0] === 'open' ? '' : ends(now.ending));
  const sequential = wanted.slice(0, MOST_OUT).map((it) => word_out(it)).join('') + ends(ending);
  const row = (name, html) => `<span>${name}</span><span class="w">${html}</span>`;
  return `<div class="outs">${row(TEXTS.this_run, run || `<span class="empty">${TEXTS.nothing}</span>`)}`
    + `${row(TEXTS.sequential, sequential)}</div><p class="verd">${verdict(done, now, wanted, ending)}</p>`;
}
