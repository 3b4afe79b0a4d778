// The sentence on the last entry shown, and the question on the next one. Both are put together of fields that the
// library printed.

import { escaped, plain } from './html.js';
import { entry_html, word_html } from './names.js';
import { TEXTS } from './texts.js';

const SAYS = TEXTS.says;
export const entry_link = (at) => `<button class="lnk" data-k="${at + 1}">${TEXTS.at_entry(at)}</button>`;
const task_on = (shown, unit) => shown.tasks.find((it) => it.unit === unit);
export const ending_text = ([name, value]) => TEXTS.ending[name](value);

// The read that the store of this entry found too early, and the store whose version this read got, if the rows tell
// them.
export const early_read = ({ drawing }, at) =>
  drawing.arrows.find((it) => it.kind === 'violation' && it.from === at)?.to ?? -1;
export const version_store = ({ drawing }, at) =>
  drawing.arrows.find((it) => it.kind === 'version' && it.to === at)?.from ?? -1;

function said_of_store(session, at, it, task) {
  const word = word_html(session, it.word);
  if (it.cause !== 'violation') return SAYS.stores(task, word, it.value);
  const read = early_read(session, at), where = read < 0 ? '' : `, ${entry_link(read)}`;
  const got = read < 0 ? '' : SAYS.got(session.entries[read].value);
  return SAYS.too_early(task, word, it.value, TEXTS.task(it.first), where, got, SAYS.squashed(it.first, it.count));
}

function said_of_load(session, it, task, before) {
  let by = SAYS.by_other(TEXTS.served[it.served]);
  if (it.served === 'version') by = SAYS.by_version(TEXTS.task(task_on(before, it.from)?.task), TEXTS.unit(it.from));
  if (it.served === 'committed') by = SAYS.by_committed(TEXTS.unit(it.from));
  return SAYS.loads(task, word_html(session, it.word), it.value, by);
}

function said_of_assign(session, it, task, before) {
  const others = before.tasks.map((one) => one.task);
  return SAYS.begins(TEXTS.Unit(it.unit), TEXTS.task(task), entry_html(session, it.value), it.value === before.guess,
    others.length ? SAYS.still(others) : '');
}

function said_of_run(it, task, after) {
  const state = task_on(after, it.unit)?.state;
  const ended = { next: SAYS.ended, exit: SAYS.ended_exit, trap: SAYS.ended_trap }[state] ?? SAYS.full_stop;
  return SAYS.runs(task, it.local, ended);
}

function said_of_replace(session, it, task, before, after) {
  const word = Number(it.arg), is_kept = (one) => one.word === word;
  const kept = before.spills.some(is_kept) ? null : after.spills.find(is_kept);
  return SAYS.replaces(TEXTS.Unit(it.unit), word_html(session, word))
    + (kept ? SAYS.spills(kept.value, TEXTS.task(task)) : '.');
}

// What the entry did, between these two moments.
function said_of(session, at, it, before, after) {
  const on = task_on(it.kind === 'assign' ? after : before, it.unit) ?? task_on(after, it.unit),
    number = on?.task ?? '?', task = TEXTS.Task(number);
  switch (it.reply) {
    case 'assigned': return said_of_assign(session, it, number, before);
    case 'loaded': return said_of_load(session, it, task, before);
    case 'stored': return said_of_store(session, at, it, task);
    case 'emitted': return SAYS.puts_out(task, it.value);
    case 'ran': return said_of_run(it, task, after);
    case 'trapped': return SAYS.traps(task, it.value);
    case 'replaced': return said_of_replace(session, it, number, before, after);
    case 'cancelled': return it.first < 0 ? '' : SAYS.cancels(it.first);
    case 'committed': return SAYS.commits(TEXTS.Task(it.value));
    default: return escaped(it.row);
  }
}

function colour_of({ cause, kind }) {
  if (cause === 'violation') return 'sq';
  if (kind === 'commit') return 'ok';
  return cause === 'guess' ? 'gu' : '';
}

// The sentence on an entry, and its colour. Without both moments around it it says less.
export function sentence(session, at) {
  const it = session.entries[at], before = session.moments.get(at), after = session.moments.get(at + 1);
  if (!before || !after) return { html: `<code>${escaped(it.row)}</code>`, colour: '' };
  let html = said_of(session, at, it, before, after);
  if (it.cause === 'guess') html += SAYS.wrong_guess(it.first, it.count);
  for (const { word, backing } of after.memory) {
    const old = before.memory.find((one) => one.word === word);
    if (old && old.backing !== backing) html += SAYS.memory_now(backing, word_html(session, word));
  }
  if (after.ending[0] !== 'open' && before.ending[0] === 'open') html += SAYS.stops(ending_text(after.ending));
  return { html, colour: colour_of(it) };
}

// The same without links and colours.
export const plain_sentence = (session, at) =>
  sentence(session, at).html.replace(/ class="(bad|good)"/g, '').replace(/<\/?button[^>]*>/g, '');

function tags_of(it) {
  const tag = (colour, text) => `<span class="tag ${colour}">${text}</span>`;
  if (it.cause === 'violation') return tag('sq', TEXTS.tags.violation);
  return (it.kind === 'commit' ? tag('ok', TEXTS.tags.commit) : '')
    + (it.cause === 'guess' ? tag('gu', TEXTS.tags.guess) : '')
    + (it.cause === 'cancel' ? tag('', TEXTS.tags.cancel) : '');
}

function question_html(k, { question, options }) {
  const buttons = options.map((it, n) =>
    `<button data-answer="${n}"><kbd aria-hidden="true">${n + 1}</kbd>${it.label}</button>`).join('');
  return `<div class="when">${TEXTS.predicting(k)}</div><div class="quiz"><p>${question}</p>`
    + `<div class="opts" role="group" aria-label="${TEXTS.your_answer}">${buttons}</div></div>`;
}

const said_html = (when, says, row) => `<div class="when">${when}</div><p>${says}</p>${row}`;

const verdict_html = ({ is_right, label }) =>
  `<span class="verdict">${is_right ? TEXTS.right : TEXTS.wrong(plain(label))}</span> `;

// What is said at this moment, and its colour: the question, if one is open, or the last entry's sentence.
export function said_at(session, predict) {
  const k = session.k;
  if (predict.ask) return { html: question_html(k, predict.ask), colour: '' };
  if (k === 0) {
    const says = TEXTS.nothing_yet + (predict.on ? TEXTS.nothing_yet_predict : '');
    const hint = `<div class="row">${TEXTS.nothing_yet_hint}</div>`;
    return { html: said_html(TEXTS.before_first, says, hint), colour: '' };
  }
  const { html, colour } = sentence(session, k - 1), it = session.entries[k - 1];
  const verdict = predict.said?.k === k ? verdict_html(predict.said) : '', row = escaped(it.row);
  const when = `${TEXTS.entry(k - 1)} ${tags_of(it)}`;
  return { html: said_html(when, verdict + html, `<div class="row mono">${row}</div>`), colour };
}

// ---- predict: the question comes from the next row's kind, right or wrong from its fields

function question_of_load(session, it, task, now) {
  const asks = TEXTS.asks, others = now.tasks.filter((one) => one.unit !== it.unit);
  const is_version_of = ({ unit }) => it.served === 'version' && it.from === unit;
  const options = [
    { label: asks.memory, is_right: it.served === 'memory' },
    ...others.map((one) => ({ label: asks.version(one.task), is_right: is_version_of(one) })),
    { label: asks.committed, is_right: it.served === 'committed' },
    { label: asks.own, is_right: it.served === 'hit' || it.served === 'reuse' },
  ];
  if (now.spills.length) options.push({ label: asks.spill, is_right: it.served === 'spill' });
  return { question: asks.serves(TEXTS.Task(task.task), word_html(session, it.word)), options };
}

// What a task is about to do that may squash others.
function act_text(session, it) {
  if (it.reply === 'stored') return TEXTS.asks.stores(it.value, word_html(session, it.word));
  return it.kind === 'commit' ? TEXTS.asks.commits : TEXTS.asks.runs;
}

function question_of_squash(session, it, task, others) {
  const asks = TEXTS.asks, last = others.length - 1;
  const from = ({ task: number }, n) =>
    ({ label: asks.from(number, n === last), is_right: Boolean(it.cause) && it.first === number });
  const options = [{ label: asks.nobody, is_right: !it.cause }, ...others.map(from)];
  return { question: asks.squashes(TEXTS.Task(task.task), act_text(session, it)), options };
}

// The question on this entry, where its row can differ.
export function question(session, at) {
  const it = session.entries[at], now = session.moments.get(at), task = now && task_on(now, it.unit);
  if (!task) return null;
  if (it.reply === 'loaded') return question_of_load(session, it, task, now);
  const others = now.tasks.filter((one) => one.task > task.task);
  const can_squash = ['stored', 'ran'].includes(it.reply) || it.kind === 'commit';
  return others.length && can_squash ? question_of_squash(session, it, task, others) : null;
}
