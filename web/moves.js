// The moves of each unit: the same places at every moment, and what is refused says why. Whether a move is refused is
// the library's answer.

import { escaped } from './html.js';
import { entry_html, entry_text, word_html } from './names.js';
import { ending_text } from './say.js';
import { TEXTS } from './texts.js';

const MOST_ENTRIES = 4;
const why = (number) => TEXTS.refusal[number] ?? number;

function button(session, predict, move, refusal, label, says = '') {
  const is_next = !predict.on && move === session.next_step();
  const under = refusal ? why(refusal) : is_next ? TEXTS.next : says;
  const more = `${refusal ? ' aria-disabled="true"' : ''} class="${is_next ? 'nextmv' : ''}"`;
  return `<button data-move="${move}"${more}><span>${label}</span>${under ? `<small>${under}</small>` : ''}</button>`;
}

function registers(now, unit) {
  const list = now.registers.filter((it) => it.unit === unit)
    .map((it) => `<span>${TEXTS.register(it.name)} = <b>${it.value}</b></span>`);
  return list.length ? `<p class="regs"><span class="soft">${TEXTS.registers}</span> ${list.join(' ')}</p>` : '';
}

function standing(session, now, unit) {
  const at = now.tasks.findIndex((it) => it.unit === unit);
  if (at < 0) return `<span class="soft">${TEXTS.has_no_task}</span>`;
  const it = now.tasks[at], pc = now.pcs.find((one) => one.unit === unit);
  const state = it.state === 'running' ? TEXTS.running : TEXTS.ended;
  const place = pc ? `, ${TEXTS.pc(entry_html(session, pc.address))}` : '';
  const [kind, rank] = at === 0 ? ['badge head', TEXTS.head] : ['badge', TEXTS.speculative];
  const task = `${TEXTS.task(it.task)} @ ${entry_html(session, it.entry)}`;
  return `<span>${task}, ${state}, ${TEXTS.turns(it.turns)}${place}</span> <span class="${kind}">${rank}</span>`;
}

// The assignments to entries that are not the guess, where that to the guess is accepted: some as buttons, many as a
// list.
function other_entries(session, predict, now, unit) {
  const others = session.entry_addresses().filter((it) => String(it) !== now.guess);
  if (others.length <= MOST_ENTRIES) {
    const one = (it) => button(session, predict, `assign,${unit},${it}`, '', TEXTS.begin_at(entry_html(session, it)),
      TEXTS.not_the_guess);
    return others.map(one).join('');
  }
  const options = others.map((it) => `<option value="${it}">${escaped(entry_text(session, it))}</option>`).join('');
  return `<label class="elsewhere">${TEXTS.begin_elsewhere}`
    + `<select data-begin="${unit}"><option value=""></option>${options}</select></label>`;
}

const label_of_burst = (turns) => (turns === 1 ? TEXTS.one_turn : turns === 63 ? TEXTS.to_bus : TEXTS.up_to(turns));

// A unit's moves as buttons: rows of the library. A burst of more turns begins with that of one; the library is asked
// for it where that one is accepted.
function buttons(session, predict, now, unit) {
  const rows = now.moves.filter((it) => it.unit === unit), of = (kind) => rows.find((it) => it.kind === kind);
  const one = (it, label, says) =>
    (it ? button(session, predict, [it.kind, unit, it.arg].join(), it.refusal, label, says) : '');
  const assign = of('assign'), submit = of('submit');
  const burst = (turns) => {
    const move = `submit,${unit},${turns}`;
    return button(session, predict, move, submit.refusal || now.tried.get(move), label_of_burst(turns));
  };
  return one(assign, TEXTS.begin_at(entry_html(session, now.guess)), TEXTS.the_guess)
    + (submit ? session.bursts().map(burst).join('') : '')
    + (now.tasks[0]?.unit === unit ? one(of('commit'), TEXTS.commit) : '') + one(of('cancel'), TEXTS.cancel)
    + rows.filter((it) => it.kind === 'replace').map((it) => one(it, TEXTS.let_go(word_html(session, it.arg)))).join('')
    + (assign && !assign.refusal ? other_entries(session, predict, now, unit) : '');
}

function unit_box(session, predict, now, unit) {
  return `<div class="unit" role="group" aria-label="${TEXTS.unit_label(unit)}">`
    + `<div class="st"><h3>${TEXTS.Unit(unit)}</h3>${standing(session, now, unit)}</div>`
    + `${registers(now, unit)}<div class="mv">${buttons(session, predict, now, unit)}</div></div>`;
}

// What is said above the moves.
export function moves_note(session, predict) {
  const is_open = session.k < session.entries.length && !predict.on;
  return predict.ask ? TEXTS.answer_first : is_open ? TEXTS.replaces_rest : '';
}

// A box a unit, or why every move is refused; nothing while a question is open.
export function moves_html(session, predict) {
  const { moves, ending } = session.now();
  if (predict.ask || !session.has_image) return '';
  if (moves.length && moves.every((it) => it.refusal)) {
    const all = ending[0] === 'open' ? [...new Set(moves.map((it) => why(it.refusal)))].join('; ')
      : TEXTS.has_stopped(ending_text(ending));
    return `<p class="empty">${TEXTS.every_refused(all)}</p>`;
  }
  const units = [...Array(session.config.units).keys()];
  return units.map((unit) => unit_box(session, predict, session.now(), unit)).join('');
}
