// Which act belongs to what is pressed, typed and chosen.

import { answer, apply_script, copy_link, go, go_back, go_to_column, go_to_end, go_to_note, is_dark, is_projected, load,
  load_witness, on_typed, open_chosen, program_of, run, set_filter, set_machine, set_predict, set_projector,
  set_schedule, set_theme, show_tab, slide, step } from './acts.js';
import { $, download } from './document.js';
import { draw_lanes, draw_versions, go_to_fault } from './draw.js';
import { opened_by, saved_as } from './files.js';
import { escaped } from './html.js';
import { plain_sentence } from './say.js';
import { MOST_STATES } from './session.js';
import { explore, page, predict, tell_why } from './shown.js';
import { TABS, tables } from './tables.js';
import { TEXTS } from './texts.js';

export const BUTTONS = {
  b0: () => go(0), bb: go_back, bf: step, bn: go_to_note,
  bu: () => page.session.undo(), br: () => page.session.redo(),
  brun: () => run(false), bon: () => run(true), bclear: () => page.session.rewrite([], 0),
  bpred: () => set_predict(!predict.on), blink: copy_link, bopen: () => $('file').click(),
  bhalt: () => page.session.stop(), bhelp: () => $('help').showModal(),
  btheme: () => set_theme(!is_dark()), bproj: () => set_projector(!is_projected()),
  bexplore: () => explore(true), bstop: () => page.requests.stop_exploring(),
  bfault: () => go_to_fault(page.session), bapply: apply_script,
};

// What is pressed in what was drawn says by its data what it stands for.
const DATA = {
  move: (it, button) => button.getAttribute('aria-disabled') === 'true' || page.session.make(it, predict.on),
  answer: (it) => answer(Number(it)),
  witness: (it) => load_witness(Number(it)),
  filter: set_filter,
  k: (it) => go(Number(it)),
  i: (it) => go_to_column(Number(it)),
  save: (it) => { $('savemenu').open = false; saved_as(page.session, it).then(download).catch(tell_why); },
};

function on_click(event) {
  const it = event.target.closest('button, tr[data-k], rect[data-i]');
  if (!it) return;
  for (const [name, value] of Object.entries(it.dataset)) DATA[name]?.(value, it);
  if (it.getAttribute('role') === 'tab') show_tab(it.id.slice(2));
  BUTTONS[it.id]?.();
}

export const CHOSEN = {
  lesson: () => load(program_of($('lesson').value)),
  word: () => { page.session.word = Number($('word').value); draw_versions(page.session); },
  mu: set_machine, ms: set_machine, mw: set_machine, mb: set_schedule, sched: set_schedule, seed: set_schedule,
  states: (value) => { page.session.by.states = Math.max(1, Number(value) || MOST_STATES); },
  file: open_chosen,
};

function on_change({ target }) {
  CHOSEN[target.id]?.(target.value);
  const { begin } = target.dataset;
  if (begin !== undefined && target.value !== '') page.session.make(`assign,${begin},${target.value}`, predict.on);
}

// ---- keys

const KEYS = { ArrowRight: step, ArrowLeft: go_back, Home: () => go(0), End: go_to_end };
const LETTERS = { n: go_to_note, p: () => set_predict(!predict.on) };

const is_typed_into = ({ tagName, type }) => /^(TEXTAREA|SELECT)$/.test(tagName) || type === 'number';

// What a key does, if anything.
function act_of({ key, ctrlKey, metaKey, altKey, shiftKey }) {
  const has_letters = $('quiet').checked;
  if (ctrlKey || metaKey) {
    if (key.toLowerCase() !== 'z') return null;
    return () => (shiftKey ? page.session.redo() : page.session.undo());
  }
  if (altKey) return null;
  if (key === 'Escape') return $('wait').hidden ? null : () => page.session.stop();
  if (has_letters && predict.ask && /^[1-9]$/.test(key)) return () => answer(Number(key) - 1);
  return KEYS[key] ?? (has_letters ? LETTERS[key] : null);
}

function on_key(event) {
  const act = $('help').open || is_typed_into(event.target) ? null : act_of(event);
  if (!act) return;
  event.preventDefault();
  act();
}

function on_tab_key(event) {
  const by = { ArrowRight: 1, ArrowLeft: -1 }[event.key];
  if (!by) return;
  const tab = TABS.at((TABS.indexOf(tables.tab) + by) % TABS.length);
  show_tab(tab);
  $(`t-${tab}`).focus();
  event.preventDefault();
  event.stopPropagation();
}

// ---- pointers

// Marks the column of an entry that a sentence links to.
function on_link(event) {
  const link = event.target.closest?.('.lnk'), is_on = ['mouseover', 'focusin'].includes(event.type);
  if (link) document.querySelector(`.hit[data-i="${link.dataset.k - 1}"]`)?.classList.toggle('lit', is_on);
}

// What an entry says, beside the pointer.
function on_pointer(event) {
  const { session } = page, tip = $('tip'), at = Number(event.target.closest('.hit')?.dataset.i ?? -1);
  tip.hidden = at < 0 || (predict.on && at >= session.k);
  if (tip.hidden) return;
  const row = `<span class="mono">${escaped(session.entries[at].row)}</span>`;
  tip.innerHTML = `<b>${TEXTS.entry(at)}.</b> ${plain_sentence(session, at)}${row}`;
  const box = $('lanewrap').getBoundingClientRect(), x = event.clientX - box.left, beside = 24;
  const right = Math.min(x + beside, Math.max(0, box.width - 350)), left = Math.max(0, x - beside - tip.offsetWidth);
  tip.style.left = `${x < box.width / 2 ? right : left}px`;
}

async function on_fragment() {
  const it = await opened_by(location.hash, page.programs);
  if (it) await load(it);
}

export function wire() {
  document.addEventListener('click', on_click);
  document.addEventListener('change', on_change);
  document.addEventListener('keydown', on_key);
  document.querySelector('[role=tablist]').addEventListener('keydown', on_tab_key);
  for (const it of ['mouseover', 'mouseout', 'focusin', 'focusout']) document.addEventListener(it, on_link);
  $('src').addEventListener('input', on_typed);
  $('slider').addEventListener('input', slide);
  $('svgbox').addEventListener('mousemove', on_pointer);
  $('svgbox').addEventListener('mouseleave', () => { $('tip').hidden = true; });
  new ResizeObserver(() => page.session.has_image && draw_lanes(page.session, predict)).observe($('lanes'));
  window.addEventListener('hashchange', on_fragment);
}
