// Puts what the other modules lay out into the document, and keeps what is to be seen in sight.

import { $, set_html } from './document.js';
import { is_long, labels_html, lanes_svg, moment_text, places, scrolled_to, strip_svg, window_style } from './lanes.js';
import { key_html } from './marks.js';
import { caches_html, memory_html, output_html, versions_html, words_html, words_of } from './moment.js';
import { moves_html, moves_note } from './moves.js';
import { line_in_sight, listing_html, message_html, numbers_html, place_of, program_html } from './program.js';
import { said_at } from './say.js';
import { TABS, all_html, answers_html, cost_html, needs_html, script_html, script_text, tables,
  trace_html } from './tables.js';

// ---- the program

export function draw_program(session) {
  const text = $('src').value, fault = session.text === text ? session.fault : null;
  set_html($('nums'), numbers_html(text));
  set_html($('hl'), program_html(text, fault));
  $('src').setAttribute('aria-invalid', Boolean(fault));
  set_html($('edmsg'), message_html(session, text));
}

export function scroll_program(session) {
  const height = parseFloat(getComputedStyle($('hl')).lineHeight);
  $('ed').scrollTop = Math.max(0, line_in_sight(session) - 5) * height;
}

// Puts the caret where the fault is.
export function go_to_fault(session) {
  const area = $('src');
  if (!session.fault?.line) return;
  const at = place_of(session.fault, area.value);
  area.focus();
  area.setSelectionRange(at, at);
  scroll_program(session);
}

export function draw_listing(session) {
  if (!set_html($('listing').tBodies[0], listing_html(session))) return;
  const row = $('listing').querySelector('.here'), box = $('listbox');
  if (!row) return;
  const is_in_sight = row.offsetTop >= box.scrollTop && row.offsetTop <= box.scrollTop + box.clientHeight - 40;
  if (!is_in_sight) box.scrollTop = row.offsetTop - box.clientHeight / 2;
}

// ---- the moment

export function draw_sentence(session, predict) {
  const box = $('say'), { html, colour } = said_at(session, predict);
  box.className = `panel ${colour}`.trim();
  box.setAttribute('aria-live', document.activeElement === $('slider') ? 'off' : 'polite');
  box.innerHTML = html;
}

function draw_strip(session, p, is_hidden) {
  const box = $('strip');
  box.hidden = !is_long(session);
  if (box.hidden) return;
  const width = box.clientWidth || 800;
  set_html($('stripbox'), strip_svg(session, width, is_hidden));
  $('window').style.cssText = window_style(session, p, width);
}

// The slider lies under the columns, or under the strip.
function draw_slider(session, predict, p) {
  const slider = $('slider'), thumb = 16, count = session.entries.length, is_under_strip = is_long(session);
  slider.max = count;
  slider.value = session.k;
  slider.style.marginLeft = is_under_strip ? '0' : `${p.left - thumb / 2}px`;
  slider.style.width = is_under_strip ? '100%' : `${Math.max(1, count) * p.column + thumb}px`;
  $(is_under_strip ? 'longslider' : 'lanes').append(slider);
  slider.setAttribute('aria-valuetext', moment_text(session, predict));
}

export function draw_lanes(session, predict) {
  const box = $('lanes'), scale = parseFloat(getComputedStyle(document.documentElement).fontSize) / 16;
  const p = places(session, box.clientWidth, scale);
  draw_strip(session, p, predict.on);
  set_html($('labs'), labels_html(p));
  set_html($('svgbox'), lanes_svg(session, p, predict.on));
  draw_slider(session, predict, p);
  box.scrollLeft = scrolled_to(session, p, box);
}

export function draw_key() {
  $('key').innerHTML = key_html();
}

export function draw_versions(session) {
  set_html($('vol'), versions_html(session));
}

export function draw_moment(session, predict) {
  const now = session.now(), before = session.before(), words = words_of(session);
  const is_marked = session.k > 0 && !predict.ask;
  $('caches').classList.toggle('many', session.config.units > 2);
  set_html($('caches'), caches_html(session, now, before, is_marked));
  if (!words.includes(session.word)) session.word = words[0] ?? 0;
  set_html($('word'), words_html(session));
  $('word').value = session.word;
  draw_versions(session);
  set_html($('mem'), memory_html(session, now, before, is_marked));
  set_html($('outs'), output_html(session, now));
}

// Draws the boxes again; the move that had the focus keeps it, or the first that isn't refused gets it.
export function draw_moves(session, predict) {
  const focus = document.activeElement?.dataset?.move;
  set_html($('mvn'), moves_note(session, predict));
  if (!set_html($('units'), moves_html(session, predict)) || !focus) return;
  const same = document.querySelector(`[data-move="${focus}"]`)
    ?? document.querySelector('.mv button:not([aria-disabled])');
  same?.focus({ preventScroll: true });
}

// ---- tables

// What is typed into the script stays until it is applied.
function draw_script(session, predict) {
  if (!$('steps')) $('p-script').innerHTML = script_html();
  const area = $('steps'), text = script_text(session, predict);
  area.disabled = predict.on;
  if (area.shown_of !== text) {
    area.value = text;
    area.shown_of = text;
  }
  set_html($('answers'), answers_html(session, predict));
}

// Keeps the row of the moment in the middle of what scrolls.
function scroll_to_row() {
  for (const box of document.querySelectorAll('[role=tabpanel]:not([hidden]) .scroll')) {
    const row = box.querySelector('.cur');
    if (row) box.scrollTop = row.offsetTop - box.clientHeight / 2;
  }
}

const PANELS = { all: all_html, trace: trace_html, cost: cost_html, needs: needs_html };

export async function draw_tables(session, predict) {
  const { tab } = tables;
  for (const it of TABS) {
    $(`t-${it}`).setAttribute('aria-selected', it === tab);
    $(`t-${it}`).tabIndex = it === tab ? 0 : -1;
    $(`p-${it}`).hidden = it !== tab;
  }
  if (!session.has_image) return;
  if (tab === 'script') draw_script(session, predict);
  else {
    const html = await PANELS[tab](session, predict);
    if (html !== null) set_html($(`p-${tab}`), html);
  }
  if (tab !== 'all') scroll_to_row();
}
