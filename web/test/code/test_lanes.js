// The lanes: where columns, bars, marks and arrows are. Places are worked out by hand for a box of 862 pixels, which
// leaves 840 for the columns.

import { deepEqual, equal, ok } from 'node:assert/strict';
import { is_long, labels_html, lanes_svg, moment_text, places, scrolled_to, strip_svg,
  window_style } from '../../lanes.js';
import { key_html } from '../../marks.js';
import { entry_of, sound_of } from '../../rows.js';
import { text } from './cases.js';
import { UNPREDICTED, opened, shown } from './opened.js';

const count = (svg, pattern) => [...svg.matchAll(pattern)].length;

export async function ten_columns_share_the_room() {
  const { session } = await opened(4), p = places(session, 862, 1);
  deepEqual([p.from, p.to, p.column, p.width], [0, 10, 84, 860]);
  deepEqual([p.edge(0), p.edge(10), p.middle(3)], [10, 850, 304]);
  // Four units: lanes of 62 pixels, each 72 below the one before.
  deepEqual([p.pitch, p.height, p.whole], [72, 62, 6 + 3 * 72 + 62 + 30]);
}

export async function a_narrow_box_scrolls() {
  const { session } = await opened(4), p = places(session, 322, 1);
  deepEqual([p.column, p.width], [40, 420]);
  // The moment ends at 210, which is in sight; its arrow's other end, column 2, begins at 90.
  equal(scrolled_to(session, p, { scrollLeft: 0, clientWidth: 322 }), 0);
  // From far right it goes back to a quarter of a column, and 4 pixels, before column 2.
  equal(scrolled_to(session, p, { scrollLeft: 200, clientWidth: 322 }), 90 - 10 - 4);
  await session.go(10);
  equal(scrolled_to(session, p, { scrollLeft: 0, clientWidth: 322 }), 410 - 322);
}

export async function larger_type_makes_larger_lanes() {
  const { session } = await opened(4);
  deepEqual([places(session, 862, 1.5).pitch, places(session, 862, 1.5).height], [108, 93]);
}

export async function each_row_is_drawn() {
  const { session } = await opened(10), p = places(session, 862, 1), svg = lanes_svg(session, p, false);
  equal(count(svg, /class="hit"/g), 10);
  // Four lanes; three bars, two of them committed.
  equal(count(svg, /fill:var\(--lane\)/g), 4);
  equal(count(svg, /<rect [^>]*fill:var\(--ok-f\);stroke/g), 2);
  equal(count(svg, /<rect [^>]*fill:url\(#hv\)/g), 1);
  equal(count(svg, /marker-end="url\(#mkb\)"/g), 1);
  equal(count(svg, /marker-end="url\(#mkt\)"/g), 1);
}

// Task 1 runs on unit 1 in columns 1 to 3: from 10 + 84 + 5 to 10 + 4 * 84 - 5, from 4 below the lane's top, 6 + 72.
export async function a_squashed_bar_is_where_its_task_ran() {
  const { session } = await opened(10), svg = lanes_svg(session, places(session, 862, 1), false);
  const style = 'fill:url(#hv);stroke:var(--sq);stroke-width:2';
  ok(svg.includes(`<rect x="99" y="82" width="242" height="54" rx="5" style="${style}"/>`));
}

// Entry 4 squashes tasks 1 and 2: the first read too early, and the other one goes with it.
export function a_task_that_goes_with_another_is_told_so() {
  const entries = ['assign,0,0,,,assigned,,0,,,,,', 'assign,1,12,,,assigned,,12,,,,,', 'assign,2,0,,,assigned,,0,,,,,',
    'submit,1,,1,1,loaded,0,0,memory,,,,', 'submit,0,,2,1,stored,0,5,,,violation,1,2'];
  const rows = 'bar,1,1,12,1,4,violation\nbar,2,2,0,2,4,violation\nbar,0,0,0,0,,active\n';
  const session = shown({ entries, rows, units: 3 }), svg = lanes_svg(session, places(session, 2002, 1), false);
  deepEqual([...svg.matchAll(/>(read too early|goes with task \d)</g)].map((it) => it[1]),
    ['read too early', 'goes with task 1']);
}

export async function what_is_to_come_is_pale_or_hidden() {
  const { session } = await opened(3), p = places(session, 862, 1);
  const open = lanes_svg(session, p, false), hidden = lanes_svg(session, p, true);
  equal(count(open, /<g opacity="0.55">/g), 7);
  equal(count(hidden, /<g opacity="0.55">/g), 0);
  ok(open.includes('stroke-dasharray:4 5') && !hidden.includes('stroke-dasharray:4 5'));
  ok(hidden.includes('hidden until you have said'));
  // What is pale has no text in it, which would have too little contrast.
  deepEqual(open.match(/<g opacity="0.55">.*?<\/g>/g).filter((it) => it.includes('<text')), []);
  const numbers = (svg) => [...svg.matchAll(/text-anchor="middle">(\d+)</g)].map((it) => Number(it[1]));
  deepEqual([numbers(open).length, numbers(hidden)], [10, [0, 1, 2]]);
  // No arrow before both of its ends were seen, and no colour of a squash that is to come.
  equal(count(open, /marker-end/g), 0);
  equal(count(hidden, /fill:url\(#hv\)/g), 0);
}

export async function loads_and_stores_have_names_and_values() {
  const { session } = await opened(10), svg = lanes_svg(session, places(session, 1262, 1), false);
  ok(svg.includes('>shared=0<') && svg.includes('>shared=5<'), svg);
  ok(svg.includes('>task 1 @ second<') && svg.includes('>task 0 @ first<'));
}

export async function the_slider_says_the_moment() {
  const { session } = await opened(3);
  equal(moment_text(session, UNPREDICTED), 'after entry 2: Task 1 loads shared and gets 0: memory served it.');
  equal(moment_text(session, { on: true, ask: {} }), 'after entry 2: a question is open');
  await session.go(0);
  equal(moment_text(session, UNPREDICTED), 'Before entry 0');
}

// A run of 956 entries: 40 columns around the moment, and a strip of them all.
export function a_long_run_is_drawn_around_the_moment() {
  const { entries } = sound_of(text('schedules/schedule_of_a_chain_on_3_by_bursts_of_5.csv'));
  const session = { ...shown({ entries: [] }), entries, k: 500 }, p = places(session, 862, 1);
  equal(is_long(session), true);
  deepEqual([entries.length, p.from, p.to], [956, 480, 520]);
  deepEqual([places({ ...session, k: 3 }, 862, 1).from, places({ ...session, k: 956 }, 862, 1).to], [0, 956]);
  equal(window_style(session, p, 956), 'left:480px;width:40px');
  // A pixel column an entry: each commit and squash is one.
  const svg = strip_svg(session, 956, false), wanted = entries.filter((it) => it.kind === 'commit' || it.cause).length;
  equal(count(svg, /<path/g), wanted);
  equal(count(svg, /--sq/g), entries.filter((it) => it.cause === 'violation').length);
  equal(count(strip_svg(session, 956, true), /<path/g),
    entries.slice(0, 500).filter((it) => it.kind === 'commit' || it.cause).length);
}

export function sixteen_units_have_small_lanes() {
  const rows = text('schedules/schedule_of_a_chain_on_16_by_bursts_of_5.csv').split('\n');
  const entries = rows.slice(1, 100).map(entry_of);
  const session = { ...shown({ entries: [], units: 16 }), entries, k: 0 }, p = places(session, 862, 1);
  deepEqual([p.pitch, p.height, p.is_small], [36, 30, true]);
  equal(count(labels_html(p), /<div/g), 16);
}

export function no_entries_make_empty_lanes() {
  const session = { ...shown({ entries: [] }), entries: [], k: 0 }, p = places(session, 0, 1);
  deepEqual([p.width, p.from, p.to], [860, 0, 0]);
  equal(count(lanes_svg(session, p, false), /class="hit"/g), 0);
}

export function the_key_has_a_sign_for_each_text() {
  equal(count(key_html(), /<svg/g), 10);
  ok(!key_html().includes('undefined'));
}
