// The contrast of each text, control and drawn part with what lies behind it, in both themes, by WCAG 2.1: at least 4.5
// to 1 for text, and 3 to 1 for large text, parts of controls and what is drawn (1.4.3 and 1.4.11). Colours are those
// of style.css.

import { deepEqual, equal, ok } from 'node:assert/strict';
import { readFileSync } from 'node:fs';
import { ROOT } from './cases.js';

const STYLE = readFileSync(`${ROOT}web/style.css`, 'utf8');
const TEXT = 4.5, PART = 3;

// What is drawn on what, and where. `ink .85` is ink that is shown at 85 in 100; several colours have commas between.
const PAIRS = [
  [TEXT, 'ink, muted', 'bg', 'page, footer'],
  [TEXT, 'ink, muted, accent, ok, sq, gu', 'panel', 'all panels: texts, hints, links, tags'],
  [TEXT, 'ink, muted, accent', 'soft',
    'buttons, tabs and links under the pointer; the row that is shown; the moment’s column'],
  [TEXT, 'on-accent', 'accent', 'main buttons, pressed ones, “new”, the link to the moment'],
  [TEXT, 'ink, accent', 'sq-f', 'faults, with a link in them'],
  [TEXT, 'muted, sq', 'sq-f', 'a line that is gone, over its stripes'],
  [TEXT, 'new-ink', 'new', 'changed values, the row of the moment'],
  [TEXT, 'bit-ink', 'bit', 'bits that are set'],
  [TEXT, 'ink', 'act-f, ok-f, sq-f, gu-f, ca-f, lane', 'tasks’ names and values in the lanes'],
  [TEXT, 'muted', 'lane', 'what is to come, in the lanes'],
  [TEXT, 'sq', 'sq-f', 'how a task ended'],
  [TEXT, 'gu', 'gu-f', 'how a task ended'],
  [TEXT, 'ca', 'ca-f', 'how a task ended'],
  [TEXT, 'panel', 'ok, sq, gu, ca', 'the sign of how a task ended'],
  [TEXT, 'bg, bg .85', 'ink', 'what an entry says beside the pointer'],
  [TEXT, 'ink .75', 'panel, soft', 'the number of an answer'],
  [PART, 'edge', 'panel, bg, soft', 'borders of buttons, fields, lines, bits and badges'],
  [PART, 'accent', 'panel, bg, soft, lane, new', 'focus, the moment’s column, changed parts, arrows of versions'],
  [PART, 'ok, sq, gu', 'panel, bg', 'the edge of the sentence, the strip'],
  [PART, 'act, ok, sq, gu, ca', 'lane', 'edges of bars, arrows of violations'],
  [PART, 'act', 'act-f', 'edges of bars'],
  [PART, 'ok', 'ok-f', 'edges of bars'],
  [PART, 'sq', 'sq-f', 'edges of bars, faulty words'],
  [PART, 'gu', 'gu-f', 'edges of bars'],
  [PART, 'ca', 'ca-f', 'edges of bars'],
  [PART, 'act .6', 'lane, panel', 'bars that are to come'],
  [PART, 'ink', 'lane, act-f, ok-f, sq-f, gu-f, ca-f, soft, new', 'signs of entries'],
  [PART, 'ink .55', 'lane, act-f, panel', 'signs of entries that are to come'],
  [PART, 'bit, ink', 'panel', 'bits that are set, signs of versions'],
];

const block = (head) =>
  Object.fromEntries([...STYLE.slice(STYLE.indexOf(head)).split('}')[0].matchAll(/--([\w-]+): (#[0-9a-f]+)/g)]
  .map((it) => [it[1], it[2]]));
const THEMES = { light: block(':root {'), dark: block(':root[data-theme=dark] {') };

const bytes_of = (hex) => (hex.length === 4 ? [...hex.slice(1)].map((it) => it + it) : hex.slice(1).match(/../g));
const parts_of = (hex) => bytes_of(hex).map((it) => parseInt(it, 16));
const over = (front, back, share) => front.map((it, n) => it * share + back[n] * (1 - share));
const linear = (it) => (it / 255 <= 0.03928 ? it / 255 / 12.92 : ((it / 255 + 0.055) / 1.055) ** 2.4);
const luminance = (rgb) => rgb.map(linear).reduce((sum, it, n) => sum + it * [0.2126, 0.7152, 0.0722][n], 0);

function contrast(front, back) {
  const [more, less] = [luminance(front), luminance(back)].sort((a, b) => b - a);
  return (more + 0.05) / (less + 0.05);
}

function* measured(theme) {
  const colours = THEMES[theme];
  for (const [least, fronts, backs, where] of PAIRS) {
    for (const front of fronts.split(', ')) {
      for (const back of backs.split(', ')) {
        const [name, share = '1'] = front.split(' '), behind = parts_of(colours[back]);
        const ratio = contrast(over(parts_of(colours[name]), behind, Number(share)), behind);
        yield { least, front, back, where, ratio };
      }
    }
  }
}

const short = (theme) => [...measured(theme)].filter((it) => it.ratio < it.least)
  .map((it) => `${it.front} on ${it.back}: ${it.ratio.toFixed(2)} of ${it.least} (${it.where})`);

// The measure itself: black on white is 21 to 1, and #767676 is the palest grey with 4.5 to 1 on white.
export function contrast_is_measured_as_wcag_says() {
  equal(contrast([0, 0, 0], [255, 255, 255]), 21);
  ok(contrast(parts_of('#767676'), parts_of('#fff')) >= 4.5 && contrast(parts_of('#777'), parts_of('#fff')) < 4.5);
}

// Main buttons are a tenth brighter under the pointer, their text too.
export function brighter_buttons_have_contrast() {
  const bright = (theme, name) => parts_of(THEMES[theme][name]).map((it) => Math.min(255, it * 1.1));
  ok(/button\.pri:hover \{ filter: brightness\(1\.1\)/.test(STYLE));
  for (const it of ['light', 'dark']) ok(contrast(bright(it, 'on-accent'), bright(it, 'accent')) >= TEXT, it);
}

export function light_colours_have_contrast() {
  deepEqual(short('light'), []);
}

export function dark_colours_have_contrast() {
  deepEqual(short('dark'), []);
}

export function both_themes_have_the_same_colours() {
  deepEqual(Object.keys(THEMES.light).sort(), Object.keys(THEMES.dark).sort());
  ok(Object.keys(THEMES.light).length > 20);
}

// What style.css and the drawings colour is in the list. Rules between rows, and hatching, say nothing; two are fonts.
export function every_colour_is_in_the_list() {
  const used = (it, pattern) => [...it.matchAll(pattern)].map((one) => one[1]);
  const drawn = ['bars', 'lanes', 'marks', 'svg'].map((it) => readFileSync(`${ROOT}web/${it}.js`, 'utf8')).join('');
  const listed = (n) => new Set(PAIRS.flatMap((it) => it[n].split(', ')));
  const fronts = listed(1), both = new Set([...fronts, ...listed(2), 'rule', 'sans', 'mono']);
  const colours = [...used(STYLE, /var\(--([\w-]+)\)/g), ...used(drawn, /[('`]--([\w-]+)/g)];
  deepEqual(used(STYLE, /[^-]color: var\(--([\w-]+)\)/g).filter((it) => !fronts.has(it)), []);
  deepEqual(colours.filter((it) => !both.has(it)), []);
}
