// The lanes: a lane a unit, a column an entry. What is drawn are the bars, marks and arrows of `draw --rows`; of a long
// run the columns around the moment, over a strip of the whole.

import { bar } from './bars.js';
import { plain } from './html.js';
import { arrow, mark } from './marks.js';
import { early_read, sentence, version_store } from './say.js';
import { DEFINITIONS, SANS, path, rect, svg_text } from './svg.js';
import { TEXTS } from './texts.js';

// A run of more columns is drawn around the moment alone: to lay out more takes longer than the library takes for a
// step.
const MOST_COLUMNS = 240, AROUND = 40;

export const is_long = (session) => session.entries.length > MOST_COLUMNS;

// The columns that are drawn.
function columns(session) {
  const count = session.entries.length;
  if (!is_long(session)) return { from: 0, to: count };
  const from = Math.max(0, Math.min(count - AROUND, session.k - AROUND / 2));
  return { from, to: from + AROUND };
}

// How far down in a lane its marks are.
function depth_of_marks(unit, units) {
  if (units >= 8) return 0.6;
  if (units >= 4) return 0.58;
  return unit === 0 ? 0.68 : 0.55;
}

// Where things are in a box of this width, at this size of type: columns from `from` to `to`, and lanes.
export function places(session, room, scale) {
  const { units } = session.config, { from, to } = columns(session), shown = Math.max(1, to - from);
  const width = room - 2 > 0 ? room - 2 : 860, left = 10, top = 6;
  const [pitch, height] = (units < 4 ? [104, 82] : units < 8 ? [72, 62] : [36, 30]).map((it) => it * scale);
  const least = (units < 4 ? 52 : 40) * scale, column = Math.max(least, Math.min(96 * scale, (width - 20) / shown));
  return {
    room, from, to, scale, column, left, top, pitch, height, units, is_small: units >= 8,
    width: Math.max(width, left + shown * column + 10), whole: top + (units - 1) * pitch + height + 30 * scale,
    edge: (at) => left + (Math.max(from, Math.min(to, at)) - from) * column,
    middle: (at) => left + (at - from + 0.5) * column,
    line: (unit) => top + unit * pitch + height * depth_of_marks(unit, units),
  };
}

const range = (from, to) => Array.from({ length: Math.max(0, to - from) }, (_, n) => from + n);

const lane = (p, unit) => rect([1, p.top + unit * p.pitch, p.width - 2, p.height], 6, 'fill:var(--lane)');

// The last entry's column.
const current = (p, k) =>
  rect([p.edge(k - 1), 2, p.column, p.whole - 4], 6, 'fill:var(--soft);stroke:var(--accent);stroke-width:2');

// What is pressed and pointed at.
const hit = (p, at) =>
  rect([p.edge(at), 0, p.column, p.whole], 0, 'fill:transparent;cursor:pointer', `class="hit" data-i="${at}"`);

function number(session, p, at) {
  const [weight, colour] = at === session.k - 1 ? [700, '--accent'] : [400, '--muted'];
  const style = `font:${weight} ${(13 * p.scale).toFixed(1)}px ${SANS};fill:var(${colour})`;
  return svg_text(p.middle(at), p.whole - 7, style, at, 'text-anchor="middle"');
}

function hidden_text(p, k) {
  const text = p.width - p.edge(k) > 240 * p.scale && p.room > 500 ? TEXTS.hidden : TEXTS.hidden_short;
  const style = `font:italic ${15 * p.scale}px ${SANS};fill:var(--muted)`;
  return svg_text(p.edge(k) + 14, p.top + p.pitch, style, text);
}

// What is drawn, from the back to the front.
function body(session, p, is_hidden) {
  const { k, entries, drawing } = session, all = range(p.from, p.to);
  const in_sight = is_hidden ? all.filter((at) => at < k) : all, is_drawn = (at) => at >= p.from && at < p.to && at < k;
  const bars = drawing.bars.filter((it) => it.first < p.to && !(it.last >= 0 && it.last < p.from))
    .map((it) => bar(session, p, it, is_hidden));
  const arrows = drawing.arrows.filter((it) => is_drawn(it.from) && is_drawn(it.to));
  return [
    ...range(0, p.units).map((unit) => lane(p, unit)),
    k > p.from ? current(p, k) : '',
    ...bars.map(([drawn]) => drawn),
    ...arrows.map((it) => arrow(session, p, it)),
    ...in_sight.map((at) => mark(session, p, at)),
    ...in_sight.map((at) => number(session, p, at)),
    ...bars.map(([, titles]) => titles),
    path(`M${p.edge(k)} 0V${p.whole}`, 'stroke:var(--accent);stroke-width:3'),
    is_hidden && k < entries.length ? hidden_text(p, k) : '',
    ...all.map((at) => hit(p, at)),
  ].join('');
}

export function lanes_svg(session, p, is_hidden) {
  const label = TEXTS.lanes_label(p.units, session.entries.length);
  const size = `width="${p.width}" height="${p.whole}" viewBox="0 0 ${p.width} ${p.whole}"`;
  const halo = '.halo{paint-order:stroke;stroke:var(--panel);stroke-width:4px;stroke-linejoin:round}';
  return `<svg ${size} role="img" aria-label="${label}"><style>${halo}</style>${DEFINITIONS}`
    + `${body(session, p, is_hidden)}</svg>`;
}

function label_html(p, unit) {
  const place = `top:${p.top + unit * p.pitch}px;height:${p.height}px`;
  return `<div style="${place}"><span><span class="lg">${TEXTS.unit_word}</span> ${unit}</span></div>`;
}

export const labels_html = (p) => range(0, p.units).map((unit) => label_html(p, unit)).join('');

// ---- the strip over the lanes of a long run: a pixel column an entry, or several

const RANKS = ['', '--ok', '--gu', '--sq'];

function rank_of({ cause, kind }) {
  if (cause === 'violation') return 3;
  if (cause) return 2;
  return kind === 'commit' ? 1 : 0;
}

export function strip_svg(session, width, is_hidden) {
  const column = width / session.entries.length, shown = is_hidden ? session.k : session.entries.length, ranks = [];
  for (let at = 0; at < shown; at++) {
    const x = Math.floor(at * column);
    ranks[x] = Math.max(ranks[x] ?? 0, rank_of(session.entries[at]));
  }
  const one = (rank, x) => (rank ? path(`M${x + 0.5} ${rank > 1 ? 0 : 8}V16`, `stroke:var(${RANKS[rank]})`) : '');
  return `<svg width="${width}" height="16" role="img" aria-label="${TEXTS.strip}">${ranks.map(one).join('')}</svg>`;
}

// The part of the strip that the lanes show.
export function window_style(session, p, width) {
  const column = width / session.entries.length;
  return `left:${p.from * column}px;width:${Math.max(4, (p.to - p.from) * column)}px`;
}

// ---- the moment

// The other end of the arrow of the last entry, or -1.
function other_end(session) {
  const at = session.k - 1, it = session.entries[at];
  if (it?.cause === 'violation') return early_read(session, at);
  return it?.reply === 'loaded' ? version_store(session, at) : -1;
}

// How far the lanes are to be scrolled, so that the moment, and the other end of its arrow, are in sight.
export function scrolled_to(session, p, { scrollLeft, clientWidth }) {
  const { k } = session, other = other_end(session), first = other >= p.from ? other : k - 1;
  const right = p.edge(Math.min(k + 1, p.to)), left = p.edge(first) - p.column / 4;
  const to = right > scrollLeft + clientWidth ? right - clientWidth : scrollLeft;
  return left < to ? left - 4 : to;
}

// What the slider says.
export function moment_text(session, predict) {
  const { k } = session;
  if (k === 0) return TEXTS.before_first;
  return TEXTS.after_entry(k - 1, predict.ask ? TEXTS.question_open : plain(sentence(session, k - 1).html));
}
