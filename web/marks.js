// The marks of entries in the lanes, the arrows between them, and the key to both.

import { word_mark } from './names.js';
import { MONO, circle, path, rect, svg_text } from './svg.js';
import { TEXTS } from './texts.js';

const LINE = 'stroke:var(--ink);stroke-width:2', THICK = `fill:none;${LINE};stroke-width:2.5`;

// The shape of a reply around a point, in units of s.
const SHAPES = {
  loaded: (x, y, s) => circle(x, y, 8.5 * s, 'fill:var(--panel);stroke:var(--ink);stroke-width:2.6'),
  stored: (x, y, s) => rect([x - 8 * s, y - 8 * s, 16 * s, 16 * s], 0, 'fill:var(--ink);stroke:var(--panel)'),
  emitted: (x, y, s) =>
    path(`M${x - 10 * s} ${y}L${x} ${y - 10 * s}L${x + 10 * s} ${y}L${x} ${y + 10 * s}Z`, `fill:var(--new);${LINE}`),
  ran: (x, y, s) => path(`M${x - 6 * s} ${y}H${x + 6 * s}M${x + 6 * s} ${y - 7 * s}V${y + 7 * s}`, THICK),
  trapped: (x, y, s) => SHAPES.ran(x, y, s),
  replaced: (x, y, s) => {
    const head = `M${x - 6 * s} ${y - 2 * s}L${x} ${y - 9 * s}L${x + 6 * s} ${y - 2 * s}`;
    return path(`M${x} ${y + 9 * s}V${y - 8 * s}${head}`, THICK);
  },
};

// What stands beside it: a name, which may be left out, and a value.
const LABELS = {
  loaded: (session, it) => [word_mark(session, it.word), `=${it.value}`],
  stored: (session, it) => [word_mark(session, it.word), `=${it.value}`],
  emitted: (session, it) => [`${TEXTS.out} `, it.value],
  replaced: (session, it) => ['', word_mark(session, it.arg)],
};

// What stands beside an entry's mark, as far as there is room; nothing in lanes that are too low for it.
function label(session, p, at) {
  const it = session.entries[at], [name, value] = LABELS[it.reply]?.(session, it) ?? ['', ''];
  if (!value || p.units >= 8) return '';
  const is_near = (near) => near && near.unit === it.unit && near.reply in LABELS;
  const is_beside = is_near(session.entries[at - 1]) || is_near(session.entries[at + 1]);
  const s = p.scale, room = p.column * (is_beside ? 1 : 1.9), whole = name + value;
  const text = whole.length * 7.9 * s <= room + 4 ? whole : value.replace(/^=/, '');
  if (text.length * 7 * s > room + 12) return '';
  const y = p.line(it.unit), is_tall = p.units < 4, is_above = is_tall && it.unit === 0;
  const style = `font:600 ${(is_tall ? 13 : 11) * s}px ${MONO};fill:${at < session.k ? 'var(--ink)' : 'var(--muted)'}`;
  const below = (is_tall ? 24 : 19) * s;
  return svg_text(p.middle(at), is_above ? y - 13 * s : y + below, style, text, 'text-anchor="middle" class="halo"');
}

// The mark of an entry; one that is to come is pale.
export function mark(session, p, at) {
  const { reply, unit } = session.entries[at], size = p.scale * (p.is_small ? 0.7 : 1);
  const drawn = SHAPES[reply]?.(p.middle(at), p.line(unit), size) ?? '';
  return `<g opacity="${at < session.k ? 1 : 0.55}">${drawn}</g>${label(session, p, at)}`;
}

// An arrow from one entry's mark to another's: bold from a store to the read that was too early, else thin from a
// version to its reader.
export function arrow(session, p, { from, to, kind }) {
  const s = p.scale, is_bold = kind === 'violation', u1 = session.entries[from].unit, u2 = session.entries[to].unit;
  const x1 = p.middle(from), x2 = p.middle(to), y1 = p.line(u1), y2 = p.line(u2), down = y2 > y1 ? 1 : -1;
  const line = u1 === u2
    ? `M${x1} ${y1 - 10}C${x1} ${y1 - 46 * s} ${x2} ${y2 - 46 * s} ${x2} ${y2 - 13}`
    : `M${x1} ${y1 + 10 * down}C${x1} ${y1 + p.pitch * 0.48 * down} ${x2} ${y2 - p.pitch * 0.5 * down}`
      + ` ${x2} ${y2 - (is_bold ? 14 : 12) * down}`;
  const style = is_bold ? 'stroke:var(--sq);stroke-width:4.5;stroke-dasharray:11 4'
    : 'stroke:var(--accent);stroke-width:2.2';
  return path(line, `fill:none;stroke:var(--panel);stroke-width:${is_bold ? 9 : 6};opacity:.85`)
    + path(line, `fill:none;${style}`, `marker-end="url(#${is_bold ? 'mkb' : 'mkt'})"`);
}

// ---- the key

const in_key = (shape, text) =>
  `<span><svg width="26" height="18" viewBox="0 0 26 18" aria-hidden="true">${shape}</svg>${text}</span>`;
const bar_in_key = (fill, edge) => rect([2, 2, 22, 14], 3, `fill:${fill};stroke:${edge};stroke-width:2`);

export function key_html() {
  const it = TEXTS.key_marks;
  return [
    in_key(circle(13, 9, 6.5, `fill:none;${LINE};stroke-width:2.4`), it.load),
    in_key(rect([6, 2, 14, 14], 0, 'fill:var(--ink)'), it.store),
    in_key(path('M5 9L13 1L21 9L13 17Z', `fill:var(--new);${LINE}`), it.output),
    in_key(path('M6 9H18M18 3V15', LINE), it.end),
    in_key(path('M13 17V3M8 8L13 2L18 8', `fill:none;${LINE}`), it.replace),
    in_key(path('M1 9H24M18 4L24 9L18 14', 'fill:none;stroke:var(--accent);stroke-width:2.2'), it.version),
    in_key(path('M0 9H14', 'stroke:var(--sq);stroke-width:4.5;stroke-dasharray:7 3')
      + path('M13 2L25 9L13 16Z', 'fill:var(--sq)'), it.violation),
    in_key(bar_in_key('var(--ok-f)', 'var(--ok)')
      + path('M9 9l3 3 6-6', 'fill:none;stroke:var(--ok);stroke-width:2.4'), it.committed),
    in_key(bar_in_key('url(#hv)', 'var(--sq)'), it.early),
    in_key(bar_in_key('url(#hg)', 'var(--gu)'), it.guess),
  ].join('');
}
