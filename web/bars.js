// A task's bar in the lanes: a bar of `draw --rows`, as far as the task has come at the moment shown.

import { entry_text } from './names.js';
import { EDGES, FILLS, SANS, circle, rect, svg_text } from './svg.js';
import { TEXTS } from './texts.js';

// What is to come is pale where it is drawn; its text isn't, since that would be too little contrast.
const TO_COME = `fill:none;stroke:${EDGES.active};stroke-dasharray:4 5;opacity:.6`;
const SIGNS = { committed: '✓', violation: '✕', guess: '?', cancel: '∅', active: '' };

const small = (p) => `${(13 * p.scale).toFixed(1)}px ${SANS}`;

// Where a bar begins and ends, and where it has come to.
function extent(session, p, it) {
  const { k, entries } = session, last = it.last < 0 ? entries.length - 1 : it.last;
  const x0 = p.edge(it.first) + (it.first >= p.from ? 5 : 0), x1 = p.edge(last + 1) - (last < p.to ? 5 : 0);
  const is_over = it.last >= 0 && it.last < k, is_whole = is_over || (it.last < 0 && k > last);
  return {
    x0, x1, now: p.edge(k), end: is_whole ? x1 : Math.min(x1, p.edge(k)), is_over, fate: is_over ? it.fate : 'active',
    y: p.top + it.unit * p.pitch + 4 * p.scale, height: p.height - 8 * p.scale,
  };
}

const part = (b, x, width, style) => rect([x, b.y, Math.max(width, 6), b.height], 5, style);

function bar_to_come(p, it, b) {
  const style = `font:${small(p)};fill:var(--muted)`;
  return part(b, b.x0, b.x1 - b.x0, TO_COME)
    + (p.is_small ? '' : svg_text(b.x0 + 7, b.y + 15 * p.scale, style, TEXTS.bar_short(it.task)));
}

// The sign at the end of a bar, where there is room for it.
function end_sign(p, b) {
  const s = p.scale, radius = (p.is_small ? 7 : 9.5) * s, inside = 3 * s + radius;
  if (!b.is_over || b.x1 - b.x0 <= 30 * s) return '';
  const x = b.x1 - inside, y = b.y + b.height - inside;
  const style = `font:700 ${(radius * 1.45).toFixed(1)}px ${SANS};fill:var(--panel)`;
  return circle(x, y, radius, `fill:${EDGES[b.fate]}`)
    + svg_text(x, y + radius / 2, style, SIGNS[b.fate], 'text-anchor="middle"');
}

// How a squashed task's bar is called: the entry that squashed it names the first of those that go, and the others go
// with that one.
function fate_text(session, it) {
  const { first } = session.entries[it.last];
  return first === it.task ? TEXTS.fate[it.fate] : TEXTS.squashed_with(first);
}

// What stands in a bar: its task, and how it was squashed, as far as there is room.
function titles(session, p, it, b, is_hidden) {
  const s = p.scale, room = (is_hidden ? b.end : b.x1) - b.x0, width = (text) => text.length * 8 * s;
  const full = TEXTS.bar(it.task, entry_text(session, it.entry));
  const title = p.is_small ? String(it.task) : width(full) < room ? full : TEXTS.bar_short(it.task);
  const why = b.is_over && b.fate !== 'committed' && !p.is_small ? fate_text(session, it) : '';
  const own = `font:600 ${small(p)};fill:var(--ink)`;
  const other = `font:700 ${small(p)};fill:${EDGES[b.fate]}`;
  let drawn = '';
  if (room > 26 * s) drawn += svg_text(b.x0 + 7, b.y + (p.is_small ? 14 : 16) * s, own, title, 'class="halo"');
  if (why && width(title + why) + 20 < b.x1 - b.x0) {
    drawn += svg_text(b.x1 - 8, b.y + 16 * s, other, why, 'class="halo" text-anchor="end"');
  }
  return drawn;
}

// A bar, and apart from it what stands in it, which no mark may cover. What comes later is dashed and pale.
export function bar(session, p, it, is_hidden) {
  const b = extent(session, p, it);
  if (it.first >= session.k) return is_hidden ? ['', ''] : [bar_to_come(p, it, b), ''];
  const done = part(b, b.x0, b.end - b.x0, `fill:${FILLS[b.fate]};stroke:${EDGES[b.fate]};stroke-width:2`);
  const rest = !is_hidden && !b.is_over && b.x1 > b.now ? part(b, b.now, b.x1 - b.now, TO_COME) : '';
  return [done + end_sign(p, b) + rest, titles(session, p, it, b, is_hidden)];
}
