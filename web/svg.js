// Pieces of a drawing, as text: shapes, and the colours and patterns that say how a task fared.

import { escaped } from './html.js';

export const SANS = 'var(--sans)';
export const MONO = 'var(--mono)';

export const FILLS = {
  committed: 'var(--ok-f)', violation: 'url(#hv)', guess: 'url(#hg)', cancel: 'url(#hc)', active: 'var(--act-f)',
};
export const EDGES = {
  committed: 'var(--ok)', violation: 'var(--sq)', guess: 'var(--gu)', cancel: 'var(--ca)', active: 'var(--act)',
};

const given = (more) => (more ? ` ${more}` : '');

export const svg_text = (x, y, style, text, more = '') =>
  `<text x="${x}" y="${y}" style="${style}"${given(more)}>${escaped(text)}</text>`;

export const path = (line, style, more = '') => `<path d="${line}"${given(more)} style="${style}"/>`;

export const circle = (x, y, radius, style) => `<circle cx="${x}" cy="${y}" r="${radius}" style="${style}"/>`;

export const rect = ([x, y, width, height], round, style, more = '') =>
  `<rect${given(more)} x="${x}" y="${y}" width="${width}" height="${height}"${round ? ` rx="${round}"` : ''}`
  + ` style="${style}"/>`;

const pattern = (name, turn, drawn) =>
  `<pattern id="${name}" width="9" height="9" patternUnits="userSpaceOnUse" patternTransform="rotate(${turn})">`
  + `${drawn}</pattern>`;
const stripes = (colour) => rect([0, 0, 9, 9], 0, `fill:var(${colour}-f)`)
  + rect([0, 0, 2.4, 9], 0, `fill:var(${colour})`, 'opacity=".55"');
const dots = (colour) => rect([0, 0, 9, 9], 0, `fill:var(${colour}-f)`) + circle(4.5, 4.5, 1.8, `fill:var(${colour})`);

const marker = (name, width, height, at, drawn) =>
  `<marker id="${name}" markerWidth="${width}" markerHeight="${height}" refX="${at}" refY="${height / 2}" orient="auto"`
  + ` markerUnits="userSpaceOnUse">${drawn}</marker>`;

// What a drawing refers to: how squashed tasks are filled, and the heads of both kinds of arrows.
export const DEFINITIONS = `<defs>${pattern('hv', 45, stripes('--sq'))}${pattern('hg', 135, stripes('--gu'))}`
  + pattern('hc', 0, dots('--ca'))
  + marker('mkt', 11, 9, 10, path('M0 0L11 4.5L0 9', 'fill:none;stroke:var(--accent);stroke-width:2'))
  + `${marker('mkb', 17, 15, 14, path('M0 0L16 7.5L0 15Z', 'fill:var(--sq)'))}</defs>`;
