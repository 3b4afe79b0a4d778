// The program: its text with the fault underlined, its listing, and where each unit is.

import { escaped, hexadecimal } from './html.js';
import { TEXTS } from './texts.js';

// A line of the text in colours: comments, directives, labels.
function coloured(line) {
  const at = line.indexOf('#'), code = at < 0 ? line : line.slice(0, at), note = at < 0 ? '' : line.slice(at);
  const words = escaped(code).replace(/^(\s*)(\.\w+)/, '$1<span class="d">$2</span>')
    .replace(/^(\s*[\w.$]+:)/, '<span class="l">$1</span>');
  return words + (note ? `<span class="c">${escaped(note)}</span>` : '');
}

// What stands before a column, which counts bytes.
const front_of = (line, column) => new TextDecoder().decode(new TextEncoder().encode(line).slice(0, column - 1));

// The line of a fault: the word at its column, or a mark where nothing stands there.
function underlined(line, column) {
  const front = front_of(line, column), rest = line.slice(front.length);
  const word = (/^[\w.$]+/.exec(rest) ?? [rest[0] ?? ' '])[0];
  return `${coloured(front)}<span class="bad">${escaped(word)}</span>${coloured(rest.slice(word.length))}`;
}

export const numbers_html = (text) => text.split('\n').map((_, n) => n + 1).join('\n') + '\n';

// The text in colours, with the fault underlined.
export function program_html(text, fault) {
  const one = (it, n) => (fault?.line === n + 1 ? underlined(it, fault.column) : coloured(it));
  return text.split('\n').map(one).join('\n') + '\n';
}

function fault_html({ line, column, says }, old) {
  const told = line ? TEXTS.fault_at(line, column, escaped(says)) : TEXTS.fault(escaped(says));
  const there = line ? ` <button id="bfault" class="lnk">${TEXTS.go_there}</button>` : '';
  return `<p class="fault">${told}${old}${there}</p>`;
}

// What is said of the text in the editor, which may be newer than the one that was assembled.
export function message_html(session, text) {
  if (session.text !== text) return '';
  if (session.fault) return fault_html(session.fault, session.has_image ? TEXTS.shown_is_old : '');
  if (!session.has_image) return '';
  return `<p class="okline">${TEXTS.assembles(`${escaped(session.lesson || 'program')}.s`)}</p>`;
}

// The line that is to be in sight: that of the fault, or of the first entry.
export const line_in_sight = (session) =>
  session.fault?.line || session.text.split('\n').findIndex((it) => it.trim().startsWith('.svc_entry')) + 1;

// Where in the text a fault is.
export function place_of({ line, column }, text) {
  const lines = text.split('\n'), front = lines.slice(0, line - 1).join('\n').length + (line > 1 ? 1 : 0);
  return front + front_of(lines[line - 1] ?? '', column).length;
}

const MOST_LINES = 600;

// A unit at its instruction; one whose task has ended is pale.
function unit_html({ unit, state }) {
  const has_ended = state !== 'running', says = TEXTS.unit_label(unit) + (has_ended ? TEXTS.task_has_ended : '');
  return `<span class="pc u${unit % 2}${has_ended ? ' over' : ''}" title="${says}">u${unit}</span>`;
}

// An instruction, with the units that are at it. A name with an offset stands for no label of the text.
function instruction_html(it, units) {
  const name = it.name.includes('+') ? '' : it.name;
  const kind = [it.is_entry && 'en', units.length > 0 && 'here'].filter(Boolean);
  return `<tr class="${kind.join(' ')}"><td class="pcs">${units.map(unit_html).join(' ')}</td><td>${escaped(name)}</td>`
    + `<td>${hexadecimal(it.address).slice(2)}</td><td>${escaped(it.text)}</td></tr>`;
}

// The listing, of a long one the lines around the first unit.
export function listing_html(session) {
  const { listing } = session, { pcs, tasks } = session.now();
  const state = (unit) => tasks.find((it) => it.unit === unit)?.state;
  const first = Number(pcs[0]?.address), middle = listing.findIndex((it) => it.address === first);
  const from = Math.max(0, Math.min(listing.length - MOST_LINES, middle - MOST_LINES / 2));
  const at = (address) => pcs.filter((it) => Number(it.address) === address)
    .map(({ unit }) => ({ unit, state: state(unit) }));
  return listing.slice(from, from + MOST_LINES).map((it) => instruction_html(it, at(it.address))).join('');
}
