// Files and links. A link carries the program, the machine and the script in its fragment, which no browser sends
// anywhere.

import { bytes_of, text_of } from './library.js';
import { HEADER } from './requests.js';
import { TEXTS } from './texts.js';

// Bytes through a stream that packs or unpacks them.
async function through(bytes, stream) {
  return new Uint8Array(await new Response(new Blob([bytes]).stream().pipeThrough(stream)).arrayBuffer());
}

// What is open, as the fragment of a link.
export async function fragment_of(session) {
  const it = { l: session.lesson, t: session.text, c: session.config, b: session.by, s: session.steps, k: session.k };
  const packed = await through(bytes_of(JSON.stringify(it)), new CompressionStream('deflate-raw'));
  let letters = '';
  for (const byte of packed) letters += String.fromCharCode(byte);
  return '#' + btoa(letters).replace(/\+/g, '-').replace(/\//g, '_').replace(/=+$/, '');
}

// What a fragment says is open, if it is one of ours: a program of the menu by its name, or all that a link carries.
export async function opened_by(fragment, programs) {
  const named = /^#program=(\w+)$/.exec(fragment);
  if (named) return programs.find((it) => it.lesson === named[1]) ?? null;
  if (fragment.length < 2) return null;
  try {
    const letters = atob(fragment.slice(1).replace(/-/g, '+').replace(/_/g, '/'));
    const packed = Uint8Array.from(letters, (it) => it.charCodeAt(0));
    return carried(JSON.parse(text_of(await through(packed, new DecompressionStream('deflate-raw')))));
  } catch {
    return null;
  }
}

// What a link carries, if it is of the kind that fragment_of makes.
function carried({ l, t, c, b, s, k }) {
  const is_step = (it) => typeof it === 'string' && !it.includes('\n');
  if (typeof t !== 'string' || !Array.isArray(s) || !s.every(is_step)) return null;
  return { lesson: String(l), text: t, config: machine_of(c), by: schedule_of(b), steps: s, k: number_of(k, 0) };
}

const number_of = (it, none) => (Number.isSafeInteger(it) && it >= 0 ? it : none);
const machine_of = (it) =>
  ({ units: number_of(it?.units, 2), sets: number_of(it?.sets, 16), ways: number_of(it?.ways, 2) });
const order_of = (it) => (Object.keys(TEXTS.orders).includes(it) ? it : 'youngest');
const schedule_of = (it) =>
  ({ order: order_of(it?.order), seed: number_of(it?.seed, 0), burst: number_of(it?.burst, 63) });

// The files that can be saved: the end of the name, the kind, and what is in it.
const SAVED = {
  program: ['.s', 'text/plain', (session) => bytes_of(session.text)],
  image: ['.svci', 'application/octet-stream', (session) => session.requests.file('image')],
  script: ['.events.csv', 'text/csv', (session) => bytes_of([HEADER, ...session.steps, ''].join('\n'))],
  trace: ['.trace.csv', 'text/csv', (session) => session.requests.file('trace')],
  picture: ['.svg', 'image/svg+xml', (session) => session.requests.picture()],
  chrome: ['.trace.json', 'application/json', (session) => session.requests.exported('chrome', 0)],
  vcd: ['.vcd', 'text/plain', (session) => session.requests.exported('vcd', session.shown_words())],
};

// One of the files of what is open: its name, its bytes and their type.
export async function saved_as(session, kind) {
  const [end, type, bytes] = SAVED[kind];
  return { name: (session.lesson || 'program') + end, bytes: await bytes(session), type };
}

// Opens a file by what it holds: a script, a trace, an image, whose listing is then the program, or else a program's
// text.
export async function open_file(session, file) {
  const bytes = new Uint8Array(await file.arrayBuffer()), first = text_of(bytes.slice(0, 200)).split('\n')[0].trim();
  if (first === HEADER) return session.rewrite(text_of(bytes).split('\n').slice(1).filter((it) => it !== ''), 0);
  if (first.startsWith(`${HEADER},local`)) return session.load_trace(bytes);
  const text = first.startsWith('SVCI') ? await session.requests.listed(bytes) : text_of(bytes);
  return session.load({ lesson: file.name.replace(/\.[^.]*$/, ''), text, config: {}, by: {} });
}
