// The page as it opens: its texts, its menus, and the library in its workers.

import { load, set_theme } from './acts.js';
import { $ } from './document.js';
import { draw_key } from './draw.js';
import { opened_by } from './files.js';
import { escaped } from './html.js';
import { Library, has_wide_memory, worker_of } from './library.js';
import { Requests } from './requests.js';
import { Session } from './session.js';
import { draw, page, predict, show_wait, tell_why } from './shown.js';
import { tables } from './tables.js';
import { TEXTS } from './texts.js';
import { wire } from './wires.js';

const option = (value, says) => `<option value="${value}">${escaped(says)}</option>`;

// The texts of the document itself.
function fill_texts() {
  document.title = TEXTS.title;
  for (const it of document.querySelectorAll('[data-text]')) it.textContent = TEXTS[it.dataset.text];
  for (const it of document.querySelectorAll('[data-label]')) it.setAttribute('aria-label', TEXTS[it.dataset.label]);
  for (const it of document.querySelectorAll('[data-tip]')) it.title = TEXTS[it.dataset.tip];
  $('keyslist').innerHTML = TEXTS.keys_list.map(([key, says]) => `<dt>${key}</dt><dd>${says}</dd>`).join('');
  $('sched').innerHTML = Object.entries(TEXTS.orders).map(([key, says]) => option(key, says)).join('');
  const lessons = page.programs.map(({ lesson }) => option(lesson, `${TEXTS.lessons[lesson] ?? lesson} (${lesson}.s)`));
  $('lesson').innerHTML = `<option value="" hidden>${TEXTS.own}</option>${lessons.join('')}`;
  draw_key();
}

// The page's library: a worker that answers at once, and another one for what may take long.
async function begin_library(worker, module) {
  const compiled = await WebAssembly.compile(Uint8Array.from(atob(module), (it) => it.charCodeAt(0)));
  const library = () => new Library(() => worker_of(worker), compiled);
  page.requests = new Requests(library(), library());
  page.session = new Session(page.requests, { draw, tell: tell_why, wait: show_wait });
}

async function open_page(worker, module) {
  fill_texts();
  set_theme(matchMedia('(prefers-color-scheme:dark)').matches);
  if (matchMedia('(max-width:1020px)').matches) $('prog').open = $('keyd').open = false;
  if (!has_wide_memory()) return void ($('say').innerHTML = `<p class="fault">${TEXTS.needs_wide_memory}</p>`);
  $('say').innerHTML = `<p>${TEXTS.opening}</p>`;
  await begin_library(worker, module);
  wire();
  await load(await opened_by(location.hash, page.programs) ?? page.programs[0]);
  document.body.dataset.opened = Math.round(performance.now());
}

// Opens the page over the programs of the menu, the worker's text, and the module's bytes in base 64.
export function begin(programs, worker, module) {
  page.programs = programs;
  globalThis.svcsim = { page, predict, tables };
  open_page(worker, module).catch((why) => { $('say').textContent = TEXTS.broken(why.message); });
}
