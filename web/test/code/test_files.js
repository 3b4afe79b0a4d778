// Links and files.

import { deepEqual, equal, match, ok } from 'node:assert/strict';
import { fragment_of, open_file, opened_by, saved_as } from '../../files.js';
import { bytes, text } from './cases.js';
import { FOUR, TEN, opened } from './opened.js';

const PROGRAMS = [{ lesson: 'violation', text: '' }, { lesson: 'full', text: '' }];
const of = (name, what) => ({ name, arrayBuffer: () => new Response(what).arrayBuffer() });

export async function a_link_leads_back_to_what_is_open() {
  const { session } = await opened(4);
  Object.assign(session.by, { order: 'rotate', seed: 9, burst: 5 });
  const fragment = await fragment_of(session);
  match(fragment, /^#[\w-]+$/);
  deepEqual(await opened_by(fragment, PROGRAMS), { lesson: 'p', text: text('assembly/p.s'), config: FOUR,
    by: { order: 'rotate', seed: 9, burst: 5 }, steps: TEN, k: 4 });
}

export async function letters_of_every_kind_go_there_and_back() {
  const { session } = await opened(0);
  session.text = '# café – 例 \u{1f642}\n' + text('assembly/p.s').repeat(20);
  const fragment = await fragment_of(session);
  ok(fragment.length < session.text.length, 'it is packed');
  equal((await opened_by(fragment, [])).text, session.text);
}

export async function a_program_is_opened_by_its_name() {
  equal(await opened_by('#program=full', PROGRAMS), PROGRAMS[1]);
  equal(await opened_by('#program=other', PROGRAMS), null);
}

// The fragment of what a stranger packed.
async function packed(it) {
  const stream = new Blob([JSON.stringify(it)]).stream().pipeThrough(new CompressionStream('deflate-raw'));
  return '#' + Buffer.from(await new Response(stream).arrayBuffer()).toString('base64url');
}

export async function what_is_no_link_of_ours_opens_nothing() {
  for (const it of ['', '#', '#main', '#AAAA', '#%%%']) equal(await opened_by(it, PROGRAMS), null, it);
  for (const it of [{}, { t: 1, s: [] }, { t: '', s: 'x' }, { t: '', s: [1] }, { t: '', s: ['a\nb'] }, null, 7]) {
    equal(await opened_by(await packed(it), PROGRAMS), null, JSON.stringify(it));
  }
}

export async function wrong_numbers_of_a_link_are_left_out() {
  const strange = { t: 'x', s: [], c: { units: -1, sets: 'y', ways: 1.5 }, b: { order: 'z', seed: 3 }, k: 'w' };
  const it = await opened_by(await packed(strange), []);
  deepEqual([it.config, it.by, it.k], [{ units: 2, sets: 16, ways: 2 }, { order: 'youngest', seed: 3, burst: 63 }, 0]);
}

export async function each_file_is_saved_by_its_name() {
  const { session } = await opened(4), read = (it) => new TextDecoder().decode(it.bytes);
  const script = await saved_as(session, 'script'), trace = await saved_as(session, 'trace');
  deepEqual([script.name, read(script)], ['p.events.csv', text('scripts/ten_events.csv')]);
  deepEqual([trace.name, read(trace)], ['p.trace.csv', text('traces/ten_events.csv')]);
  equal((await saved_as(session, 'program')).name, 'p.s');
  deepEqual((await saved_as(session, 'image')).bytes, bytes('p.svci'));
  equal(read(await saved_as(session, 'picture')), text('wanted/picture_with_names.svg'));
  equal(read(await saved_as(session, 'chrome')), text('wanted/events_of_a_load_too_early.json'));
}

export async function a_file_is_opened_by_what_it_holds() {
  const { session, requests, faults } = await opened(4);
  requests.draw = async () => ({ bars: [], marks: [], arrows: [] });
  await open_file(session, of('some.csv', TEN.slice(0, 4).reduce((all, it) => `${all}${it}\n`, 'kind,unit,arg\n')));
  deepEqual([session.steps, session.k], [TEN.slice(0, 4), 0]);
  await open_file(session, of('some.csv', bytes('traces/ten_events.csv')));
  deepEqual([session.entries.length, session.steps], [10,
    text('scripts/of_traces/ten_events.csv').trim().split('\n').slice(1)]);
  await open_file(session, of('mine.txt', text('assembly/unknown_register.s')));
  deepEqual([session.lesson, session.fault.line, session.has_image], ['mine', 2, false]);
  deepEqual(faults, []);
}

// An image is opened as its listing.
export async function an_image_is_opened_as_its_listing() {
  const { session } = await opened(0);
  session.load = async (it) => it;
  const it = await open_file(session, of('p.svci', bytes('p.svci')));
  deepEqual(it, { lesson: 'p', text: text('assembly/p_listed.s'), config: {}, by: {} });
}
