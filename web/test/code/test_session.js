// What is open: moments, moves, undo and redo, and what is left where something fails.

import { deepEqual, equal, match } from 'node:assert/strict';
import { Fault } from '../../requests.js';
import { Refused } from '../../session.js';
import { bytes, text } from './cases.js';
import { TEN, opened } from './opened.js';

const steps = (session) => session.steps.join(' ');
const NO_PICTURE = { bars: [], marks: [], arrows: [] };

// A session whose scripts have no recorded picture.
async function without_pictures(k, script) {
  const it = await opened(0);
  it.requests.draw = async () => NO_PICTURE;
  await it.session.rewrite(script, k);
  deepEqual(it.faults, []);
  return it;
}

export async function a_program_is_opened_with_its_script() {
  const { session, faults } = await opened(4);
  deepEqual([session.entries.length, session.k, session.has_image, session.fault], [10, 4, true, null]);
  deepEqual(session.sequential.out, ['5']);
  deepEqual(session.entry_addresses(), [0, 12]);
  equal(session.shown_words(), 2);
  deepEqual(faults, []);
}

// A step asks for one moment, and for none that was looked at.
export async function a_step_is_one_call() {
  const { session, library } = await opened(3), before = library.calls.length;
  await session.go(4);
  equal(library.calls.length, before + 1);
  match(library.calls.at(-1), /^show image\.svci front\.csv --detail --moves --memory 0-1 /);
  await session.go(3);
  await session.go(4);
  equal(library.calls.length, before + 1);
  deepEqual([session.now().tasks.length, session.before().tasks.length], [1, 2]);
}

export async function of_many_moments_asked_for_the_last_counts() {
  const { session } = await opened(0);
  session.go(3);
  session.go(5);
  equal(session.aim, 5);
  await session.go(7);
  equal(session.k, 7);
  await session.go(99);
  equal(session.k, 10);
  await session.go(-1);
  equal(session.k, 0);
}

export async function the_script_s_next_move_is_stepped_over() {
  const { session } = await opened(3);
  equal(session.next_step(), 'submit,0,63');
  await session.make('submit,0,63');
  deepEqual([session.k, session.undo_list.length, steps(session)], [4, 0, TEN.join(' ')]);
  equal((await opened(10)).session.next_step(), null);
}

export async function a_move_behind_the_script_makes_it_longer() {
  const { session } = await without_pictures(4, TEN.slice(0, 4));
  await session.make('commit,0,');
  deepEqual([steps(session), session.k, session.entries.length], [TEN.slice(0, 5).join(' '), 5, 5]);
  equal(session.entries[4].kind, 'commit');
}

// Behind assign,0,0 the script of the cancels asks for a cancel of unit 3, which has no task.
export async function a_refused_move_changes_nothing() {
  const { session, faults } = await without_pictures(1, TEN.slice(0, 1)), before = session.undo_list;
  await session.make('cancel,3,');
  equal(faults.length, 1);
  deepEqual([faults[0] instanceof Refused, faults[0].number], [true, '3']);
  deepEqual([steps(session), session.k, session.undo_list], ['assign,0,0', 1, before]);
}

export async function undo_and_redo_are_scripts() {
  const { session } = await without_pictures(4, TEN.slice(0, 4));
  await session.rewrite(TEN.slice(0, 6), 6);
  deepEqual([steps(session), session.k], [TEN.slice(0, 6).join(' '), 6]);
  await session.undo();
  deepEqual([steps(session), session.k], [TEN.slice(0, 4).join(' '), 4]);
  await session.undo();
  deepEqual([steps(session), session.k], [TEN.join(' '), 0]);
  await session.undo();
  deepEqual([steps(session), session.redo_list.length], [TEN.join(' '), 2]);
  await session.redo();
  await session.redo();
  deepEqual([steps(session), session.k, session.redo_list.length], [TEN.slice(0, 6).join(' '), 6, 0]);
}

export async function a_change_behind_undo_forgets_what_was_undone() {
  const { session } = await without_pictures(4, TEN.slice(0, 4));
  await session.undo();
  await session.rewrite(TEN.slice(0, 2), 2);
  deepEqual([session.redo_list.length, session.undo_list.length], [0, 1]);
}

export async function the_steps_up_to_the_moment_have_their_refused_ones() {
  const cancels = text('scripts/the_ten_events_with_cancels_after_each.csv').trim().split('\n').slice(1);
  const { session } = await without_pictures(2, cancels.slice(0, 9));
  deepEqual(session.entries.map((it) => it.kind), ['assign', 'assign', 'cancel']);
  deepEqual(session.front(), cancels.slice(0, 6));
  equal(session.next_step(), 'cancel,1,');
  deepEqual(session.front(0), []);
}

export async function moments_before_the_first_change_are_kept() {
  const { session, library } = await without_pictures(4, TEN.slice(0, 4));
  await session.rewrite(TEN.slice(0, 5), 4);
  const before = library.calls.length;
  await session.go(3);
  equal(library.calls.length, before + 1, 'moment 2 alone was not looked at');
}

// In this script task 0 stores before task 1 loads, so its entry 2 is another one, and with it the moment behind that.
export async function moments_behind_the_first_change_are_forgotten() {
  const { session, requests, faults } = await opened(3);
  const script = text('scripts/a_version_of_an_earlier_task_is_read.csv');
  requests.draw = async () => NO_PICTURE;
  await session.go(1);
  deepEqual([...session.moments.keys()].sort(), [0, 1, 2, 3]);
  await session.rewrite(script.trim().split('\n').slice(1), 0);
  deepEqual([faults, session.entries[2].unit, [...session.moments.keys()].sort()], [[], 0, [0, 1, 2]]);
}

export async function a_failed_change_leaves_all_as_it_was() {
  const { session, faults } = await opened(4), before = session.state();
  await session.rewrite(['no,such,step'], 0);
  equal(faults.length, 1);
  match(faults[0].message, /the module failed at “script .*no case plays: no,such,step/);
  deepEqual([steps(session), session.k], [TEN.join(' '), 4]);
  deepEqual(session.state().files, before.files);
}

export async function a_text_with_a_fault_keeps_the_image() {
  const { session } = await opened(4);
  await session.edit(text('assembly/label_twice.s'));
  deepEqual(session.fault, { line: 4, column: 1, says: 'found `here`, expected a name that stands for nothing else' });
  deepEqual([session.has_image, session.entries.length, session.k], [true, 10, 4]);
  await session.edit(text('assembly/p.s'));
  deepEqual([session.fault, session.entries.length, session.k], [null, 10, 4]);
}

export async function a_run_by_a_schedule_is_its_script() {
  const { session, requests } = await opened(0);
  const { steps: made, played } = await requests.follow(bytes('traces/a_trace_of_a_version_is_sound.csv'));
  deepEqual(made, text('scripts/of_traces/a_trace_of_a_version_is_sound.csv').trim().split('\n').slice(1));
  deepEqual([played.entries.length, played.refused], [4, []]);
  equal(session.entries.length, 10);
}

export async function a_schedule_is_asked_for_with_its_seed() {
  const { requests, library } = await opened(0), order = { order: 'random', seed: 7, burst: 63 };
  requests.follow = async (trace) => new TextDecoder().decode(trace);
  equal(await requests.run([], order), text('schedules/schedule_of_p_by_random.csv'));
  match(library.calls.at(-1), /--schedule random --burst 63 --seed 7 --trace run\.csv --explain$/);
}

export async function an_exploration_has_its_row_and_witness() {
  const { requests } = await opened(0), how = { burst: 63, states: 20000 };
  requests.config.units = 2;
  const { seen, whole } = await requests.explore(how);
  deepEqual([seen.length, whole], [15, 'yes']);
  requests.explore_words = () => ['explore', 'image.svci', '--units', 2];
  requests.follow = async (trace) => ({ trace: new TextDecoder().decode(trace) });
  const { found, trace } = await requests.witness(how, seen.find((it) => it.what === 'commit' && it.task === '1'));
  deepEqual([found.what, found.task], ['commit', '1']);
  equal(trace, text('explore/explore_find_a_commit.csv'));
}

export async function what_the_trace_shows_has_entries() {
  const { session } = await opened(10), seen = await session.observed();
  deepEqual([seen.get('squash,1,0,1,violation'), seen.get('commit,1,,,'), seen.size], [3, 9, 9]);
}

export async function a_fault_is_told_in_the_library_s_words() {
  const { requests, library } = await opened(0);
  library.put('bad.csv', text('scripts/a_script_with_an_unknown_kind.csv'));
  const why = await requests.get(['script', 'image.svci', 'bad.csv']).catch((it) => it);
  deepEqual([why instanceof Fault, why.message], [true, 'script fault row 3 column 1']);
}

export async function bursts_to_try_are_those_of_accepted_turns() {
  const { session } = await opened(2);
  session.by.burst = 5;
  deepEqual(session.bursts(), [1, 5, 63]);
  deepEqual(session.bursts_to_try(session.now()), ['submit,0,5', 'submit,0,63', 'submit,1,5', 'submit,1,63']);
  session.now().tried.set('submit,0,5', '');
  deepEqual(session.bursts_to_try(session.now()), ['submit,0,63', 'submit,1,5', 'submit,1,63']);
}

export async function a_change_while_the_library_is_asked_gives_no_answer() {
  const { session } = await opened(0);
  equal(await session.beside(async () => { session.played = { ...session.played }; return 1; }, 'none'), 'none');
  equal(await session.beside(async () => 1, 'none'), 1);
}
