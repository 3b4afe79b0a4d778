// The sentence on each entry, and the questions. The words are put together by hand of the rows and of texts.js.

import { deepEqual, equal, match } from 'node:assert/strict';
import { plain } from '../../html.js';
import { shown_of } from '../../rows.js';
import { plain_sentence, question, said_at, sentence } from '../../say.js';
import { printed } from './cases.js';
import { UNPREDICTED, opened, shown } from './opened.js';

const says = (session, at) => plain(sentence(session, at).html);

async function session_with_all_moments() {
  const { session } = await opened();
  for (let k = 0; k <= 10; k++) await session.go(k);
  return session;
}

export async function each_of_the_ten_entries_is_told() {
  const session = await session_with_all_moments();
  deepEqual([...Array(10).keys()].map((at) => says(session, at)), [
    'Unit 0 begins task 0 at first.',
    'Unit 1 begins task 1 at second, as guessed, while task 0 is still active.',
    'Task 1 loads shared and gets 0: memory served it.',
    'Task 0 stores 5 to shared, but task 1 had loaded it too early, at entry 2, and got 0: task 1 is squashed.',
    'Task 0 is committed: it was the oldest, and had ended.',
    'Unit 1 begins task 1 at second.',
    'Task 1 loads shared and gets 5: the committed version in unit 0’s cache served it. '
      + 'Memory itself now holds 5 in shared.',
    'Task 1 puts out 5. The word waits until the task is committed.',
    'Task 1 takes 2 turns without the bus, and has ended with the program’s exit.',
    'Task 1 is committed: it was the oldest, and had ended. The run has stopped: exit 5.',
  ]);
}

export async function the_colour_is_that_of_the_event() {
  const session = await session_with_all_moments();
  deepEqual([2, 3, 4, 9].map((at) => sentence(session, at).colour), ['', 'sq', 'ok', 'ok']);
}

export async function the_squash_links_to_the_read() {
  const session = await session_with_all_moments();
  match(sentence(session, 3).html, /<button class="lnk" data-k="3">at entry 2<\/button>/);
  equal(/<button/.test(plain_sentence(session, 3)), false);
}

export async function a_moment_has_its_heading_tag_and_row() {
  const session = await session_with_all_moments();
  await session.go(4);
  const { html, colour } = said_at(session, UNPREDICTED);
  equal(colour, 'sq');
  match(plain(html), /^Entry 3 ✕ read too early/);
  match(html, /submit,0,,2,1,stored,0,5,,,violation,1,1/);
  await session.go(0);
  match(plain(said_at(session, UNPREDICTED).html), /^Before entry 0Nothing has happened yet/);
}

const moment = (...rows) => ({ ...shown_of(rows.join('\n')), tried: new Map() });
const OPEN = ['due,0', 'guess,0', 'open,0'];
const told = (entry, before, after, more = {}) =>
  says(shown({ entries: [entry], before: moment(...before), after: moment(...after), names: ['shared'], ...more }), 0);

// What is said of an entry that leads to the machine that a case prints, from these rows on.
function said(name, entry, ...before) {
  const after = shown_of(printed(name));
  return says(shown({ entries: [entry], before: moment(...OPEN, ...before), after, names: ['shared'] }), 0);
}

export function a_version_is_told_with_its_task_and_unit() {
  equal(said('show_of_a_version', 'submit,1,,1,1,loaded,0,5,version,0,,,',
    'task,0,0,0,3,next', 'task,1,1,12,0,running', 'memory,0,0,0'),
    'Task 1 loads shared and gets 5: task 0’s version in unit 0’s cache served it, before that task is committed.');
}

export function a_spilled_version_serves_a_load() {
  equal(said('show_of_a_spill', 'submit,1,,1,1,loaded,0,5,spill,,,,',
    'task,0,0,0,3,next', 'task,1,1,12,0,running', 'spill,0,5', 'memory,0,0,0'),
    'Task 1 loads shared and gets 5: the oldest task’s spilled version served it.');
}

export function a_replaced_version_is_told_as_spilled() {
  equal(said('show_of_a_replacement', 'replace,0,0,,,replaced,0,,,,,,',
    'task,0,0,0,3,next', 'line,0,0,5,VS---', 'memory,0,0,0'),
    'Unit 0 lets go of its line of shared: the version 5 is kept aside until task 0 is committed (spilled).');
}

export function a_cancel_names_the_first_task() {
  const after = shown_of(printed('show_of_a_cancel'));
  const before = moment(...OPEN, 'task,0,0,0,0,running', 'task,1,1,12,0,running', 'task,2,2,0,0,running');
  const session = shown({ entries: ['cancel,1,,,,cancelled,,,,,cancel,1,2'], before, after });
  equal(says(session, 0), 'Task 1 and all after it are squashed: cancelled by hand.');
}

export function a_wrong_guess_is_told_behind_the_store() {
  const tasks = ['task,0,0,0,0,running', 'task,1,1,0,0,running', 'task,2,2,12,0,running'];
  const said = told('submit,0,,2,1,stored,0,5,,,guess,1,2', [...OPEN, ...tasks], [...OPEN, 'task,0,0,0,3,next']);
  equal(said, 'Task 0 stores 5 to shared. Tasks 1 and 2 had begun on a wrong guess and are squashed.');
}

export function several_squashed_tasks_are_counted() {
  const tasks = ['task,0,0,0,0,running', 'task,1,1,0,0,running', 'task,2,2,12,0,running', 'task,3,3,12,0,running'];
  const said = told('submit,0,,2,1,stored,0,5,,,violation,1,3', [...OPEN, ...tasks], [...OPEN, 'task,0,0,0,3,next']);
  equal(said,
    'Task 0 stores 5 to shared, but task 1 had loaded it too early: task 1 is squashed, and tasks 2 and 3 after it.');
}

export function a_trap_and_other_suppliers_are_told() {
  const on = [...OPEN, 'task,0,0,0,0,running'];
  equal(told('submit,0,,2,1,trapped,,6,,,,,', on, on),
    'Task 0 traps (6). A trap counts only if the task is committed.');
  equal(told('submit,0,,1,1,loaded,0,9,hit,,,,', on, on), 'Task 0 loads shared and gets 9: its own line served it.');
  equal(told('submit,0,,1,1,loaded,0,9,reuse,,,,', on, on),
    'Task 0 loads shared and gets 9: a copy kept in its own cache served it.');
  equal(told('submit,0,,1,0,ran,,,,,,,', on, on), 'Task 0 takes 1 turn without the bus.');
}

export function an_assignment_off_the_guess_says_so() {
  const before = [...OPEN, 'task,0,0,0,0,running', 'task,1,1,0,0,running'];
  const said = told('assign,2,12,,,assigned,,12,,,,,', before, [...before, 'task,2,2,12,0,running']);
  equal(said, 'Unit 2 begins task 2 at 0x000c, which isn’t the guess, while tasks 0, 1 are still active.');
}

export async function without_moments_the_row_stands() {
  const { session } = await opened();
  equal(says(session, 7), 'submit,1,,1,1,emitted,,5,,,,,');
}

// ---- predict

const options = (it) => it.options.map((one) => [plain(one.label), one.is_right]);

export async function a_load_is_asked_who_serves_it() {
  const session = await session_with_all_moments(), it = question(session, 2);
  equal(plain(it.question), 'Task 1 now loads shared. Who serves it?');
  deepEqual(options(it), [['memory', true], ['task 0’s version', false], ['a committed version', false],
    ['its own line, or a kept copy', false]]);
  deepEqual(options(question(session, 6)), [['memory', false], ['a committed version', true],
    ['its own line, or a kept copy', false]]);
}

export async function a_store_is_asked_who_is_squashed() {
  const session = await session_with_all_moments(), it = question(session, 3);
  equal(plain(it.question), 'Task 0 now stores 5 to shared. Who is squashed?');
  deepEqual(options(it), [['nobody', false], ['task 1', true]]);
}

export async function what_can_differ_in_nothing_is_not_asked() {
  const session = await session_with_all_moments();
  deepEqual([0, 1, 4, 5, 7, 8, 9].map((at) => question(session, at)), Array(7).fill(null));
}

export function a_version_and_a_spill_are_answers() {
  const before = moment(...OPEN, 'task,0,0,0,3,next', 'task,1,1,12,0,running', 'spill,0,5');
  const asked = (entry) => question(shown({ entries: [entry], before, after: before }), 0);
  const right = (it) => it.options.filter((one) => one.is_right).map((one) => plain(one.label));
  deepEqual(right(asked('submit,1,,1,1,loaded,0,5,version,0,,,')), ['task 0’s version']);
  deepEqual(right(asked('submit,1,,1,1,loaded,0,5,spill,,,,')), ['a spilled version']);
  deepEqual(right(asked('submit,1,,1,1,loaded,0,5,hit,,,,')), ['its own line, or a kept copy']);
  deepEqual(right(asked('submit,1,,1,1,loaded,0,5,reuse,,,,')), ['its own line, or a kept copy']);
}

export function of_several_later_tasks_the_first_squashed_is_right() {
  const tasks = [0, 1, 2].map((n) => `task,${n},${n},0,0,running`), before = moment(...OPEN, ...tasks);
  const asked = question(shown({ entries: ['submit,0,,2,1,stored,0,5,,,guess,1,2'], before, after: before }), 0);
  deepEqual(options(asked), [['nobody', false], ['task 1 and all after it', true], ['task 2', false]]);
  const none = question(shown({ entries: ['submit,0,,2,1,stored,0,5,,,,,'], before, after: before }), 0);
  deepEqual(options(none).map((it) => it[1]), [true, false, false]);
}

export async function an_open_question_hides_the_row() {
  const session = await session_with_all_moments();
  await session.go(3);
  const { html } = said_at(session, { on: true, ask: { ...question(session, 3), k: 3 }, said: null });
  match(plain(html), /^Predict: entry 3Task 0 now stores 5/);
  equal(/violation|squashed by/.test(html), false);
  deepEqual([...html.matchAll(/data-answer="(\d)"/g)].map((it) => it[1]), ['0', '1']);
}

export async function right_and_wrong_are_told() {
  const session = await session_with_all_moments();
  await session.go(4);
  const predict = (is_right) => ({ on: true, ask: null, said: { k: 4, is_right, label: 'nobody' } });
  const said = (is_right) => plain(said_at(session, predict(is_right)).html);
  match(said(true), /✓ Right\. Task 0 stores/);
  match(said(false), /✗ Not so: you said “nobody”\. Task 0 stores/);
}
