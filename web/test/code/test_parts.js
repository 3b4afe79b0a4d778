// Caches, versions, memory, output, moves, the program and the tables, as HTML.

import { deepEqual, equal, match, ok } from 'node:assert/strict';
import { plain } from '../../html.js';
import { caches_html, memory_html, output_html, outputs, versions_html, words_html, words_of } from '../../moment.js';
import { moves_html, moves_note } from '../../moves.js';
import { line_in_sight, listing_html, message_html, numbers_html, place_of, program_html } from '../../program.js';
import { explored_of, fault_of } from '../../rows.js';
import { all_html, answers_html, cost_html, explored_key, needs_html, script_text, tables,
  trace_html } from '../../tables.js';
import { TEXTS } from '../../texts.js';
import { printed, text } from './cases.js';
import { TEN, UNPREDICTED, opened } from './opened.js';

const count = (html, pattern) => [...html.matchAll(pattern)].length;
const marked = (session, part) => part(session, session.now(), session.before(), session.k > 0);
const cells = (html, row) => [...html.matchAll(/<tr[^>]*>(.*?)<\/tr>/gs)].map((it) =>
  [...it[1].matchAll(/<t[dh][^>]*>(.*?)<\/t[dh]>/gs)].map((one) => plain(one[1])))[row];

// ---- the moment

// At entry 3 the store makes a line in unit 0, and unit 1's line goes with its task.
export async function what_an_entry_changes_is_marked_in_the_caches() {
  const { session } = await opened(4), html = marked(session, caches_html);
  equal(count(html, /class="cache"/g), 4);
  deepEqual([count(html, /class="ln isnew"/g), count(html, /class="ln gone"/g)], [1, 1]);
  match(html, /aria-label="bits valid, stored to by this task"/);
  match(plain(html), /Unit 0 runs task 0.*Unit 1 has no task/s);
  equal(count(caches_html(session, session.now(), session.before(), false), /isnew|gone/g), 0);
}

// The commit sets C of that line, and commits the word.
export async function a_changed_bit_and_value_are_marked() {
  const { session } = await opened(5);
  match(marked(session, caches_html), /class="bit on chg" title="C: committed; changed by this entry"/);
  const memory = marked(session, memory_html);
  deepEqual(cells(memory, 1), ['shared', '0', '5 ≠']);
  match(memory, /<td class="n chg">5 /);
}

export async function versions_are_listed_from_the_oldest() {
  const { session } = await opened(3);
  session.word = 0;
  const names = [...versions_html(session).matchAll(/class="nd"><span>(.*?)<\/span>/g)];
  deepEqual(names.map((it) => plain(it[1])), ['memory itself', 'task 0, unit 0 ◆ head', 'task 1, unit 1']);
}

export async function a_committed_version_is_listed_as_one() {
  const { session } = await opened(5), html = versions_html(session);
  match(plain(html), /memory itself0behind all cachescommitted, in unit 05a version/);
  match(plain(html), /No task is active/);
}

export async function the_words_are_those_of_the_data() {
  const { session } = await opened(0);
  deepEqual(words_of(session), [0, 1]);
  equal(words_html(session), '<option value="0">shared</option><option value="1">shared+4</option>');
}

export async function a_word_waits_until_its_task_is_committed() {
  const { session } = await opened(9);
  deepEqual([outputs(session).done.length, outputs(session).waiting.length], [0, 1]);
  match(plain(output_html(session, session.now())), /5 waits for task 1/);
  await session.go(10);
  deepEqual([outputs(session).done.map((it) => it.value), outputs(session).waiting], [['5'], []]);
  match(plain(output_html(session, session.now())), /The same, as proved for every run/);
}

// ---- moves

const moves = (html) =>
  [...html.matchAll(/<button data-move="([^"]*)"( aria-disabled="true")? class="(\w*)">(.*?)<\/button>/g)]
  .map((it) => [it[1], Boolean(it[2]), it[3], plain(it[4].replace('<small>', ' | '))]);

// Of unit 0 at moment 4: move,0,assign,12,2 · submit,1,8 · replace,0, · cancel,,14 · commit,,
export async function each_move_is_a_button_with_its_refusal() {
  const { session } = await opened(4), all = moves(moves_html(session, UNPREDICTED));
  const found = all.filter(([move]) => move.split(',')[1] === '0');
  deepEqual(found, [
    ['assign,0,12', true, '', 'Begin at second | the unit has a task'],
    ['submit,0,1', true, '', 'One turn | its task has ended'],
    ['submit,0,63', true, '', 'To bus request | its task has ended'],
    ['commit,0,', false, 'nextmv', 'Commit | next in the script'],
    ['cancel,0,', true, '', 'Cancel | the unit runs the oldest task'],
    ['replace,0,0', false, '', 'Let go of shared'],
  ]);
}

export async function a_task_can_begin_at_another_entry() {
  const { session } = await opened(4), all = moves(moves_html(session, UNPREDICTED));
  deepEqual(all.filter(([move]) => /^assign,1/.test(move)), [
    ['assign,1,12', false, '', 'Begin at second | the guess'],
    ['assign,1,0', false, '', 'Begin at first | not the guess'],
  ]);
}

export async function registers_and_places_are_shown() {
  const { session } = await opened(4), html = plain(moves_html(session, UNPREDICTED));
  match(html, /Unit 0task 0 @ first, ended, 3 turns, at second ◆ head/);
  match(html, /Registers: ra \(x1\) = 5 t0 \(x5\) = 1048576/);
}

export async function a_stopped_run_says_why_nothing_moves() {
  const { session } = await opened(10);
  equal(plain(moves_html(session, UNPREDICTED)), 'Every move is refused: the run has stopped (exit 5).');
}

export async function an_open_question_hides_the_moves() {
  const { session } = await opened(3), predict = { on: true, ask: {} };
  deepEqual([moves_html(session, predict), moves_note(session, predict)], ['', TEXTS.answer_first]);
  equal(moves_html(session, { on: true, ask: null }).includes('nextmv'), false);
}

export function every_refusal_has_a_text() {
  const rows = ['show_with_moves_of_a_chain_on_16_units_at_2000', 'show_with_moves_of_a_full_history',
    'the_ten_events_with_cancels_after_each',
    'units_without_a_task_or_out_of_number_are_refused', 'each_refusal_of_an_assignment'].map(printed).join('');
  const numbers = new Set([...rows.matchAll(/^(?:move,.*|refused),(\d+)$/gm)].map((it) => it[1]));
  ok(numbers.size > 5, [...numbers].join());
  deepEqual([...numbers].filter((it) => !TEXTS.refusal[it]), []);
}

// ---- the program

export async function a_fault_is_underlined_where_it_is() {
  const { session, library } = await opened(0), source = text('assembly/unknown_register.s');
  await session.edit(source);
  deepEqual(session.fault, { line: 2, column: 14, says: 'found `y2`, expected a register' });
  const html = program_html(source, session.fault);
  match(html.split('\n')[1], /<span class="bad">y2<\/span>/);
  equal(count(html, /class="bad"/g), 1);
  equal(source.slice(place_of(session.fault, source)).startsWith('y2'), true);
  match(plain(message_html(session, source)),
    /Line 2, column 14: found `y2`, expected a register\. What is shown is of the last text/);
  equal(message_html(session, source + '\n'), '');
  equal(line_in_sight(session), 2);
  ok(library.calls.at(-1).startsWith('assemble '));
}

export function a_column_counts_bytes() {
  const source = 'é: lw y2';
  equal(source.slice(place_of({ line: 1, column: 8 }, source)), 'y2');
}

export function a_text_is_coloured_and_escaped() {
  equal(program_html('a: .word 1 # <b>\n', null),
    '<span class="l">a:</span> .word 1 <span class="c"># &lt;b&gt;</span>\n\n');
  equal(program_html('.data', null), '<span class="d">.data</span>\n');
  equal(numbers_html('a\nb\n'), '1\n2\n3\n');
}

// At moment 3: pc,0,0 and pc,1,20
export async function the_listing_shows_where_each_unit_is() {
  const { session } = await opened(3), html = listing_html(session);
  equal(count(html, /<tr/g), 9);
  const rows = [...Array(9).keys()].map((n) => cells(html, n)).filter((row) => row[0] !== '');
  deepEqual(rows, [['u0', 'first', '0000', 'lui x5, 256'], ['u1', '', '0014', 'addi x17, x0, 1']]);
  equal(count(html, /class="en/g), 2);
  match(message_html(session, session.text), /okline/);
}

// ---- tables

export async function the_trace_marks_the_moment() {
  const { session } = await opened(4), html = trace_html(session, UNPREDICTED);
  equal(count(html, /<tr data-k/g), 10);
  match(html, /<tr data-k="4" class="cur"><td>3<\/td><td>submit<\/td>/);
  equal(count(html, /class="later"/g), 6);
  equal(count(trace_html(session, { on: true }), /<tr data-k/g), 4);
}

export async function the_script_has_an_answer_a_step() {
  const { session } = await opened(4), html = answers_html(session, UNPREDICTED);
  equal(script_text(session, UNPREDICTED), TEN.join('\n') + '\n');
  deepEqual(cells(html, 4), ['3', 'submit,0,63', 'Entry 3']);
  equal(script_text(session, { on: true }), TEN.slice(0, 4).join('\n') + '\n');
}

export async function costs_and_needs_are_the_library_s_tables() {
  const { session } = await opened(10), html = await cost_html(session, UNPREDICTED);
  equal(count(html, /<h3>/g), 4);
  match(html, /<td>violation<\/td><td>second<\/td>/);
  equal(await cost_html(session, { on: true }), `<p class="empty">${TEXTS.hidden_table}</p>`);
  match(plain(await needs_html(session)), /By pairtaskondistancewords1011/);
}

export async function all_schedules_are_listed_beside_the_run() {
  const { session, requests } = await opened(10);
  session.by.burst = 63;
  const explored = explored_of(printed('explore_p_on_2_by_63'));
  Object.assign(tables, { explored, of: explored_key(session), begun: 0, filter: 'all' });
  const html = await all_html(session, UNPREDICTED);
  const rows = [...html.matchAll(/<li>(.*?)<\/li>/g)].map((it) => plain(it[1]));
  match(plain(html), /all 37 standings, each within 10 steps; 62 moves/);
  equal(rows.length, 15);
  equal(rows[3], '●task 1 loads shared = 0 from memory3 steps, entry 2');
  equal(rows[4], '○task 1 loads shared = 5 from task 0’s version4 steps');
  equal(rows[13], '●task 1 is squashed: it read shared too early4 steps, entry 3');
  // Only the first row with a task and a word can be asked for: of four loads and two outputs of task 1 the first ones.
  equal(count(html, /data-witness/g), 15 - 3 - 1);
  tables.filter = 'squash';
  equal(count(await all_html(session, UNPREDICTED), /<li>/g), 2);
  tables.filter = 'all';
  // While the student predicts, what is to come isn't told.
  await session.go(2);
  equal((await all_html(session, { on: true })).includes('entry 3'), false);
  equal(requests.library.calls.filter((it) => it.startsWith('explore image.svci --of trace.csv')).length, 1);
}

// Of 23 rows: 3 begin a task, 4 store; of 8 loads by task 1, 4 of each word, and of 3 outputs the first ones; 2 commit,
// and of the squashes each has another task or word.
export async function a_row_of_another_word_has_its_own_witness() {
  const { session } = await opened(0), explored = explored_of(printed('explore_full_set_on_2_by_63'));
  Object.assign(tables, { explored, of: explored_key(session), begun: 0 });
  const html = await all_html(session, UNPREDICTED);
  deepEqual([count(html, /<li>/g), count(html, /data-witness/g)], [23, 3 + 4 + 2 + 1 + 2 + 3]);
}

export async function an_exploration_that_met_a_limit_says_so() {
  const { session } = await opened(0);
  const explored = explored_of(printed('explore_p_of_1_states'));
  Object.assign(tables, { explored, of: explored_key(session), begun: 0 });
  match(plain(await all_html(session, UNPREDICTED)), /A limit was met: what is not listed may be seen too/);
  Object.assign(tables, { explored: null, of: '', fault: 'Stopped.' });
  match(await all_html(session, UNPREDICTED), /id="bexplore".*Stopped\./s);
  Object.assign(tables, { fault: '', begun: performance.now() - 3500 });
  match(await all_html(session, UNPREDICTED), /Following every schedule… 3 s.*id="bstop"/);
  tables.begun = 0;
}

export function what_is_seen_has_a_phrase() {
  const names = ['explore_p_on_2_by_63', 'explore_a_task_that_traps', 'explore_full_set_of_one_line',
    'explore_of_a_spill',
    'explore_of_a_reuse', 'explore_of_a_replacement', 'explore_of_a_cancel'];
  const rows = names.flatMap((it) => explored_of(printed(it)).seen);
  const of = (what) => rows.filter((it) => it.what === what);
  deepEqual(rows.filter((it) => !TEXTS.seen[it.what]).map((it) => it.what), []);
  deepEqual(of('load').map((it) => it.by).filter((it) => !it.startsWith('version:') && !TEXTS.seen_by[it]), []);
}
