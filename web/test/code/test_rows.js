// Rows of the library as values. What is expected is read off the rows by hand.

import { deepEqual, equal } from 'node:assert/strict';
import { drawn_of, entry_of, explored_of, fault_of, listing_of, played_of, shown_of, sound_of, summary_of, table_of,
  TRACE_COLUMNS } from '../../rows.js';
import { printed, text } from './cases.js';

export function the_columns_are_those_of_a_trace() {
  equal(text('traces/ten_events.csv').split('\n')[0], TRACE_COLUMNS);
}

// Row 4 of the trace: submit,0,,2,1,stored,0,5,,,violation,1,1
export function a_store_that_squashes_is_an_entry() {
  const row = text('traces/ten_events.csv').split('\n')[4], it = entry_of(row);
  deepEqual(it, { row, kind: 'submit', unit: 0, arg: '', local: 2, ask: '1', reply: 'stored', word: 0, value: '5',
    served: '',
    from: -1, cause: 'violation', first: 1, count: 1 });
}

export function a_load_says_who_served_it() {
  const { entries } = sound_of(text('traces/ten_events.csv'));
  equal(entries.length, 10);
  const of = ({ served, from, value }) => [served, from, value];
  deepEqual([2, 6].map((at) => of(entries[at])), [['memory', -1, '0'], ['committed', 0, '5']]);
  equal(entries[0].local, 0);
  equal(entries[4].word, -1);
}

// The script has three cancels behind each event; only the second event's of unit 1 is done.
export function refused_steps_are_no_entries() {
  const out = printed('the_ten_events_with_cancels_after_each');
  const { answers, entries, step_of, refused } = played_of(out, 10);
  equal(answers.length, 10);
  deepEqual(entries.map((it) => it.kind), ['assign', 'assign', 'cancel']);
  deepEqual(step_of, [0, 5, 8]);
  deepEqual(refused.map((it) => it.step), [1, 2, 3, 4, 6, 7, 9]);
  deepEqual(refused.map((it) => it.why), ['3', '3', '3', '14', '3', '3', '14']);
}

export function the_summary_behind_a_script_is_no_answer() {
  equal(played_of(printed('a_load_too_early_is_squashed'), 10).answers.at(-1), 'commit,1,,,,committed,,1,,,,,');
}

export function a_moment_has_all_its_rows() {
  const it = shown_of(printed('show_with_all_of_the_first_4_entries'));
  deepEqual(it.tasks, [{ task: 0, unit: 0, entry: '0', turns: 3, state: 'next' }]);
  deepEqual(it.pcs, [{ unit: 0, address: '12' }]);
  deepEqual(it.registers, [{ unit: 0, name: 'x1', value: '5' }, { unit: 0, name: 'x5', value: '1048576' }]);
  deepEqual(it.lines, [{ unit: 0, word: 0, value: '5', bits: 'VS---' }]);
  deepEqual(it.orders, [{ word: 0, holders: [['0', '0']] }]);
  deepEqual(it.memory, [{ word: 0, committed: '0', backing: '0' }, { word: 1, committed: '0', backing: '0' }]);
  deepEqual([it.due, it.guess, it.ending], ['0', '12', ['open', '0']]);
}

export function moves_have_their_refusals() {
  const { moves } = shown_of(printed('show_with_all_of_the_first_4_entries'));
  equal(moves.length, 17);
  deepEqual(moves.filter((it) => it.unit === 0), [
    { unit: 0, kind: 'assign', arg: '12', refusal: '2' }, { unit: 0, kind: 'submit', arg: '1', refusal: '8' },
    { unit: 0, kind: 'replace', arg: '0', refusal: '' }, { unit: 0, kind: 'cancel', arg: '', refusal: '14' },
    { unit: 0, kind: 'commit', arg: '', refusal: '' }]);
}

export function a_spilled_word_and_an_end_are_told() {
  deepEqual(shown_of(printed('show_of_a_spill')).spills, [{ word: 0, value: '5' }]);
  const it = shown_of(printed('show_of_a_trap'));
  deepEqual([it.ending, it.guess, it.tasks], [['trap', '6'], '', []]);
  deepEqual(shown_of(printed('show_with_all_of_the_first_10_entries')).ending, ['exit', '5']);
}

export function lines_of_many_units_are_ordered() {
  const rows = printed('show_with_details_of_a_chain_on_16_units_at_2000'), it = shown_of(rows);
  equal(it.tasks.length, rows.match(/^task,/gm).length);
  equal(it.lines.length, rows.match(/^line,/gm).length);
  const first = /^order,(\d+),(\d+):(\w+)/m.exec(rows);
  deepEqual([it.orders[0].word, ...it.orders[0].holders[0]], [Number(first[1]), first[2], first[3]]);
}

// bar,1,1,12,1,3,violation · mark,3,0,0,store,0,5, · arrow,3,2,violation,0
export function a_picture_has_bars_marks_and_arrows() {
  const it = drawn_of(text('wanted/rows_of_a_load_too_early.csv'));
  deepEqual([it.bars.length, it.marks.length, it.arrows.length], [3, 6, 2]);
  deepEqual(it.bars[0], { task: 1, unit: 1, entry: '12', first: 1, last: 3, fate: 'violation' });
  deepEqual(it.marks[1], { at: 3, unit: 0, task: 0, kind: 'store', word: 0, value: '5', by: '' });
  deepEqual(it.marks[2].word, -1);
  deepEqual(it.arrows, [{ from: 3, to: 2, kind: 'violation', word: 0 }, { from: 3, to: 6, kind: 'version', word: 0 }]);
}

export function an_exploration_has_counts_and_what_is_seen() {
  const it = explored_of(printed('explore_p_on_2_by_63'));
  deepEqual([it.states, it.moves, it.deepest, it.whole, it.seen.length], ['37', '62', '10', 'yes', 15]);
  deepEqual(it.seen[4], { what: 'load', task: '1', word: '0', value: '5', by: 'version:0', steps: '4',
    key: 'load,1,0,5,version:0' });
  deepEqual(it.seen.at(-1), { what: 'squash', task: '2', word: '', value: '1', by: 'guess', steps: '8',
    key: 'squash,2,,1,guess' });
  equal(explored_of(printed('explore_p_of_1_states')).whole, 'no');
}

export function what_a_trace_shows_has_its_entries() {
  const { seen } = explored_of(printed('explore_of_ten_events'));
  equal(seen.find((it) => it.key === 'load,1,0,5,committed').steps, '6');
}

export function a_table_has_a_head_and_rows() {
  const it = table_of(printed('profile_by_task_with_names'));
  deepEqual(it.head, ['task', 'unit', 'entry', 'first', 'last', 'turns', 'loads', 'stores', 'fate', 'name']);
  deepEqual(it.rows[1], ['1', '1', '12', '1', '3', '2', '1', '0', 'violation', 'second']);
  deepEqual(table_of(printed('profile_by_word_of_no_entries')).rows, []);
  const pairs = { head: ['task', 'on', 'distance', 'words'], rows: [['1', '0', '1', '1']] };
  deepEqual(table_of(printed('depend_of_p_by_pair')), pairs);
}

export function a_summary_has_words_an_end_and_counts() {
  const it = summary_of(printed('example_violation_is_run').split('\n').filter(Boolean));
  deepEqual([it.out, it.ending], [['7'], ['exit', '7']]);
  const names = ['tasks', 'kind-assign', 'served-version', 'cut-violation', 'cut-cancel'];
  deepEqual(names.map((name) => it.counts[name]), [2, 4, 1, 1, 0]);
}

export function a_listing_has_names_of_code_and_data() {
  const { code, words } = listing_of(printed('listing_of_two_tasks_with_names'));
  deepEqual(code[0], { address: 0, text: 'lui x5, 256', is_entry: true, name: 'first' });
  deepEqual(code[1], { address: 4, text: 'addi x1, x0, 5', is_entry: false, name: 'first+4' });
  deepEqual(code.filter((it) => it.is_entry).map((it) => [it.address, it.name]), [[0, 'first'], [12, 'second']]);
  equal(code.length, 9);
  deepEqual(words.map((it) => it.name), ['shared', 'shared+4']);
}

export function a_listing_without_names_has_none() {
  const { code, words } = listing_of(printed('listing_of_two_tasks'));
  deepEqual([code.length, code.filter((it) => it.is_entry).length, words.length], [9, 2, 2]);
  deepEqual(new Set([...code, ...words].map((it) => it.name ?? '')), new Set(['']));
}

export function a_listing_of_version_2_has_entries_with_limits() {
  const rows = printed('listing_of_version_2_with_names');
  equal(listing_of(rows).code.filter((it) => it.is_entry).length, rows.match(/^\.svc_entry/gm).length);
}

export function a_fault_has_its_line_and_column() {
  deepEqual(fault_of(printed('assembly_with_an_unknown_register')), { line: 2, column: 14,
    says: 'found `y2`, expected a register' });
  deepEqual(fault_of(printed('assembly_of_no_file')), { line: 0, column: 0, says: 'file fault' });
}
