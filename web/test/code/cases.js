// The cases of svc_cases: what the program is asked, and what it prints and saves, which the gate compares with what it
// does.

import { readFileSync, readdirSync } from 'node:fs';
import { fileURLToPath } from 'node:url';

export const ROOT = fileURLToPath(new URL('../../../', import.meta.url));
export const DATA = `${ROOT}crates/svc_cases/data/`;

// A file of the cases, as text.
export const text = (name) => readFileSync(DATA + name, 'utf8');
export const bytes = (name) => new Uint8Array(readFileSync(DATA + name));

// The records of a CSV text, in which a quoted field may have commas, quotes and line feeds.
function records(csv) {
  const found = [[]];
  for (const [, quoted, bare, end] of csv.matchAll(/(?:"((?:[^"]|"")*)"|([^",\n]*))(,|\n|$)/g)) {
    found.at(-1).push(quoted === undefined ? bare : quoted.replaceAll('""', '"'));
    if (end === '\n') found.push([]);
  }
  return found.filter((it) => it.length > 1);
}

function cases_of(list) {
  const [head, ...rows] = records(text(`cases/${list}`));
  return rows.map((row) => Object.fromEntries(head.map((name, n) => [name, row[n]])));
}

export const CASES = readdirSync(`${DATA}cases`).sort().flatMap(cases_of);

// What the program prints in the case of this name.
export function printed(name) {
  const it = CASES.find((one) => one.name === name);
  if (!it) throw new Error(`there is no case ${name}`);
  return it.out ? text(it.out) : it.err + '\n';
}
