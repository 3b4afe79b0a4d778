// Tests the page's own code under node, over rows that the cases have recorded: run.js
//
// Each function that a file test_*.js exports is a test. The last line is 'N passed, M failed'.

import { execFileSync } from 'node:child_process';
import { readdirSync } from 'node:fs';
import { ROOT } from './cases.js';

// These begin something where they are loaded, so they are only parsed: the worker has a test of its own, and main.js
// is one call.
const BEGIN = ['main.js', 'worker.js'];
let passed = 0, failed = 0;

async function tried(name, test) {
  try {
    await test();
    passed++;
  } catch (why) {
    failed++;
    console.log(`${name}: ${why.stack ?? why}`);
  }
}

const scripts = (folder) => readdirSync(folder).filter((it) => it.endsWith('.js')).sort();

for (const it of scripts(`${ROOT}web`)) {
  const file = `${ROOT}web/${it}`;
  await tried(`${it} loads`, () =>
    (BEGIN.includes(it) ? execFileSync(process.execPath, ['--check', file], { stdio: 'pipe' }) : import(file)));
}
for (const it of scripts(`${ROOT}web/test/code`).filter((one) => one.startsWith('test_'))) {
  await tried(`${it} loads`, async () => {
    for (const [name, test] of Object.entries(await import(`./${it}`))) await tried(`${it}: ${name}`, test);
  });
}
console.log(`${passed} passed, ${failed} failed`);
process.exitCode = failed ? 1 : 0;
