// The page as it is put together, without its module: one file that parses, whose places and texts are all there.

import { deepEqual, equal, ok } from 'node:assert/strict';
import { execFileSync } from 'node:child_process';
import { readFileSync, readdirSync } from 'node:fs';
import { Script } from 'node:vm';
import { TEXTS } from '../../texts.js';
import { BUTTONS, CHOSEN } from '../../wires.js';
import { ROOT } from './cases.js';

// The rule of docs/page.md: only these touch the document.
const DOCUMENT = ['acts.js', 'document.js', 'draw.js', 'page.js', 'shown.js', 'wires.js'];
const WEB = `${ROOT}web/`, read = (name) => readFileSync(WEB + name, 'utf8');
const MODULES = readdirSync(WEB).filter((it) => it.endsWith('.js'));
const HOW = { encoding: 'utf8', maxBuffer: 1 << 26 };
const built = () => execFileSync('/usr/bin/python3', [`${WEB}build_page.py`, '/dev/null'], HOW);
const all = (text, pattern) => [...text.matchAll(pattern)].map((it) => it[1]);

export function the_page_is_one_file_whose_script_parses() {
  const page = built(), script = /<script>(.*)<\/script>/s.exec(page)[1];
  new Script(script);
  deepEqual(all(script, /^\s*((?:import|export)\b.*)$/gm), []);
  deepEqual(all(page, /(\/\*(?:STYLE|SCRIPT|PROGRAMS|WORKER|MODULE)\*\/)/g), []);
  ok(!/(?:src|href)="(?!data:|#)/.test(page.slice(0, page.indexOf('<script>'))), 'nothing is loaded from elsewhere');
}

export function each_module_is_in_the_page() {
  const page = built();
  deepEqual(MODULES.filter((it) => it !== 'worker.js' && !page.includes(`const $${it.slice(0, -3)} = (() =>`)), []);
}

// What each program of the menu is: the texts of the cases, or of the lessons.
export function the_programs_of_the_menu_are_there() {
  const literal = /^begin\((\[.*\]), "/m.exec(built())[1];
  const programs = JSON.parse(literal.replaceAll('<\\/', '</').replaceAll('<\\!--', '<!--'));
  equal(programs.length, 12);
  deepEqual(programs.filter((it) => !TEXTS.lessons[it.lesson]), []);
  equal(programs[0].text, readFileSync(`${ROOT}crates/svc_cases/data/examples/violation.s`, 'utf8'));
  ok(programs.every((it) => it.text.includes('.svc_entry') && it.config.units >= 1 && TEXTS.orders[it.by.order]));
}

export function every_place_has_its_text() {
  const page = read('index.html');
  for (const kind of ['text', 'label', 'tip']) {
    const named = all(page, new RegExp(`data-${kind}="(\\w+)"`, 'g'));
    deepEqual(named.filter((it) => typeof TEXTS[it] !== 'string'), [], kind);
  }
}

export function every_text_that_is_used_is_there() {
  const missing = MODULES.flatMap((it) => all(read(it), /\bTEXTS\.(\w+)/g)).filter((it) => TEXTS[it] === undefined);
  const says = all(read('say.js'), /\bSAYS\.(\w+)/g).filter((it) => TEXTS.says[it] === undefined);
  const asks = all(read('say.js'), /\basks\.(\w+)/g).filter((it) => TEXTS.asks[it] === undefined);
  deepEqual([missing, says, asks], [[], [], []]);
}

export function every_text_that_is_there_is_used() {
  const others = MODULES.filter((it) => it !== 'texts.js').map(read), own = read('texts.js').match(/TEXTS\.\w+/g);
  const code = [...others, read('index.html'), ...own].join(' ');
  const is_used = (it) => new RegExp(`(TEXTS\\.|data-(text|label|tip)=")${it}\\b`).test(code);
  deepEqual(Object.keys(TEXTS).filter((it) => !is_used(it)), []);
}

// A place is in the document, or in what a module lays out.
export function every_place_that_is_drawn_is_there() {
  const there = new Set([...MODULES.map(read), read('index.html')].flatMap((it) => all(it, /\bid="([\w-]+)"/g)));
  const used = DOCUMENT.flatMap((it) => all(read(it), /\$\('([\w-]+)'\)/g));
  const wired = [...Object.keys(BUTTONS), ...Object.keys(CHOSEN)];
  deepEqual([...used, ...wired].filter((it) => !there.has(it)), []);
  const named = all(read('index.html'), /(?:for|aria-controls|aria-labelledby|aria-describedby)="([\w-]+)"/g);
  deepEqual(named.filter((it) => !there.has(it)), []);
}

export function the_rest_touches_no_document() {
  const code = (it) => read(it).replace(/^\s*\/\/.*$/gm, '').replace(/`[^`]*`|'[^']*'/g, '');
  const touching = MODULES.filter((it) => /\b(document|window|location)\b/.test(code(it)));
  deepEqual(touching.sort(), DOCUMENT);
}
