// Names of addresses and words as the listing has them, and numbers where there is none.

import { escaped, hexadecimal } from './html.js';
import { TEXTS } from './texts.js';

const named = (list, at) => (list[at]?.name ? list[at].name : null);
// An address stands in the listing once, so a list by address is made of it once for each image.
const by_address = new WeakMap();

function name_of(session, address) {
  const { listing } = session;
  if (!by_address.has(listing)) by_address.set(listing, new Map(listing.map((it) => [it.address, it.name])));
  return by_address.get(listing).get(Number(address)) || null;
}

export const entry_text = (session, address) => name_of(session, address) ?? hexadecimal(address);
export const word_text = (session, word) => named(session.words, word) ?? TEXTS.word(word);
export const has_name = (session, word) => named(session.words, word) !== null;
export const entry_html = (session, address) => `<code>${escaped(entry_text(session, address))}</code>`;
export const word_html = (session, word) => `<code>${escaped(word_text(session, word))}</code>`;
// Short, for the lanes.
export const word_mark = (session, word) => named(session.words, word) ?? `w${word}`;
