// Words of a text, in the one spelling in which they are compared, in a worker: the rules of the collection's words.py.
// Both are held to the same cases, tests/unit/search_words.json.
//
// A word is in lower case and without accents; Russian ё is е, and й stays. A letter of a script that is written
// without spaces is a word by itself.
'use strict';

const MOST_OF_WORD = 64;  // signs; a longer one is left out
// What Unicode doesn't take apart, and is read as other letters.
const OTHERS = new Map([['ø', 'o'], ['đ', 'd'], ['ł', 'l'], ['ı', 'i'], ['æ', 'ae'], ['œ', 'oe'], ['ς', 'σ']]);
// Signs without a width, which are no part of a word: a soft hyphen, joiners, marks of the order of bytes and variants.
const NO_PART = /[\u00ad\u200d\u2060\ufeff\ufe00-\ufe0f\u{e0100}-\u{e01ef}]/u;
const ACCENTS = /[\u0300-\u036f]/g;
const SIGN = /[\p{L}\p{M}\p{N}\p{Co}]/u;
const SHORT_I = 'й';
// Letters whose small form was added to Unicode after the capital one: the capital one counts.
const CHEROKEE = /[\u13f8-\u13fd\uab70-\uabbf]/;
// Han, kana, Thai, Lao, Khmer and Burmese letters, and the marks that follow them.
const LETTERS = '\\u2e80-\\u2fdf\\u3005-\\u3007\\u3021-\\u3029\\u3031-\\u3035\\u3038-\\u303c\\u3041-\\u3096' +
    '\\u309b-\\u309f\\u30a1-\\u30fa\\u30fc-\\u30ff\\u31f0-\\u31ff\\u3400-\\u4dbf\\u4e00-\\u9fff\\uf900-\\ufaff' +
    '\\uff66-\\uff9d\\u{1b000}-\\u{1b16f}\\u{20000}-\\u{3ffff}\\u0e01-\\u0e30\\u0e32\\u0e33\\u0e40-\\u0e46' +
    '\\u0e81-\\u0eb0\\u0eb2\\u0eb3\\u0ebd-\\u0ec6\\u0edc-\\u0edf\\u1780-\\u17b3\\u17d7\\u17dc\\u1000-\\u102a\\u103f' +
    '\\u1050-\\u1055\\u105a-\\u105d\\u1061\\u1065\\u1066\\u106e-\\u1070\\u1075-\\u1081\\u108e\\ua9e0-\\ua9ef' +
    '\\ua9fa-\\ua9fe\\uaa60-\\uaa7a\\uaa7e\\uaa7f';
const LETTER_MARKS = '\\u3099\\u309a\\uff9e\\uff9f\\u302a-\\u302f\\u0e31\\u0e34-\\u0e3a\\u0e47-\\u0e4e\\u0eb1' +
    '\\u0eb4-\\u0ebc\\u0ec8-\\u0ece\\u17b4-\\u17d3\\u17dd\\u102b-\\u103e\\u1056-\\u1059\\u105e-\\u1060' +
    '\\u1062-\\u1064\\u1067-\\u106d\\u1071-\\u1074\\u1082-\\u108d\\u108f\\u109a-\\u109d\\ua9e5\\uaa7b-\\uaa7d';
const ALONE = new RegExp(`[${LETTERS}][${LETTER_MARKS}]*`, 'gu');
const MAY_BE_ALONE = /[\u0e01-\u109f\u1780-\u17ff\u2e80-\uffff]/;  // quick to find, with half a sign beyond them
const IS_ALONE = new RegExp(`^${ALONE.source}$`, 'u');
const IS_ASCII = /^[\x00-\x7f]*$/;
const ASCII_WORD = /[a-z0-9]+/g;
const NOT_IN_ASCII_WORD = /[^a-z0-9]/g;
const BEYOND_ASCII = /[^\x00-\x7f]+/g;
const RUN = new RegExp(`[^${SPACE}]+`, 'g');
const IS_ONE_WORD = /^[\p{L}\p{N}]+$/u;

/** @type {Map<string, string>} */
const SPELLINGS = new Map();

// The signs of words that a character is, or a space in the place of any other one. Each is made when it is met.
/** @type {(character: string) => string} */
function spelling(character) {
  let made = SPELLINGS.get(character);
  if (made === undefined) {
    made = [...spelled(character)].map((it) => (SIGN.test(it) ? it : ' ')).join('');
    SPELLINGS.set(character, made);
  }
  return made;
}

// A character without accents, in lower case.
/** @type {(character: string) => string} */
function spelled(character) {
  if (NO_PART.test(character)) return '';
  if (character === SHORT_I || character === SHORT_I.toUpperCase()) return SHORT_I;
  return [...bare(inLowerCase(bare(character))).normalize('NFC')].map((it) => OTHERS.get(it) ?? it).join('');
}

// A text taken apart, without accents.
/** @type {(text: string) => string} */
const bare = (text) => text.normalize('NFKD').replace(ACCENTS, '');

// A text in the case in which texts are compared, as Unicode folds it: `ß` is `ss`, and the last sigma is as others.
/** @type {(text: string) => string} */
function inLowerCase(text) {
  const lower = [...text].map((it) => it.toLowerCase().toUpperCase().toLowerCase()).join('');
  return CHEROKEE.test(lower) ? lower.toUpperCase() : lower;
}

// A text in that spelling: words, and spaces between them.
/** @type {(text: string) => string} */
function folded(text) {
  if (IS_ASCII.test(text)) return text.toLowerCase().replace(NOT_IN_ASCII_WORD, ' ');
  const parts = [], whole = text.normalize('NFC');
  let at = 0;
  for (const {0: beyond, index} of whole.matchAll(BEYOND_ASCII)) {
    parts.push(whole.slice(at, index).toLowerCase().replace(NOT_IN_ASCII_WORD, ' '));
    for (const character of beyond) parts.push(spelling(character));
    at = index + beyond.length;
  }
  parts.push(whole.slice(at).toLowerCase().replace(NOT_IN_ASCII_WORD, ' '));
  const made = parts.join('').normalize('NFC');
  return MAY_BE_ALONE.test(made) ? made.replace(ALONE, ' $& ') : made;
}

// How many signs a text has.
/** @type {(text: string) => number} */
const signsIn = (text) => [...text].length;

/** @type {(word: string) => boolean} */
const isShort = (word) =>
    word.length <= MOST_OF_WORD || (word.length <= 2 * MOST_OF_WORD && signsIn(word) <= MOST_OF_WORD);

// The words of a text, in their order.
/** @type {(text: string) => string[]} */
const wordsOf = (text) => folded(text).split(' ').filter((word) => word && isShort(word));

// The words of a text, each with the place in it. The text is in composed form.
/** @type {(text: string) => WordPlace[]} */
function placesOf(text) {
  /** @type {WordPlace[]} */
  const places = [];
  for (const {0: run, index} of text.matchAll(RUN)) {
    if (IS_ASCII.test(run)) {
      for (const {0: word, index: at} of run.toLowerCase().matchAll(ASCII_WORD))
        if (word.length <= MOST_OF_WORD) places.push({word, begin: index + at, end: index + at + word.length});
      continue;
    }
    const made = wordsOf(run);
    if (made.length === 1 && IS_ONE_WORD.test(run))
      places.push({word: made[0], begin: index, end: index + run.length});
    else if (made.length)
      for (const it of placesIn(run, index)) places.push(it);
  }
  return places;
}

// The words of a part of a text without spaces, with their places.
/** @type {(run: string, begin: number) => WordPlace[]} */
function placesIn(run, begin) {
  /** @type {number[]} */
  const begins = [], ends = [];  // of each folded sign the place of what it is made of
  let whole = '', at = begin;
  for (const character of run) {
    const made = spelling(character), end = at + character.length;
    for (let unit = 0; unit < made.length; unit += 1) {
      begins.push(at);
      ends.push(end);
    }
    whole += made;
    at = end;
  }
  /** @type {WordPlace[]} */
  const places = [];
  for (const {0: part, index} of whole.matchAll(/[^ ]+/g))
    for (const {word, begin: first, end: last} of within(part))
      places.push({word, begin: begins[index + first], end: ends[index + last - 1]});
  return places;
}

// The words of a run of signs: letters that are words by themselves, and what is between them.
/** @type {(run: string) => WordPlace[]} */
function within(run) {
  /** @type {WordPlace[]} */
  const words = [];
  let at = 0;
  for (const {0: letter, index} of run.matchAll(ALONE)) {
    if (index > at) words.push({word: run.slice(at, index), begin: at, end: index});
    at = index + letter.length;
    words.push({word: letter.normalize('NFC'), begin: index, end: at});
  }
  if (at < run.length) words.push({word: run.slice(at), begin: at, end: run.length});
  return words;
}
