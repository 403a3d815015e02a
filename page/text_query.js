// What a reader looks for in texts, and the part of a text in which they see it, in a worker: the rules of the
// collection's query.py and snippets.py.
//
// Words, "a phrase", -word, -"a phrase", and word* for a beginning. All else separates words.
'use strict';

const MOST_OF_QUERY = 2000;  // characters
const MOST_WORDS = 32;
const LEAST_OF_PREFIX = 3;  // letters
const QUERY_PART = new RegExp(`(-?)"([^"]*)(?:"|$)|(-?)([^${SPACE}"]+)`, 'g');

const MOST_OF_SNIPPET = 160;    // signs
const MOST_SEARCHED = 1 << 18;  // signs of a text
const BEFORE = 40;              // signs before the first word that was found
const MOST_PLACES = 1000;       // that are weighed
const MOST_NEAR = 50;           // places after one that are counted for it
const MOST_WINDOWS = 8;         // terms whose first places are looked at
const MORE = '…';

// Nothing can be looked for: why.
class BadQuery extends Error {}

// The words of a part of a query. A letter that is a word by itself is no beginning of one.
/** @type {(text: string, mayBePrefix: boolean) => Term} */
function termOf(text, mayBePrefix) {
  const words = wordsOf(text), last = words[words.length - 1];
  const isPrefix = mayBePrefix && text.endsWith('*') && words.length > 0 && !IS_ALONE.test(last);
  if (isPrefix && signsIn(last) < LEAST_OF_PREFIX)
    throw new BadQuery(`${last}*: the beginning of a word has ${LEAST_OF_PREFIX} letters or more`);
  return {words, isPrefix};
}

/** @type {(terms: Term[]) => Term[]} */
const eachOnce = (terms) => [...new Map(terms.map((it) => [`${it.isPrefix} ${it.words.join(' ')}`, it])).values()];

// What a text asks for. An open quotation mark ends with it.
/** @type {(text: string) => TextQuery} */
function queryOf(text) {
  if (signsIn(text) > MOST_OF_QUERY) throw new BadQuery(`more than ${MOST_OF_QUERY} characters`);
  const wanted = /** @type {Term[]} */ ([]), without = /** @type {Term[]} */ ([]);
  for (const [, notPhrase, phrase, notWord, word] of text.matchAll(QUERY_PART)) {
    const isPhrase = phrase !== undefined, term = termOf(isPhrase ? phrase : word, !isPhrase);
    if (term.words.length) (notPhrase || notWord ? without : wanted).push(term);
  }
  if (!wanted.length) throw new BadQuery('no word to look for');
  if ([...wanted, ...without].reduce((sum, it) => sum + it.words.length, 0) > MOST_WORDS)
    throw new BadQuery(`more than ${MOST_WORDS} words`);
  return {wanted: eachOnce(wanted), without: eachOnce(without)};
}

// What words are looked for in: those of a title and those of a text, in each of which a phrase is whole.
/** @type {(made: PageText) => string} */
const searchable = ({title, text}) => ` ${wordsOf(title).join(' ')} \n ${wordsOf(text).join(' ')} `;

/** @type {(term: Term) => string} */
const needleOf = ({words, isPrefix}) => ` ${words.join(' ')}${isPrefix ? '' : ' '}`;

// Whether what was made searchable has all that has to be there, and nothing that must not be.
/** @type {(words: string, query: TextQuery) => boolean} */
const hasAll = (words, {wanted, without}) =>
    wanted.every((it) => words.includes(needleOf(it))) && !without.some((it) => words.includes(needleOf(it)));

// Whether a term is at a word of a text.
/** @type {(places: WordPlace[], at: number, term: Term) => boolean} */
function isTermAt(places, at, {words, isPrefix}) {
  return words.every((word, number) => {
    const there = places[at + number]?.word;
    return isPrefix && number === words.length - 1 ? Boolean(there?.startsWith(word)) : there === word;
  });
}

// Where the terms of a query are: the number of the term, and where it begins and ends.
/** @type {(places: WordPlace[], wanted: Term[]) => TermPlace[]} */
function termsIn(places, wanted) {
  /** @type {TermPlace[]} */
  const found = [];
  /** @type {Map<string, number[]>} */
  const byFirst = new Map();
  const isOpen = (/** @type {Term} */ it) => it.isPrefix && it.words.length === 1;
  wanted.forEach((it, number) => {
    if (!isOpen(it)) byFirst.set(it.words[0], [...(byFirst.get(it.words[0]) ?? []), number]);
  });
  const open = wanted.map((_, number) => number).filter((number) => isOpen(wanted[number]));
  for (let at = 0; at < places.length && found.length <= MOST_PLACES; at += 1) {
    for (const number of [...(byFirst.get(places[at].word) ?? []), ...open]) {
      const last = places[at + wanted[number].words.length - 1];
      if (isTermAt(places, at, wanted[number])) found.push({number, begin: places[at].begin, end: last.end});
    }
  }
  return found;
}

// The first of those places that have most terms near them.
/** @type {(found: TermPlace[]) => TermPlace} */
function bestOf(found) {
  let best = found[0], most = 0;
  found.forEach((it, number) => {
    const near = found.slice(number, number + MOST_NEAR).filter(({end}) => end <= it.begin + MOST_OF_SNIPPET - BEFORE);
    const count = new Set(near.map((one) => one.number)).size;
    if (count > most) [best, most] = [it, count];
  });
  return best;
}

// A part of a text, and where the words are in it. It begins and ends between words, so that no letter loses its marks.
/** @type {(text: string, query: TextQuery) => Snippet} */
function snippetOf(text, {wanted}) {
  const parts = windowsIn(text, wanted).map(([begin, end]) => partOf(text, begin, end, wanted));
  if (!parts.length) return partOf(text, 0, Math.min(text.length, MOST_SEARCHED), wanted);
  return parts.reduce((best, it) => (it.count > best.count ? it : best));
}

// The parts of a text around the first place of each term as it is written, where that is soon found: reading the words
// of a whole text takes a hundred times as long.
/** @type {(text: string, wanted: Term[]) => [number, number][]} */
function windowsIn(text, wanted) {
  const front = text.slice(0, MOST_SEARCHED), lower = front.toLowerCase();
  /** @type {Map<string, [number, number]>} */
  const found = new Map();
  if (lower.length !== front.length) return [];
  for (const {words} of wanted.slice(0, MOST_WINDOWS)) {
    const at = lower.indexOf(words.join(' '));
    if (at < 0) continue;
    const before = Math.max(at - BEFORE, 0), begin = before ? lower.lastIndexOf(' ', before - 1) + 1 : 0;
    const end = lower.indexOf(' ', at + MOST_OF_SNIPPET);
    const stop = end < 0 || end > at + 2 * MOST_OF_SNIPPET ? lower.length : end;
    found.set(`${begin} ${stop}`, [begin, Math.min(stop, begin + 4 * MOST_OF_SNIPPET)]);
  }
  return [...found.values()].sort(([one, end], [other, stop]) => one - other || end - stop);
}

// A part of a text between two places, how many terms are in it, and where they are.
/** @type {(text: string, start: number, stop: number, wanted: Term[]) => Snippet} */
function partOf(text, start, stop, wanted) {
  const places =
      placesOf(text.slice(start, stop)).map(({word, begin, end}) => ({word, begin: begin + start, end: end + start}));
  if (!places.length) return {count: 0, text: whole(text, 0, MOST_OF_SNIPPET), marks: []};
  const found = termsIn(places, wanted), first = found.length ? bestOf(found).begin : start;
  const near = first - BEFORE;
  let inside = places.filter((it) => it.begin >= near && it.end <= near + MOST_OF_SNIPPET);
  if (!inside.length) inside = places.filter(({begin}) => begin >= first).slice(0, 1);
  const last = inside[inside.length - 1], begin = start === 0 && inside[0] === places[0] ? 0 : inside[0].begin;
  const isEnd = last === places[places.length - 1] && text.length - begin <= MOST_OF_SNIPPET;
  const end = Math.min(isEnd ? text.length : last.end, begin + 4 * MOST_OF_SNIPPET);
  const before = begin ? `${MORE} ` : '', shift = before.length - begin;
  const seen = found.filter((it) => begin <= it.begin && it.end <= end);
  const shown = before + whole(text, begin, end) + (end < text.length ? ` ${MORE}` : '');
  const marks = apart(seen.map((it) => [it.begin + shift, it.end + shift]));
  return {count: new Set(found.map((it) => it.number)).size, text: shown, marks: marks.map((it) => inSigns(shown, it))};
}

// A part of a text that ends between characters.
/** @type {(text: string, begin: number, end: number) => string} */
const whole = (text, begin, end) => text.slice(begin, text.codePointAt(end - 1) > 0xffff ? end - 1 : end);

// A mark by the characters of a text, which may be two units each.
/** @type {(text: string, mark: [number, number]) => [number, number]} */
const inSigns = (text, [begin, end]) => [signsIn(text.slice(0, begin)), signsIn(text.slice(0, end))];

// Marks that don't overlap, in order.
/** @type {(marks: [number, number][]) => [number, number][]} */
function apart(marks) {
  /** @type {[number, number][]} */
  const made = [];
  for (const [begin, end] of marks.sort(([one, end], [other, stop]) => one - other || end - stop)) {
    const last = made[made.length - 1];
    if (last && begin < last[1])
      last[1] = Math.max(last[1], end);
    else
      made.push([begin, end]);
  }
  return made;
}
