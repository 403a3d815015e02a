// What the numbers of faults, findings and reasons mean, in the words of docs/NUMBERS.md: NUMBERS has the name, the
// meaning and the advice of each.
'use strict';

/** @param {string} report */
const numberOf = (report) => /^[A-Z]\d+/.exec(report)?.[0] ?? '';

const DATE_FORMS = 'A date is written YYYY, YYYY-MM, YYYY-MM-DD, YYYY-MM-DDThh:mmZ, YYYY-MM-DDThh:mm:ssZ or ' +
    'YYYY-MM-DDThh:mm:ss.fZ, in UTC.';

// What is said of packages: browser-based crawlers write them, often of sites that need scripts.
const SCRIPTED =
    'Pages that are built by scripts show blank here, since nothing that is archived runs. That is no damage.';

const ANOTHER = 'Choose another capture of this URI.';
const SPELLINGS = 'Look for it in another spelling: with http or https, with or without www. or a slash at its end.';

/**
 * What a reason means to a reader, and what they can do. Of what NUMBERS says, operators can make use.
 * @type {Record<string, [string, string]>}
 */
const FOR_READERS = {
  P1: ['Nothing was captured of this URI.', SPELLINGS],
  P2: ['This URI was captured only later.', 'Choose one of its captures, or a later date.'],
  P3: ['This capture names another one, in a way that isn’t known.', ANOTHER],
  P4: ['This capture has no page of its own, and the one that has it isn’t there.', ANOTHER],
  P5: ['This capture names another one that has its page, and that isn’t there.', ANOTHER],
  P6: ['This capture names others, which name it again: none of them has the page.', ANOTHER],
  P7: ['This capture was stored in parts, which don’t fit together.', ANOTHER],
  P8: ['What was stored of this capture isn’t what was captured: it was changed or damaged.', ANOTHER],
  P9: ['What was stored of this capture isn’t the answer of a web server.', ANOTHER],
  'bad date': ['What was given isn’t a date.', DATE_FORMS],
};

/**
 * The name, the meaning and the advice of what the library reports.
 * @param {string} report
 */
function inWords(report) {
  const [name, ...sentences] = NUMBERS[numberOf(report)] ?? ['', '', ''];
  return [name, ...sentences.map((it) => it.replace(/'/g, '’'))];
}

/**
 * Why there is no body, and what a reader can do; and in details, which are folded, what an operator needs.
 * @param {string} reason
 * @param {{can?: string, more?: Node[], details?: Node[]}} words what to do in the place of what is said of the reason,
 *     and what else is shown
 */
function reasonNote(reason, {can = '', more = [], details = []} = {}) {
  const [, meaning = '', advice = ''] = inWords(reason),
                                  [what, ...does] = FOR_READERS[numberOf(reason) || reason] ?? [reason];
  const about = [meaning, advice].filter((it) => it).map((it) => make('p', {}, ...prose(it)));
  const title = make('summary', {}, numberOf(reason) ? `Details: ${plainly(reason)}` : 'Details');
  const folded = about.length || details.length ? [make('details', {}, title, ...about, ...details)] : [];
  const why = make('p', {}, make('b', {}, plainly(what)), ` ${can || does.join('')}`);
  return make('div', {className: 'note reason'}, why, ...more, ...folded);
}

/**
 * A text with code between backquotes, as nodes.
 * @param {string} text
 */
const prose = (text) => text.split('`').map((part, number) => (number % 2 ? make('code', {}, part) : part));

/**
 * A text with code between backquotes, as a plain text.
 * @param {string} text
 */
const plain = (text) => text.replace(/`/g, '');

/** @type {(count: number, one: string, more?: string) => string} */
const many = (count, one, more = `${one}s`) => `${count.toLocaleString('en')} ${count === 1 ? one : more}`;
