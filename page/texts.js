// The search of the list in texts: the worker reads them, keeps them, and finds words in them. Here is how far it is,
// what it found, and why a capture has no text. What a hit opens is what any line of the list opens.
'use strict';

const AT_ONCE_READ = 32;     // captures whose texts are asked for together
const TOLD_AFTER = 1000;     // milliseconds between two numbers that a reader hears
const WIDTH_OF_TEXT = 1560;  // pixels that a title and a part of a text take on one line, mostly
const MOST_TEXT_LINES = 7;   // of one in the list
const TEXT_LINE = 18;        // pixels
const MOST_PRINTED = 200;    // hits
const BELOW_TEXT = 6;        // pixels
/** @type {Record<string, string>} */
const WHY_NO_TEXT = {
  'no text': 'not a page or a plain text, or not of a status from 200 to 299',
  'coded': 'its codings can’t be undone',
  'empty': 'a page without words',
  'too long': 'a body of more than 32 MB',
  'too slow': 'reading it took more than 20 seconds',
  'too much': 'reading it failed',
};

// What is known of the texts of an archive's captures.
class TextSearch {
  constructor() {
    this.isOn = false;    // whether the list is searched in texts
    this.state = 'none';  // then 'reading', 'stopped', 'full', 'done' or 'failed'
    this.failure = '';    // why
    this.words = '';      // what the list shows of these words
    this.wrong = '';      // why nothing can be looked for
    /** @type {string[]} */
    this.missing = [];  // words that no text has
    /** @type {Set<number>|null} */
    this.hits = null;  // the captures that have the words; null if all are shown
    this.turn = 0;     // of searches
    /** @type {number[]|null} */
    this.captures = null;  // positions
    this.next = 0;
    this.read = 0;
    /** @type {Map<string, Set<number>>} */
    this.without = new Map();  // the captures that have no text, by the reasons
    this.told = 0;             // when
    this.forget();
  }

  // Forgets what is shown of captures.
  forget() {
    /** @type {Map<number, FoundText>} */
    this.parts = new Map();
    /** @type {Set<number>} */
    this.asked = new Set();
  }

  get count() {
    return [...this.without.values()].reduce((left, some) => left - some.size, this.read);
  }

  /** @param {TextsRead} found */
  take({outcomes, hits, isFull}) {
    for (const {position, why} of outcomes) {
      this.read += 1;
      if (!why) continue;
      if (!this.without.has(why)) this.without.set(why, new Set());
      this.without.get(why).add(position);
    }
    if (this.hits && !this.wrong) hits.forEach((position) => this.hits.add(position));
    if (isFull) this.state = 'full';
  }

  /** @param {number} position */
  whyNone(position) {
    return [...this.without].find(([, some]) => some.has(position))?.[0] ?? '';
  }
}

// Whether the lines of the list have parts of texts.
const showsTexts = () => room.texts.hits !== null;

// How many lines of the list's width a text has there.
const textLines = () => Math.min(MOST_TEXT_LINES, Math.ceil(WIDTH_OF_TEXT / Math.max(1, body().clientWidth)));

/**
 * What a reason means why a capture has no text.
 * @param {string} why
 */
const noTextInWords = (why) => WHY_NO_TEXT[why] ?? `${inWords(why)[0]}: ${plain(inWords(why)[1])}`;

/**
 * Where what is read of a capture is in the file.
 * @param {number} position
 * @returns {TextPlace}
 */
function textPlace(position) {
  const {offset, blockStart, blockLength} = room.rows.row(position);
  return {position, offset, blockStart, blockLength};
}

/**
 * What the worker answers of texts.
 * @param {{read?: TextPlace[], find?: string, parts?: number[]}} texts
 */
const askOfTexts = async (texts) => (await room.library.post({texts}))[0];

// Reads the texts of the captures that aren't read, until it is stopped, or another archive is opened.
async function readTexts() {
  const it = room.texts;
  if (!it.isOn || !room.listed || !room.holds || !['none', 'stopped'].includes(it.state)) return;
  it.captures ??= Array.from({length: room.rows.count}, (_, position) => position)
                      .filter((position) => isCapture(room.rows.row(position)));
  it.state = 'reading';
  tellTexts();
  try {
    while (it.state === 'reading' && it.next < it.captures.length) {
      const places = it.captures.slice(it.next, it.next + AT_ONCE_READ).map(textPlace);
      it.next += places.length;
      const found = await askOfTexts({read: places});
      if (it !== room.texts) return;
      it.take(found);
      if (performance.now() - it.told > TOLD_AFTER) tellTexts();
    }
    if (it.state === 'reading') it.state = 'done';
  } catch (error) {
    Object.assign(it, {state: 'failed', failure: whyOf(error)});
  }
  if (it !== room.texts) return;
  tellTexts();
  if (it.hits?.size === 0) findTexts();  // which words no text has
}

// How far reading is, in words.
function textsInWords() {
  const {state, read, count, captures, failure} = room.texts, all = many(captures?.length ?? 0, 'capture');
  const some = `${read.toLocaleString('en')} of ${all}`, have = count === 1 ? 'has' : 'have';
  if (!room.listed) return 'Texts are read once the archive is listed.';
  if (!room.holds) return `${notReplayed()} Its texts aren’t read.`;
  if (state === 'reading') return `Reading texts: ${some}`;
  if (state === 'stopped') return `Stopped: texts of ${some} are read`;
  if (state === 'full') return `This page keeps no more than 256 MB of texts: those of ${some}`;
  if (state === 'failed') return `The texts can’t be read: ${plainly(failure)}`;
  return `${count.toLocaleString('en')} of ${all} ${have} a text`;
}

/**
 * A reason why captures have no text, as a button that shows these.
 * @param {[string, Set<number>]} reason
 */
function whyItem([why, {size: count}]) {
  const show = () => {
    room.words = byId('words').value = '';
    toggle('text', why, why);
    findTexts();
  };
  const words = noTextInWords(why), name = `Show ${many(count, 'capture')} without a text: ${words}`;
  return make('li', {}, button('link', show, {'aria-label': name}, count.toLocaleString('en')), ` ${words}`);
}

// Says how far reading is, and shows hits that came meanwhile.
function tellTexts() {
  const it = room.texts, {state, without} = it, isMoving = state === 'reading' || state === 'stopped';
  it.told = performance.now();
  byId('reading').hidden = !it.isOn;
  byId('of-texts').textContent = textsInWords();
  if (!isMoving && document.activeElement === byId('stop-texts')) byId('words').focus();
  byId('stop-texts').hidden = !isMoving;
  byId('stop-texts').textContent = state === 'stopped' ? 'Go on reading' : 'Stop reading';
  const count = [...without.values()].reduce((sum, some) => sum + some.size, 0);
  byId('without-texts').hidden = !count || isMoving;
  byId('of-without').textContent = `${many(count, 'capture has', 'captures have')} none: why`;
  byId('whys').replaceChildren(...[...without].sort(([, one], [, other]) => other.size - one.size).map(whyItem));
  if (it.hits) filter();
}

// Stops reading, or goes on.
function stopTexts() {
  const it = room.texts;
  if (it.state === 'reading') {
    it.state = 'stopped';
    tellTexts();
  } else
    readTexts();
}

// Looks for the words in texts. Hits of before are shown until the new ones are there.
async function findTexts() {
  const it = room.texts, words = room.words, turn = it.turn += 1, isAsked = it.isOn && words.trim() !== '';
  /** @type {TextsFound} */
  const found = isAsked && room.holds ?
      await askOfTexts({find: words}).catch((error) => ({hits: [], missing: [], why: whyOf(error)})) :
      {hits: [], missing: [], why: isAsked ? notReplayed().replace(/\.$/, '') : ''};
  if (it !== room.texts || turn !== it.turn) return;
  const hits = isAsked ? new Set(found.hits) : null;
  Object.assign(it, {hits, words, wrong: found.why, missing: found.missing});
  it.forget();
  filter();
  if (it.hits) askForParts(room.order.slice(0, MOST_PRINTED));
}

/**
 * Searches the list in texts, or in targets and ids.
 * @param {boolean} isOn
 */
function searchInTexts(isOn) {
  room.texts.isOn = isOn;
  byId(isOn ? 'in-texts' : 'in-records').checked = true;
  byId('of-words').textContent = isOn ? 'Search texts for words' : 'Search targets and ids';
  tellTexts();
  findTexts();
  readTexts();
}

// ---------------------------------------------------------------- what the list shows

/**
 * The title of a capture's text, and the part of it that has the words; on a narrow screen also the date, for which the
 * list has no column there.
 * @param {number} position
 */
function textCell(position) {
  const found = room.texts.parts.get(position), {date} = room.rows.row(position);
  const properties = {className: 'found', role: 'gridcell', style: {'--lines': String(textLines())}};
  if (!found) return make('span', properties, '…');
  const when = make('span', {className: 'when'}, plainly(date));
  const title = found.title ? make('b', {}, make('bdi', {}, plainly(found.title))) : '';
  const mark = damageMark().flatMap((it) => [it, ' ']);
  const part = make('bdi', {}, ...markedText(found.snippet, found.marks));
  return make('span', properties, when, ...mark, title, make('span', {className: 'part'}, part));
}

/**
 * Asks for what is shown of captures, as far as it isn't there.
 * @param {number[]} positions
 */
async function askForParts(positions) {
  const it = room.texts, {turn} = it, lacking = positions.filter((position) => !it.asked.has(position));
  if (!lacking.length) return;
  lacking.forEach((position) => it.asked.add(position));
  /** @type {FoundText[]} */
  const found = await askOfTexts({parts: lacking}).catch(() => []);
  if (it !== room.texts || turn !== it.turn) return;
  found.forEach((part) => it.parts.set(part.position, part));
  drawRows();
}

// Why no line of the list has the words.
function noTextFound() {
  const {missing, state} = room.texts;
  if (state === 'reading') return 'No text has these words so far.';
  return `No text has these words.${missing.length ? ` No text has: ${missing.map(plainly).join(', ')}.` : ''}`;
}

/**
 * What the facts of a capture say of its text.
 * @param {number} position
 * @returns {[string, string][]}
 */
function textFacts(position) {
  const why = room.texts.whyNone(position);
  return why ? [['No text', noTextInWords(why)]] : [];
}

/**
 * A hit as it is printed.
 * @param {number} position
 */
function printedHit(position) {
  const {date, target} = room.rows.row(position), found = room.texts.parts.get(position);
  const title = found?.title ? make('b', {}, make('bdi', {}, plainly(found.title))) : '';
  const part = make('bdi', {}, ...(found ? markedText(found.snippet, found.marks) : []));
  const where = make('div', {}, `Record ${position}, ${plainly(date)}, `, make('bdi', {}, seen(target)));
  return make('li', {}, title, where, make('div', {}, part));
}

// Fills what is printed of the hits: on the screen the list has no more than the lines that are seen.
function fillPrinted() {
  const positions = showsTexts() ? room.order.slice(0, MOST_PRINTED) : [];
  const words = `Captures with ${plainly(room.texts.words)}: ${byId('shown').textContent}`;
  const list = make('ol', {}, ...positions.map(printedHit)), more = room.order?.length > positions.length ? '…' : '';
  byId('printed').replaceChildren(...(positions.length ? [make('h2', {}, words), list, more] : []));
}

// Draws texts again whose lines are higher or lower in a list of another width, as beside a record.
function fitTexts() {
  if (!showsTexts()) return;
  const place = room.order.indexOf(room.current);
  drawRows();
  if (place >= 0) bringIntoView(place);
}

// What a reader does with it.
function hearTexts() {
  new ResizeObserver(fitTexts).observe(body());
  addEventListener('beforeprint', fillPrinted);
  for (const id of ['in-records', 'in-texts'])
    byId(id).addEventListener('change', () => searchInTexts(byId('in-texts').checked));
  byId('stop-texts').addEventListener('click', stopTexts);
}
