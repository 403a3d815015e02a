// The texts of an archive's captures, in its worker: read as the page asks for them, kept, and searched. They are a
// finding aid: no text changes what the library answers, and what a hit opens is that answer.
//
// A helper reads each body, since a page may be made so that this takes long: it is ended after some seconds, and the
// capture has no text.
'use strict';

const MOST_KEPT = 256 * MEGABYTE;    // bytes of texts and of their words
const MOST_OF_BODY = 32 * MEGABYTE;  // bytes, decoded
const MOST_OF_HTTP_HEAD = 65536;     // bytes that the library looks at
const SECONDS_A_BODY = 20;
const SEARCH_TURN = 50;     // milliseconds of searching between two rests
const MOST_ALIKE = 8;       // texts of the same length and beginning that a new one is compared with
const OF_TEXT_NUMBER = 64;  // characters by which these are known
const BEYOND_LATIN = /[^\0-\xff]/;
const CODED = 'P10';
// Why a capture has no text, beside the reasons of the library: the words of the collection's page_texts.py.
const NO_TEXT = 'no text', EMPTY = 'empty', TOO_LONG_BODY = 'too long', TOO_SLOW = 'too slow', ENDED = 'too much',
      NOT_DECODED = 'coded', CLOSED_ARCHIVE = 'another archive is open';

/** @type {(media: string) => boolean} */
const isOfWords = (media) => isHtml(media) || media === 'text/plain';

// The text of a body and what it is searched by, in a helper; or why there is none.
/** @type {(task: TextTask) => Promise<ReadText>} */
async function textOfBody({body: stored, type, http}) {
  let body = stored;
  try {
    if (http) body = (await decoded(stored, httpHead(http, stored), MOST_OF_BODY)).body;
  } catch (error) {
    return {none: error instanceof RangeError ? TOO_LONG_BODY : NOT_DECODED};
  }
  const media = mediaOf(type, body, '');
  if (!isOfWords(media)) return {none: NO_TEXT};
  const text = textOf(body, type, MOST_OF_BODY), made = isHtml(media) ? scanned(text) : plainText(text);
  return made.text || made.title ? {made, words: searchable(made)} : {none: EMPTY};
}

// How many bytes a text takes in memory.
/** @type {(text: string) => number} */
const bytesOfText = (text) => text.length * (BEYOND_LATIN.test(text) ? 2 : 1);

// The texts of one archive.
class Texts {
  /**
   * @param {Desk} desk
   * @param {Archive} archive
   */
  constructor(desk, archive) {
    this.desk = desk;
    this.archive = archive;
    this.helpers = archive.newHelpers();
    /** @type {(PageText & {words: string})[]} */
    this.all = [];
    /** @type {Map<string, number[]>} */
    this.alike = new Map();  // the numbers of texts by their length and beginning
    /** @type {Map<number, {number?: number, why: string}>} */
    this.ofRecord = new Map();  // what a record gives, by its position
    /** @type {Map<number, number>} */
    this.ofCapture = new Map();  // the number of the text that a capture has
    /** @type {Map<number, number[]>} */
    this.waiting = new Map();  // captures that give a record which isn't read yet, by its position
    this.kept = 0;             // bytes
    /** @type {TextQuery|null} */
    this.query = null;
    /** @type {boolean[]} */
    this.has = [];  // whether a text has what is looked for
    this.turn = 0;
  }

  get isFull() {
    return this.kept > MOST_KEPT;
  }

  close() {
    this.turn += 1;
    this.helpers.stop();
  }

  // Reads the texts of captures, some of them side by side.
  /** @type {(places: TextPlace[]) => Promise<TextsRead>} */
  async read(places) {
    const waiting = [...places];
    /** @type {TextOutcome[]} */
    const outcomes = [];
    const goOn = async () => {
      for (let next; !this.isFull && (next = waiting.shift());) outcomes.push(...await this.outcomes(next));
    };
    await Promise.all(Array.from({length: HELPERS}, goOn));
    if (this.archive.isOver) throw new Error(CLOSED_ARCHIVE);
    const hits = outcomes.filter(({position}) => this.isHit(position)).map(({position}) => position);
    return {outcomes, hits, isFull: this.isFull};
  }

  // What became of a capture, and of those that waited for what it gives.
  /** @type {(place: TextPlace) => Promise<TextOutcome[]>} */
  async outcomes(place) {
    const {position} = place, answer = await this.answer(position), given = answer.given ?? position;
    const [number] = /^[A-Z]\d+/.exec(answer.reason ?? '') ?? [''];
    if (number && number !== CODED) return [{position, why: number}];
    if (given === position) {
      this.ofRecord.set(position, await this.taken(place, answer));
      const others = this.waiting.get(position) ?? [];
      this.waiting.delete(position);
      return [position, ...others].map((it) => this.linked(it, position));
    }
    if (this.ofRecord.has(given)) return [this.linked(position, given)];
    this.waiting.set(given, [...(this.waiting.get(given) ?? []), position]);
    return [];
  }

  // What the library answers for a position, after what was asked before.
  /** @type {(position: number) => Promise<Answer>} */
  async answer(position) {
    const [answer] = await this.desk.inTurn(() => this.archive.ask([{position, most: MOST_OF_BODY}]));
    return answer;
  }

  // A capture has the text that a record gives.
  /** @type {(position: number, given: number) => TextOutcome} */
  linked(position, given) {
    const {number, why} = this.ofRecord.get(given);
    if (number !== undefined) this.ofCapture.set(position, number);
    return {position, why};
  }

  // Keeps the text of a record's body; or says why it has none.
  /** @type {(place: TextPlace, answer: Answer) => Promise<{number?: number, why: string}>} */
  async taken(place, answer) {
    try {
      const task = await this.task(place, answer);
      if (typeof task === 'string') return {why: task};
      const {made, words, none} = await this.byHelper(task);
      return made ? {number: this.add({...made, words}), why: ''} : {why: none};
    } catch (error) {
      if (this.archive.isOver) throw error;
      return {why: error.isLate ? TOO_SLOW : ENDED};
    }
  }

  // What a helper reads of a record: its body, or its block where that is coded; or why there is nothing to read.
  /** @type {(place: TextPlace, answer: Answer) => Promise<TextTask|string>} */
  async task({offset, blockStart, blockLength}, {reason, status, body, length}) {
    const {file} = this.archive, isCoded = Boolean(reason), isHttp = isCoded || status !== null;
    const read = (/** @type {number} */ from, /** @type {number} */ size) => bytesOfFile(file, from, from + size);
    const head = isHttp ? null : await read(offset, blockStart - offset);
    const front = isHttp ? await read(blockStart, Math.min(blockLength, MOST_OF_HTTP_HEAD)) : null;
    const [{fields, http}] = this.desk.heads.read([{head, front}]);
    const own = http ?? {status: 0, start: 0, fields: fields ?? []};
    const {get, status: stated, fields: all} = httpHead(own, front ?? new Uint8Array()), type = get('content-type');
    if (http && (stated < 200 || stated > 299)) return NO_TEXT;
    const [first] = fieldOf(all, 'content-type').split(',');  // as the program names the type of a capture
    if (![first, type].every((it) => isOfWords(mediaOf(it, new Uint8Array(), '')))) return NO_TEXT;
    if (!isCoded) return body ? {body, type, http: null} : length > MOST_OF_BODY ? TOO_LONG_BODY : NO_TEXT;
    if (!http) return NOT_DECODED;
    return blockLength > 2 * MOST_OF_BODY ? TOO_LONG_BODY : {body: await read(blockStart, blockLength), type, http};
  }

  // The text of a body by a helper, which is given up after some seconds; or by this worker, where there is none.
  /** @type {(task: TextTask) => Promise<ReadText>} */
  async byHelper(task) {
    if (typeof Worker !== 'function') return textOfBody(task);
    const begun = performance.now();
    return this.helpers.ask({extract: task}, [task.body.buffer], 1000 * SECONDS_A_BODY).catch((error) => {
      throw Object.assign(error, {isLate: performance.now() - begun >= 1000 * SECONDS_A_BODY});
    });
  }

  // Keeps a text, each once. Returns its number.
  /** @type {(it: PageText & {words: string}) => number} */
  add(it) {
    const name = `${it.text.length} ${it.text.slice(0, OF_TEXT_NUMBER)}`, alike = this.alike.get(name) ?? [];
    const same =
        alike.slice(-MOST_ALIKE).find((at) => this.all[at].text === it.text && this.all[at].title === it.title);
    if (same !== undefined) return same;
    const number = this.all.push(it) - 1;
    this.alike.set(name, [...alike, number]);
    this.kept += bytesOfText(it.title) + bytesOfText(it.text) + bytesOfText(it.words);
    this.has[number] = this.query !== null && hasAll(it.words, this.query);
    return number;
  }

  /** @type {(position: number) => boolean} */
  isHit(position) {
    return this.has[this.ofCapture.get(position)] ?? false;
  }

  // Rests once it has gone on for some time, so that this worker hears what else is asked. Returns whether this search
  // is still wanted.
  /** @type {(turn: number, clock: {end: number}) => Promise<boolean>} */
  async goesOn(turn, clock) {
    if (performance.now() < clock.end) return true;
    await new Promise((done) => setTimeout(done));
    clock.end = performance.now() + SEARCH_TURN;
    return turn === this.turn;
  }

  // The captures whose texts have what is looked for; or why nothing can be. A later search ends this one.
  /** @type {(text: string) => Promise<TextsFound>} */
  async find(text) {
    const turn = this.turn += 1, clock = {end: performance.now() + SEARCH_TURN};
    this.query = null;
    this.has = [];
    try {
      this.query = queryOf(text);
    } catch (error) {
      return {hits: [], missing: [], why: whyOf(error)};
    }
    for (let number = 0; number < this.all.length; number += 1) {
      if (!await this.goesOn(turn, clock)) return {hits: [], missing: [], why: ''};
      this.has[number] = hasAll(this.all[number].words, this.query);
    }
    const hits = [...this.ofCapture.keys()].filter((position) => this.isHit(position));
    return {hits, missing: hits.length ? [] : await this.missing(turn, clock), why: ''};
  }

  // The words that no text has, of those that have to be there.
  /** @type {(turn: number, clock: {end: number}) => Promise<string[]>} */
  async missing(turn, clock) {
    const left = new Set(this.query.wanted.flatMap(({words, isPrefix}) => (isPrefix ? words.slice(0, -1) : words)));
    for (const {words} of this.all) {
      if (!left.size || !await this.goesOn(turn, clock)) break;
      for (const word of left)
        if (words.includes(` ${word} `)) left.delete(word);
    }
    return [...left];
  }

  // What is shown of the texts of captures: their titles, and the parts that have what is looked for.
  /** @type {(positions: number[]) => Promise<FoundText[]>} */
  async parts(positions) {
    const {turn, query} = this, clock = {end: performance.now() + SEARCH_TURN}, found = [];
    for (const position of positions) {
      const made = this.all[this.ofCapture.get(position)];
      if (!made || !query || !await this.goesOn(turn, clock)) continue;
      const {text: snippet, marks} = snippetOf(made.text, query);
      found.push({position, title: made.title, snippet, marks});
    }
    return found;
  }

  // What the page asks: to read captures, to look for words, or for what is shown of captures.
  /** @type {(asked: {read?: TextPlace[], find?: string, parts?: number[]}) => Promise<any>} */
  answerOf({read, find, parts}) {
    if (read) return this.read(read);
    return find === undefined ? this.parts(parts) : this.find(find);
  }
}
