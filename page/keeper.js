// The module that has an archive in its memory: it looks for pieces and findings, and answers questions.
'use strict';

const OUTCOME = 16;
const HANDLE = 16;
const ANSWER = 32;
const SPAN = 16;
// The numbers of a piece: offset, length, records; and of damage the kind of its fault, and the offset of that.
const PIECE_BYTES = 40;
const KIND_OF_FAULT = 24;
const ROOM_OF_PIECES = 4096;     // for how many pieces there is room at first
const PIECES_HEAP = MEGABYTE;    // bytes of memory that looking for pieces is given at first
const NOWHERE = 2n ** 64n - 1n;  // a position that isn't known
const SPARE = 64 * MEGABYTE;     // what questions may use of an open archive's memory, until it is opened anew
const SPANS = 64;                // for how many parts of a body there is room at first

// The module that has an archive in its memory, at `file`, and answers questions on it once it is open.
class Keeper extends Instance {
  /**
   * @param {WebAssembly.Module} module
   * @param {number} length
   */
  constructor(module, length) {
    super(module);
    this.file = this.take(length);
    this.outcome = this.lend('outcome', OUTCOME);
    this.reason = this.lend('text', TEXT);
    this.handle = 0;  // 0: none was taken
    this.isOpen = false;
  }

  get reasonText() {
    return text(this.bytes(this.reason, this.number(this.outcome + 8)));
  }

  // Opens the archive, in the place of one that is open.
  /** @type {(length: number, heap: number) => void} */
  open(length, heap) {
    if (!this.handle) this.handle = this.take(HANDLE);  // all zeros: none is open
    const parts = [this.file, length, this.handle, this.reason, TEXT, this.outcome];
    if (this.call('page_open', heap + SPARE, parts, this.outcome) !== DONE) throw new Error(this.reasonText);
    if (!this.isOpen) this.most = this.spent + SPENT / 2;  // whatever opening took, questions have room
    this.isOpen = true;
  }

  // The pieces of the file between two offsets: runs of good records, and damages.
  /** @type {(start: number, stop: number) => Pieces} */
  pieces(start, stop) {
    if (start === stop) return this.piecesAt(0, 0, start);
    for (let count = ROOM_OF_PIECES;;) {
      const places = this.lend('pieces', count * PIECE_BYTES);
      const parts = [this.file + start, stop - start, places, count, this.reason, TEXT, this.outcome];
      if (this.call('page_pieces', PIECES_HEAP, parts, this.outcome) !== DONE) throw new Error(this.reasonText);
      const found = this.number(this.outcome + 8);
      if (found <= count) return this.piecesAt(places, found, start);
      count = found;
    }
  }

  // The pieces that the library put into the memory, with the text of one fault of each kind.
  /** @type {(places: number, count: number, start: number) => Pieces} */
  piecesAt(places, count, start) {
    const view = new DataView(this.memory.buffer, places, count * PIECE_BYTES);
    const runs = new Float64Array(2 * count), damages = new Float64Array(4 * count);
    /** @type {Map<number, number>} */
    const firsts = new Map();
    let records = 0, ofRuns = 0, ofDamages = 0;
    for (let at = 0; at < view.byteLength; at += PIECE_BYTES) {
      const [offset, length, held, kind, faultAt] =
          [0, 8, 16, KIND_OF_FAULT, KIND_OF_FAULT + 8].map((place) => Number(view.getBigUint64(at + place, true)));
      records += held;
      if (held) {
        runs.set([start + offset, start + offset + length], ofRuns);
        ofRuns += 2;
        continue;
      }
      damages.set([start + offset, length, kind, start + faultAt], ofDamages);
      ofDamages += 4;
      if (!firsts.has(kind)) firsts.set(kind, places + at + KIND_OF_FAULT);
    }
    const faults = new Map([...firsts].map(([kind, at]) => [kind, this.problem(at)]));
    return {runs: runs.slice(0, ofRuns), damages: damages.slice(0, ofDamages), faults, records};
  }

  // The text of a problem, whose numbers are in the memory.
  /** @type {(at: number) => string} */
  problem(at) {
    const heap = this.take(SMALL), parts = [heap, SMALL / UNIT, at, this.reason, TEXT];
    this.spent += SMALL;
    const length = Number(this.exports.page_problem(...parts.map(BigInt)));
    if (!length) throw new Error('out of memory');
    return text(this.bytes(this.reason, length));
  }

  // The lines that the library writes of its findings.
  /** @type {(length: number, heap: number, records: number) => Uint8Array} */
  findings(length, heap, records) {
    for (let room = MEGABYTE + 32 * records;; room *= 8) {
      const out = this.lend('out', room);
      this.call('page_findings', heap, [this.file, length, out, room, this.outcome], this.outcome);
      const bytes = this.number(this.outcome + 8);
      if (bytes <= room) return this.bytes(out, bytes).slice();
    }
  }

  // How a question is asked: the name of the export, and the parameters of its own.
  /** @type {(question: Question) => {name: string, own: number[]}} */
  asking({uri, date, position}) {
    if (!uri) return {name: 'page_body', own: [position]};
    return {name: 'page_replay', own: [...this.put('uri', uri), ...this.put('date', new TextEncoder().encode(date))]};
  }

  // The answer to a question. Where the open archive has used up its memory, it is opened anew.
  /** @type {(question: Question, reopen: () => void) => Answer} */
  answer(question, reopen) {
    const {name, own} = this.asking(question), numbers = this.lend('numbers', ANSWER);
    for (let count = SPANS, isFresh = false;;) {
      const spans = this.lend('spans', count * SPAN);
      this.bytes(numbers, ANSWER).fill(255);  // no position is known
      const parts = [this.handle, ...own, numbers, spans, count, this.reason, TEXT, this.outcome];
      const state = this.once(name, SMALL, parts, this.outcome), length = this.number(this.outcome + 8);
      if (state === MEMORY) {
        if (isFresh) throw new Error('out of memory');
        reopen();
        isFresh = true;
      } else if (state !== DONE)
        return {...this.positions(numbers), reason: this.reasonText};
      else if (length > count)
        count = length;
      else {
        const facts = this.facts(numbers), isWanted = facts.length <= (question.most ?? Infinity);
        return {...this.positions(numbers), ...facts, body: isWanted ? this.body(spans, length) : null};
      }
    }
  }

  // The positions of an answer: of the chosen capture and of the origin that gives the body.
  /** @type {(numbers: number) => {chosen: number|null, given: number|null}} */
  positions(numbers) {
    const view = new DataView(this.memory.buffer, numbers, ANSWER);
    const [chosen, given] = [view.getBigUint64(0, true), view.getBigUint64(8, true)];
    return {chosen: chosen === NOWHERE ? null : Number(chosen), given: given === NOWHERE ? null : Number(given)};
  }

  /** @type {(numbers: number) => {length: number, status: number|null, truncated: boolean}} */
  facts(numbers) {
    const view = new DataView(this.memory.buffer, numbers, ANSWER), status = view.getUint32(24, true) || null;
    return {length: Number(view.getBigUint64(16, true)), status, truncated: view.getUint32(28, true) === 1};
  }

  // A body: the parts of the archive that the library names, one after another.
  /** @type {(spans: number, count: number) => Uint8Array} */
  body(spans, count) {
    const places = Array.from({length: count}, (_, number) => spans + number * SPAN);
    const parts = places.map((at) => this.bytes(this.file + this.number(at), this.number(at + 8)));
    const body = new Uint8Array(parts.reduce((sum, part) => sum + part.length, 0));
    parts.reduce((at, part) => {
      body.set(part, at);
      return at + part.length;
    }, 0);
    return body;
  }
}

// A new module that has the bytes of runs of a file, up to an offset.
/** @type {(module: WebAssembly.Module, part: {file: Blob, runs: Float64Array, end: number}) => Promise<Keeper>} */
async function filled(module, {file, runs: ends, end}) {
  const keeper = new Keeper(module, end), runs = new Runs(ends);
  for (let at = 0; at < end; at += PIECE) {
    const bytes = await bytesOfRanges(file, runs.ranges(at, Math.min(end, at + PIECE)));
    keeper.bytes(keeper.file + at, bytes.length).set(bytes);
  }
  return keeper;
}

// The pieces of a file, which are looked for between its gaps alone, so that no record has bytes of both sides of one.
// Each gap is a damage without a length, of a kind that counts from -1 down.
/** @type {(keeper: Keeper, sides: Float64Array) => Pieces} */
function piecesBetween(keeper, sides) {
  const found = Array.from({length: sides.length - 1}, (_, side) => keeper.pieces(sides[side], sides[side + 1]));
  const gaps = found.map((_, side) => Float64Array.from(side ? [sides[side], 0, -side, 0] : []));
  return {
    runs: joinedNumbers(found.map((it) => it.runs)),
    damages: joinedNumbers(found.flatMap((it, side) => [gaps[side], it.damages])),
    faults: new Map(found.flatMap((it) => [...it.faults])),
    records: found.reduce((sum, it) => sum + it.records, 0),
  };
}

/** @type {(parts: Float64Array[]) => Float64Array} */
function joinedNumbers(parts) {
  const all = new Float64Array(parts.reduce((sum, part) => sum + part.length, 0));
  parts.reduce((at, part) => {
    all.set(part, at);
    return at + part.length;
  }, 0);
  return all;
}
