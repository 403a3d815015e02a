// What the page knows of an archive: its rows, and the worker that asks the library.
'use strict';

const BAD = 1;
const UNJUDGED = 3;
const VERDICTS = ['good', 'bad', 'unchecked', '…'];

// The rows of all records, in the pieces in which they came.
class Rows {
  constructor() {
    /** @type {Piece[]} */
    this.pieces = [];
    this.count = 0;
  }

  /** @param {{base: number, count: number, rows: ArrayBuffer, words: ArrayBuffer}} found */
  add({base, count, rows, words}) {
    const starts = new Uint32Array(count + 1), view = new DataView(rows);
    for (let number = 0; number < count; number += 1) {
      const lengths = [0, 4, 8, 12].map((place) => view.getUint32(number * ROW_BYTES + LENGTHS + place, true));
      view.setUint32(number * ROW_BYTES + VERDICT, UNJUDGED, true);
      starts[number + 1] = starts[number] + lengths.reduce((sum, length) => sum + length, 0);
    }
    this.pieces.push({first: this.count, base, count, view, words: new Uint8Array(words), starts});
    this.count += count;
  }

  /**
   * Keeps the verdicts on the blocks of the records from a position on.
   * @param {number} first
   * @param {Uint8Array} verdicts
   */
  judge(first, verdicts) {
    verdicts.forEach((verdict, number) => {
      const piece = this.piece(first + number);
      piece.view.setUint32((first + number - piece.first) * ROW_BYTES + VERDICT, verdict, true);
    });
  }

  /** @param {number} position */
  piece(position) {
    let low = 0, high = this.pieces.length - 1;
    while (low < high) {
      const middle = (low + high + 1) >> 1;
      if (this.pieces[middle].first <= position)
        low = middle;
      else
        high = middle - 1;
    }
    return this.pieces[low];
  }

  /**
   * What the library keeps of the record at a position, and the verdict on its block as far as it is known.
   * @param {number} position
   * @returns {Row}
   */
  row(position) {
    const piece = this.piece(position), number = position - piece.first, at = number * ROW_BYTES;
    const big = (/** @type {number} */ place) => Number(piece.view.getBigUint64(at + place, true));
    let start = piece.starts[number];
    const texts = [0, 1, 2, 3].map((part) => {
      const from = start;
      start += piece.view.getUint32(at + LENGTHS + part * 4, true);
      return piece.words.subarray(from, start);
    });
    return {
      position,
      offset: big(0) + piece.base,
      blockStart: big(8) + piece.base,
      blockLength: big(16),
      truncated: piece.view.getUint32(at + TRUNCATED, true) === 1,
      kind: latin.decode(texts[0]),
      date: latin.decode(texts[1]),
      id: texts[2],
      target: texts[3],
      get verdict() {
        return VERDICTS[piece.view.getUint32(at + VERDICT, true)];
      },
    };
  }

  /** @param {number} position */
  offset(position) {
    const piece = this.piece(position);
    return Number(piece.view.getBigUint64((position - piece.first) * ROW_BYTES, true)) + piece.base;
  }

  /** @param {number} position */
  blockLength(position) {
    const piece = this.piece(position);
    return Number(piece.view.getBigUint64((position - piece.first) * ROW_BYTES + 16, true));
  }

  /** @param {number} position */
  verdict(position) {
    const piece = this.piece(position);
    return piece.view.getUint32((position - piece.first) * ROW_BYTES + VERDICT, true);
  }
}

/**
 * The line that `warc list` prints of a row.
 * @param {Row} row
 */
function listLine(row) {
  const numbers = `${row.position}\t${row.offset}\t${row.blockLength}\t${row.kind}\t${row.date}\t`;
  return `${numbers}${latin.decode(row.id)}\t${row.target.length ? latin.decode(row.target) : '-'}\n`;
}

const DAMAGE_NUMBERS = 4;

// The kinds of damage of a whole file of a package, in a few words.
/** @type {Record<string, string>} */
const OF_PACKAGE = {
  entry: 'isn’t what was packed',
  members: 'isn’t what was packed',
  unread: 'is compressed by zstd',
};

/** @param {string} kind */
const isOfPackage = (kind) => kind in OF_PACKAGE;

// The damages of a file, in order.
class Damages {
  /**
   * @param {{damages: Float64Array, faults: Map<number, string>}} pieces
   * @param {Gap[]} gaps among its compressed members, which are damages of the kinds from -1 down
   */
  constructor({damages, faults}, gaps = []) {
    this.numbers = damages;
    this.faults = faults;
    this.gaps = gaps;
    this.count = damages.length / DAMAGE_NUMBERS;
    this.length = 0;  // bytes
    for (let at = 1; at < damages.length; at += DAMAGE_NUMBERS) this.length += damages[at];
  }

  static none() {
    return new Damages({damages: new Float64Array(), faults: new Map()});
  }

  /** @param {number} number */
  place(number) {
    return this.numbers[number * DAMAGE_NUMBERS];
  }

  /** @param {number} number */
  end(number) {
    return this.place(number) + this.numbers[number * DAMAGE_NUMBERS + 1];
  }

  /**
   * One damage, with the text of its fault.
   * @param {number} number
   * @returns {Damage}
   */
  at(number) {
    const [place, length, kind, faultAt] = this.numbers.subarray(number * DAMAGE_NUMBERS), gap = this.gaps[-kind - 1];
    if (gap) {
      const {kind, name, offset} = gap;
      const isPacked = isOfPackage(kind);
      const fault = isPacked ? `${name} ${OF_PACKAGE[kind]}` : `no good member at byte ${offset} of ${name}`;
      return {place, length, fault, gap};
    }
    return {place, length, fault: this.faults.get(kind).replace(/ at \d+$/, ` at ${faultAt}`)};
  }

  /**
   * The number of the damage that has a byte between two places of the file; null if none has one.
   * @param {number} from
   * @param {number} to
   */
  between(from, to) {
    const number = lastOf(this.count, (it) => this.place(it) <= to);
    return this.count && this.place(number) <= to && this.end(number) > from ? number : null;
  }
}

const MOST_REMEMBERED = 128 * MEGABYTE;  // bytes of bodies

// The library in its worker. Answers are remembered.
class Library {
  /**
   * @param {Uint8Array} module
   * @param {number} limit
   * @param {string} script
   * @param {(message: any) => void} report
   */
  constructor(module, limit, script, report) {
    this.module = module;
    this.limit = limit;
    this.script = script;
    this.report = report;
    /** @type {Map<number, {done: (answers: any[]) => void, failed: (error: Error) => void}>} */
    this.waiting = new Map();  // what waits for an answer, by the number of its message
    this.asked = 0;
    this.opened = 0;    // how many archives were opened
    this.openings = 0;  // how often the worker opened an archive for questions
    this.forget();
    this.start();
  }

  start() {
    const {module: wasm, limit, script} = this;
    /** @type {Worker|null} */
    this.worker = startWorker(script);
    this.worker.onmessage = ({data}) => {
      if (data.id)
        this.hear(data);
      else if (data.of === this.opened)
        this.report(data);  // what is still on its way of the file before isn't wanted
    };
    this.worker.onerror = (event) => this.end(event.message || 'the worker stopped');
    this.worker.postMessage({wasm, limit, script});
  }

  /**
   * Ends a worker that is lost; the next file gets a new one. What waited for its answers hears why there are none.
   * @param {string} why
   */
  end(why) {
    const waiting = [...this.waiting.values()];
    this.worker.terminate();
    this.worker = null;
    this.waiting.clear();
    this.forget();
    waiting.forEach(({failed}) => failed(new Error(why)));
    this.report({report: 'failed', why});
  }

  /** @param {File[]} files */
  open(files) {
    this.forget();
    if (!this.worker) this.start();
    this.opened += 1;
    this.worker.postMessage({open: files, number: this.opened});
  }

  /**
   * The answers to questions: of a URI and a date, or of a position.
   * @param {Question[]} questions
   * @returns {Promise<Answer[]>}
   */
  async ask(questions) {
    const unknown = questions.filter((it) => !this.known.has(Library.nameOf(it)));
    const wanted = [...new Map(unknown.map((it) => [Library.nameOf(it), it])).values()], {since} = this;
    const found = new Map(questions.map((it) => [Library.nameOf(it), this.known.get(Library.nameOf(it))]));
    const answers = wanted.length ? await this.send(wanted) : [];
    wanted.forEach((it, number) => found.set(Library.nameOf(it), answers[number]));
    if (since === this.since) this.remember(wanted, answers);
    return questions.map((it) => ({...found.get(Library.nameOf(it))}));
  }

  /**
   * @param {Question[]} questions
   * @returns {Promise<Answer[]>}
   */
  send(questions) {
    return this.post({questions});
  }

  /**
   * What heads say, of records and of HTTP responses. No archive has to be open.
   * @param {AskedHead[]} heads
   * @returns {Promise<ReadHead[]>}
   */
  heads(heads) {
    return this.post({heads});
  }

  /**
   * @param {object} message
   * @returns {Promise<any[]>}
   */
  post(message) {
    if (!this.worker) return Promise.reject(new Error('the library stopped'));
    return new Promise((done, failed) => {
      this.asked += 1;
      this.waiting.set(this.asked, {done, failed});
      this.worker.postMessage({id: this.asked, ...message});
    });
  }

  /** @param {{id: number, answers?: any[], openings: number, why?: string}} message */
  hear({id, answers, openings, why}) {
    const turn = this.waiting.get(id);
    this.waiting.delete(id);
    if (!answers) {
      turn?.failed(new Error(why));
      return;
    }
    this.openings = openings;
    turn?.done(answers);
  }

  /** @param {Question} question */
  static nameOf(question) {
    return question.uri ? `${question.date} ${latin.decode(question.uri)}` : question.position;
  }

  forget() {
    /** @type {Map<string|number, Answer>} */
    this.known = new Map();
    this.remembered = 0;
    this.since = {};
  }

  /**
   * Keeps answers, and drops the oldest where there are too many. The chosen capture has the same answer.
   * @param {Question[]} questions
   * @param {Answer[]} answers
   */
  remember(questions, answers) {
    questions.forEach((it, number) => {
      const answer = answers[number];
      for (const name of [Library.nameOf(it), answer.chosen]) {
        if (name === null || name === undefined || this.known.has(name)) continue;
        this.known.set(name, answer);
        this.remembered += answer.body?.length ?? 0;
      }
    });
    for (const [name, answer] of this.known) {
      if (this.remembered <= MOST_REMEMBERED) break;
      this.known.delete(name);
      this.remembered -= answer.body?.length ?? 0;
    }
  }
}

// Whether this browser has 64-bit WebAssembly: it accepts a module that has such a memory and nothing else.
function hasWideMemory() {
  const tiny = new Uint8Array([0, 97, 115, 109, 1, 0, 0, 0, 5, 3, 1, 4, 1]);
  return typeof WebAssembly === 'object' && WebAssembly.validate(tiny);
}
