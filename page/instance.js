// The library's module in a worker: an instance with its own memory, which lists bytes and judges blocks.
//
// Each call of the module is given memory for good, as its contract requires: nothing here touches it again. Once too
// much of it is spent, the module is started anew.
'use strict';

const WASM_PAGE = 65536;
const UNIT = 16;
const FRONT = 40;
const TEXT = 128;
const PIECE = 16 * MEGABYTE;
const LEAST_RECORD = 81;  // bytes: no record is shorter
const DONE = 0;
const MEMORY = 2;
const NO_VERDICT = 3;
const SPENT = 1024 * MEGABYTE;  // what the calls of a module are given before it is started anew
const MOST_HEAP = 8192 * MEGABYTE;
const SMALL = 4096;                  // bytes of memory that a question, or a verdict, is given
const MOST_OF_HEAD = 16 * MEGABYTE;  // bytes of memory that reading a head needs at most
const MOST_JUDGING = 64 * MEGABYTE;  // what verdicts are given until their module is started anew
const LEAST_PAGES = 16;              // by which a memory grows at least

/** @type {(number: number, to: number) => number} */
const round = (number, to) => Math.ceil(number / to) * to;
/** @type {(bytes: Uint8Array) => string} */
const text = (bytes) => new TextDecoder('latin1').decode(bytes.slice());

// A module with its own memory, and where in it is free.
class Instance {
  /** @param {WebAssembly.Module} module */
  constructor(module) {
    this.module = module;
    /** @type {any} */
    this.exports = new WebAssembly.Instance(module, {}).exports;
    /** @type {WebAssembly.Memory} */
    this.memory = this.exports.memory;
    this.end = this.memory.buffer.byteLength;
    this.spent = 0;     // bytes that were given for good
    this.most = SPENT;  // the module is started anew once this much is spent
    /** @type {Map<string, {at: number, room: number}>} */
    this.lent = new Map();
  }

  // Takes part of the memory that nobody has used.
  /** @type {(bytes: number) => number} */
  take(bytes) {
    const at = this.end;
    this.end = round(this.end + bytes + 1, UNIT);
    const pages = Math.ceil((this.end - this.memory.buffer.byteLength) / WASM_PAGE);
    if (pages > 0) grow(this.memory, Math.max(pages, LEAST_PAGES));
    return at;
  }

  // Part of the memory that is lent to calls, and used again by the next one.
  /** @type {(name: string, bytes: number) => number} */
  lend(name, bytes) {
    const found = this.lent.get(name);
    if (found && found.room >= bytes) return found.at;
    this.spent += found?.room ?? 0;
    const at = this.take(bytes);
    this.lent.set(name, {at, room: bytes});
    return at;
  }

  /** @type {(at: number, length: number) => Uint8Array} */
  bytes(at, length) {
    return new Uint8Array(this.memory.buffer, at, length);
  }

  /** @type {(at: number) => number} */
  number(at) {
    return Number(new DataView(this.memory.buffer).getBigUint64(at, true));
  }

  // Puts bytes into memory that is lent, and gives their place and length.
  /** @type {(name: string, bytes: Uint8Array, least?: number) => [number, number]} */
  put(name, bytes, least = 0) {
    const at = this.lend(name, Math.max(bytes.length, least));
    this.bytes(at, bytes.length).set(bytes);
    return [at, bytes.length];
  }

  // Calls an export with fresh memory, and gives the state that it puts first into its outcome.
  /** @type {(name: string, room: number, parts: number[], outcome: number) => number} */
  once(name, room, parts, outcome) {
    const at = this.take(room);
    this.spent += room;
    this.exports[name](BigInt(at), BigInt(room / UNIT), ...parts.map(BigInt));
    return this.number(outcome);
  }

  // Calls an export with fresh memory, and with more where that didn't suffice.
  /** @type {(name: string, heap: number, parts: number[], outcome: number) => number} */
  call(name, heap, parts, outcome) {
    for (let room = round(heap, UNIT);; room *= 4) {
      const state = this.once(name, room, parts, outcome);
      if (state !== MEMORY) return state;
      if (room >= MOST_HEAP) throw new Error('out of memory');
    }
  }

  // The verdict on a block by its head, with fresh memory, and with more where that didn't suffice.
  /** @type {(...parts: number[]) => number} */
  verdict(...parts) {
    for (let room = SMALL; room <= MOST_OF_HEAD; room *= 4) {
      const at = this.take(room);
      this.spent += room;
      const verdict = Number(this.exports.page_verdict(...[at, room / UNIT, ...parts].map(BigInt)));
      if (verdict !== NO_VERDICT) return verdict;
    }
    throw new Error(CHANGED);
  }

  // Lists the records at the front of bytes in the module's memory, which begin with a record.
  /** @type {(at: number, length: number) => Front} */
  front(at, length) {
    const room = Math.max(length, PIECE), rowsRoom = Math.floor(length / LEAST_RECORD) + 1;
    const texts = this.lend('texts', room), fault = this.lend('fault', TEXT), outcome = this.lend('front', FRONT);
    const rows = this.lend('rows', (Math.floor(room / LEAST_RECORD) + 1) * ROW_BYTES);
    const parts = [at, length, rows, rowsRoom, texts, length, fault, TEXT, outcome];
    const state = this.call('page_front', Math.max(4 * MEGABYTE, length / 4), parts, outcome + 24);
    const [records, textBytes, end, , faultBytes] = [0, 8, 16, 24, 32].map((place) => this.number(outcome + place));
    return {
      records,
      texts: textBytes,
      end,
      fault: state === DONE ? '' : text(this.bytes(fault, faultBytes)),
      rows: this.bytes(rows, records * ROW_BYTES).slice().buffer,
      words: this.bytes(texts, textBytes).slice().buffer,
    };
  }
}

// Newer engines take a BigInt, older ones a number.
/** @type {(memory: WebAssembly.Memory, pages: number) => void} */
function grow(memory, pages) {
  try {
    memory.grow(/** @type {any} */ (BigInt(pages)));
  } catch (error) {
    if (!(error instanceof TypeError)) throw error;
    memory.grow(pages);
  }
}

// Judges the blocks of records that were listed together, which are read again.
class Judge {
  /** @param {WebAssembly.Module} module */
  constructor(module) {
    this.module = module;
    this.instance = new Instance(module);
  }

  /** @type {(task: JudgeTask) => Promise<Uint8Array>} */
  async judge({file, ranges, rows}) {
    const bytes = await bytesOfRanges(file, ranges), view = new DataView(rows);
    if (this.instance.spent > MOST_JUDGING) this.instance = new Instance(this.module);
    const [at] = this.instance.put('bytes', bytes, PIECE);
    return Uint8Array.from({length: rows.byteLength / ROW_BYTES}, (_, number) => {
      const places = [0, 8, 16].map((place) => Number(view.getBigUint64(number * ROW_BYTES + place, true)));
      return this.instance.verdict(at + places[0], places[1] - places[0], at + places[1], places[2]);
    });
  }
}
