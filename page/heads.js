// Heads of records and of HTTP responses, in a worker: the library reads them, and nothing here does.
'use strict';

const FIELD_NUMBERS = 8;             // bytes: the lengths of a name and of a value
const HTTP_NUMBERS = 32;             // bytes: what an HTTP head says
const HTTP_FIELD_NUMBERS = 32;       // bytes: where a name and a value are
const STATUS_AT = 24;                // where the status is in what an HTTP head says
const MOST_HTTP_FIELDS = 256;        // the library reads no HTTP head that has more
const LEAST_BUFFER = 65536;          // bytes: most heads are shorter
const MOST_READING = 64 * MEGABYTE;  // what heads are given until their module is started anew

// Asks the library what heads say, in a module of its own, so that no archive has to be open.
class HeadReader {
  /** @param {WebAssembly.Module} module */
  constructor(module) {
    this.module = module;
    /** @type {Instance|null} */
    this.instance = null;
  }

  // What the heads at the front of bytes say: of records, and of HTTP responses.
  /** @type {(asked: AskedHead[]) => ReadHead[]} */
  read(asked) {
    return asked.map(({head, front}) => ({fields: head && this.fields(head), http: front && this.http(front)}));
  }

  // Calls an export, and gives the number of fields that it put; null if there is no head.
  /** @type {(name: string, parts: number[]) => number|null} */
  call(name, parts) {
    const {instance} = this, outcome = instance.lend('outcome', OUTCOME);
    const all = [...parts, instance.lend('text', TEXT), TEXT, outcome];
    return instance.call(name, SMALL, all, outcome) === DONE ? instance.number(outcome + 8) : null;
  }

  // Puts bytes into the module's memory, which is started anew once too much of it is spent.
  /** @type {(bytes: Uint8Array) => [number, number]} */
  put(bytes) {
    if (!this.instance || this.instance.spent > MOST_READING) this.instance = new Instance(this.module);
    return this.instance.put('bytes', bytes, LEAST_BUFFER);
  }

  // The fields of a record's head, in their order; null if the bytes begin with none. Each has a byte at least.
  /** @type {(head: Uint8Array) => FieldBytes[]|null} */
  fields(head) {
    const [at, length] = this.put(head), {instance} = this, room = Math.max(length, LEAST_BUFFER);
    const lengths = instance.lend('lengths', room * FIELD_NUMBERS), texts = instance.lend('texts', room);
    const count = this.call('page_fields', [at, length, lengths, length, texts, length]);
    if (count === null) return null;
    const view = new DataView(instance.memory.buffer, lengths, count * FIELD_NUMBERS);
    let end = texts;
    const next = (/** @type {number} */ place) => {
      const size = view.getUint32(place, true);
      end += size;
      return instance.bytes(end - size, size).slice();
    };
    return Array.from({length: count}, (_, field) => [next(field * FIELD_NUMBERS), next(field * FIELD_NUMBERS + 4)]);
  }

  // What the HTTP head at the front of a block says; null if the block begins with no whole one.
  /** @type {(block: Uint8Array) => ReadHttp|null} */
  http(block) {
    const [at, length] = this.put(block), {instance} = this, http = instance.lend('http', HTTP_NUMBERS);
    const places = instance.lend('places', MOST_HTTP_FIELDS * HTTP_FIELD_NUMBERS);
    const count = this.call('page_http', [at, length, http, places, MOST_HTTP_FIELDS]);
    if (count === null) return null;
    const part = (/** @type {number} */ place) => {
      const [from, size] = [instance.number(place), instance.number(place + 8)];
      return block.slice(from, from + size);
    };
    const fields = Array.from({length: count}, (_, field) => {
      const place = places + field * HTTP_FIELD_NUMBERS;
      return /** @type {FieldBytes} */ ([part(place), part(place + 16)]);
    });
    const status = new DataView(instance.memory.buffer).getUint32(http + STATUS_AT, true);
    return {status, start: instance.number(http), fields};
  }
}
