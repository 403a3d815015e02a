// The next good member of a file that gzip wrote, after a damage, in a worker. A file may be made so that there are
// many places to try: each is tried once, and what tries that fail cost is bounded.
'use strict';

const RECORD = 'WARC/';         // how a record begins
const METHOD = 8;               // the third byte of a member: deflate
const MOST_FLAGS = 0x1f;        // the fourth one has no other bits
const HEAD_LENGTH = 4;          // bytes
const MOST_OF_BEGINNING = 512;  // bytes of a member in which its head ends, and a record begins
const MOST_TRIED = 4;   // tries that fail take at most this number of times the bytes of the file, and of what is
                        // before the last one; and they give at most this number of times what may be given
const FIRST_STEP = 64;  // bytes that a try takes at first
const STEP = 4096;
const TRY_ROOM = 65536;       // bytes that a try gives at once
const WINDOW = 4 * MEGABYTE;  // bytes of the file that are read at once
const TURN = 4096;            // places that are tried between two rests

// Looks for good members in a file.
class Search {
  /**
   * @param {Blob} file
   * @param {number} most bytes that a member may give
   * @param {() => boolean} isOver whether nobody wants them any more
   * @param {(at: number) => void} tell hears how far it is
   */
  constructor(file, most, isOver, tell) {
    this.file = file;
    this.most = most;
    this.isOver = isOver;
    this.tell = tell;
    this.taken = 0;  // bytes that tries took which failed
    this.given = 0;  // bytes that they gave
    this.tried = 0;  // places
    this.begin = 0;  // of what was read last
    this.bytes = new Uint8Array();
    this.front = new Uint8Array(RECORD.length);
    this.room = new Uint8Array(TRY_ROOM);
    this.probe = new ZStream();
    zlib.inflateInit2(this.probe, GZIP);
  }

  // The bytes from an offset on that are read: at least this number, unless the file ends before.
  /** @type {(offset: number, least: number) => Promise<Uint8Array>} */
  async from(offset, least) {
    const end = Math.min(offset + least, this.file.size);
    if (offset < this.begin || end > this.begin + this.bytes.length) {
      this.bytes = await bytesOfFile(this.file, offset, Math.min(this.file.size, offset + WINDOW));
      this.begin = offset;
    }
    return this.bytes.subarray(offset - this.begin);
  }

  // Where the next good member is from an offset on that begins as a record does; the end of the file, if there is
  // none.
  /** @type {(offset: number) => Promise<number>} */
  async next(offset) {
    for (let at = offset; at < this.file.size && !this.isOver();) {
      const bytes = await this.from(at, HEAD_LENGTH), head = headIn(bytes);
      at += head < 0 ? Math.max(bytes.length - HEAD_LENGTH + 1, 1) : head;
      if (head < 0) continue;
      if (this.tried % TURN === 0) await this.rest(at);
      if (await this.beginsRecord(at) && await this.isGood(at)) return at;
      this.tried += 1;
      at += 1;
    }
    return this.file.size;
  }

  // Says how far it is, and lets the worker hear what the page says meanwhile.
  /** @type {(offset: number) => Promise<void>} */
  async rest(offset) {
    this.tell(offset);
    await new Promise((done) => setTimeout(done));
  }

  /** @type {(offset: number) => Promise<boolean>} */
  async beginsRecord(offset) {
    const {probe, front} = this, bytes = await this.from(offset, MOST_OF_BEGINNING);
    zlib.inflateReset(probe);
    Object.assign(probe, {input: bytes, next_in: 0, avail_in: Math.min(bytes.length, MOST_OF_BEGINNING)});
    Object.assign(probe, {output: front, next_out: 0, avail_out: front.length});
    zlib.inflate(probe, Z_FINISH);
    return String.fromCharCode(...front.subarray(0, probe.next_out)) === RECORD;
  }

  // Whether zlib inflates the member at an offset to its end. One that gives too much counts as good: whoever reads it
  // says so.
  /** @type {(offset: number) => Promise<boolean>} */
  async isGood(offset) {
    const most = Math.floor((MOST_TRIED * (this.file.size + offset) - this.taken) / 2), stream = new ZStream();
    zlib.inflateInit2(stream, GZIP);
    let end = offset, state = Z_OK;
    for (let step = FIRST_STEP; GOES_ON.has(state); step = Math.min(2 * step, STEP)) {
      const bytes = (await this.from(end, step)).subarray(0, step);
      if (!bytes.length || end - offset > most || this.given > MOST_TRIED * this.most || this.isOver()) break;
      end += bytes.length;
      state = this.inflate(stream, bytes);
      if (stream.total_out > this.most) return true;
    }
    if (state === Z_STREAM_END) return true;
    this.taken += end - offset;
    this.given += stream.total_out;
    return false;
  }

  // Inflates bytes, and keeps nothing of what they give. Returns how zlib ended.
  /** @type {(stream: ZStream, bytes: Uint8Array) => number} */
  inflate(stream, bytes) {
    Object.assign(stream, {input: bytes, next_in: 0, avail_in: bytes.length, avail_out: 0});
    let state = Z_OK;
    while (GOES_ON.has(state) && (stream.avail_in || !stream.avail_out)) {
      Object.assign(stream, {output: this.room, next_out: 0, avail_out: this.room.length});
      state = zlib.inflate(stream, Z_FINISH);
    }
    return state;
  }
}

// Where the first head of a member is in bytes; -1 if there is none.
/** @type {(bytes: Uint8Array) => number} */
function headIn(bytes) {
  for (let at = bytes.indexOf(FIRST_OF_MEMBER); at >= 0; at = bytes.indexOf(FIRST_OF_MEMBER, at + 1)) {
    if (bytes[at + 1] === SECOND_OF_MEMBER && bytes[at + 2] === METHOD && bytes[at + 3] <= MOST_FLAGS) return at;
  }
  return -1;
}
