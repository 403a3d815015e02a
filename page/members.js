// Members of gzip, one after another. pako inflates them, a port of zlib that the build puts before the scripts. A
// member ends where its checksum and its length fit, as zlib says.
'use strict';

const GZIP = 31;  // the window bits by which zlib reads gzip, and nothing else
const {Z_FINISH, Z_OK, Z_STREAM_END, Z_BUF_ERROR} = zlib.constants;
const GOES_ON = new Set([Z_OK, Z_BUF_ERROR]);  // how inflating ends that may go on
const FIRST_OF_MEMBER = 0x1f;
const SECOND_OF_MEMBER = 0x8b;
const MAGIC = 2;  // bytes

// What is wrong with compressed bytes: 'torn', 'damaged', 'other' bytes after the last member, or 'long'. The offset is
// the one of the member, or of the other bytes.
class Damaged extends Error {
  /**
   * @param {string} kind
   * @param {number} offset
   * @param {string} why
   */
  constructor(kind, offset, why) {
    super(`${why} at byte ${offset}`);
    this.kind = kind;
    this.offset = offset;
    this.why = why;
  }
}

// Bytes that gzip wrote, as they come, piece by piece.
class Members {
  /**
   * @param {Uint8Array} out for the bytes that are given at once
   * @param {number} most bytes that are given in all
   * @param {(bytes: Uint8Array) => Promise<void>|void} give takes what was decompressed, whose memory is used again
   * @param {number} from the offset of the first member
   */
  constructor(out, most, give, from = 0) {
    this.most = most;
    this.give = give;
    this.out = out;
    this.filled = 0;     // bytes of it
    this.given = 0;      // bytes in all, without those
    this.whole = 0;      // bytes in all that came of whole members
    this.read = from;    // up to where compressed bytes were taken
    this.offset = from;  // where the member begins that is being read
    this.ended = from;   // where the last whole member ends
    /** @type {ZStream|null} */
    this.stream = null;  // null: no member is being read
    this.isPadding = false;
  }

  /** @param {Uint8Array} bytes */
  async take(bytes) {
    for (let at = 0; at < bytes.length;) {
      if (!this.stream) this.begin(bytes[at], this.read + at);
      at = this.stream ? await this.inflate(bytes, at) : at + 1;
    }
    this.read += bytes.length;
  }

  // Says that no more bytes come.
  async end() {
    if (this.stream) throw new Damaged('torn', this.offset, 'the file ends in a member');
    await this.flush();
  }

  // Gives what isn't given yet.
  async flush() {
    const bytes = this.out.subarray(0, this.filled);
    this.given += this.filled;
    this.filled = 0;
    if (bytes.length) await this.give(bytes);
  }

  // Begins a member, unless its first byte is padding: zero bytes may follow the last member, and nothing else may.
  /** @type {(first: number, offset: number) => void} */
  begin(first, offset) {
    this.offset = offset;
    this.isPadding ||= first === 0 && offset > 0;
    if (this.isPadding && first === 0) return;
    if (this.isPadding || first !== FIRST_OF_MEMBER) throw this.other();
    this.stream = new ZStream();
    zlib.inflateInit2(this.stream, GZIP);
  }

  other() {
    return new Damaged('other', this.offset, 'bytes that gzip didn’t write');
  }

  // Inflates on, and returns up to where bytes were taken.
  /** @type {(bytes: Uint8Array, at: number) => Promise<number>} */
  async inflate(bytes, at) {
    const {stream, out} = this;
    Object.assign(stream, {input: bytes, next_in: at, avail_in: bytes.length - at});
    do {
      if (this.filled === out.length) await this.flush();
      Object.assign(stream, {output: out, next_out: this.filled, avail_out: out.length - this.filled});
      const state = zlib.inflate(stream, Z_FINISH);
      this.filled = stream.next_out;
      if (this.given + this.filled > this.most)
        throw new Damaged('long', this.offset, `more than ${this.most} bytes by the member`);
      if (state === Z_STREAM_END) {
        this.whole = this.given + this.filled;
        this.ended = this.read + stream.next_in;
        this.stream = null;
      } else if (!GOES_ON.has(state))
        throw stream.total_in <= MAGIC ? this.other() : new Damaged('damaged', this.offset, stream.msg);
    } while (this.stream && !stream.avail_out);
    return stream.next_in;
  }
}
