// Files as one archive, in a worker. They are joined in the order of their names, and each that gzip wrote counts as
// what it decompresses to. The decompressed bytes go into Blobs, piece by piece, so that no more than two pieces and
// what they came from are in this worker's memory.
'use strict';

const PACKED_PIECE = 4 * MEGABYTE;
const UNPACKED_PIECE = 16 * MEGABYTE;
const FIRST_BYTES = 4;
const MOST_GAPS = 1000;  // damages of members after which the next one ends the reading
const PASSED_OVER = new Set(['torn', 'damaged', 'other']);  // what reading goes on after
const NO_ROOM = 'the browser has no room for what was decompressed';

// What compressed a file, by its first bytes as `zwarc` reports it: gzip, zstd, or nothing.
/** @type {(first: Uint8Array) => string} */
function packingOf(first) {
  if (first[0] === FIRST_OF_MEMBER && first[1] === SECOND_OF_MEMBER) return 'gzip';
  return [0x28, 0xb5, 0x2f, 0xfd].every((byte, number) => first[number] === byte) ? 'zstd' : '';
}

// The order of the names of files: that of their bytes, as in every other program.
/** @type {(one: {name: string}, other: {name: string}) => number} */
function byName({name: one}, {name: other}) {
  const [left, right] = [one, other].map((name) => new TextEncoder().encode(name));
  const at = left.findIndex((byte, place) => byte !== right[place]);
  return at < 0 ? left.length - right.length : left[at] - (right[at] ?? -1);
}

// Files that are joined.
class Joining {
  /**
   * @param {NamedBlob[]} files
   * @param {number} limit bytes that all of them may decompress to
   * @param {() => boolean} isOver whether nobody wants them any more
   * @param {(progress: {name: string, read: number, size: number, unpacked: number}) => void} tell
   */
  constructor(files, limit, isOver, tell) {
    this.files = [...files].sort(byName);
    this.limit = limit;
    this.isOver = isOver;
    this.tell = tell;
    this.size = files.reduce((sum, file) => sum + file.size, 0);
    this.read = 0;      // bytes of the files, in all
    this.unpacked = 0;  // bytes that were decompressed, in all
    this.length = 0;    // bytes of the joined archive
    this.out = new Uint8Array();
    /** @type {Blob[]} */
    this.pieces = [];
    /** @type {Part[]} */
    this.parts = [];
    /** @type {Gap[]} */
    this.gaps = [];
    /** @type {PackedDamage|null} */
    this.damage = null;  // after which nothing is read
  }

  // Joins all files, or those up to the first one that can't be decompressed to its end here. Returns the archive.
  async join() {
    for (const file of this.files) {
      const packing = packingOf(await bytesOfFile(file, 0, Math.min(FIRST_BYTES, file.size))), {length} = this.gaps;
      this.parts.push({name: file.name, size: file.size, start: this.length, isPacked: packing === 'gzip'});
      if (packing === 'zstd')
        this.damage = {kind: 'zstd', name: file.name, offset: 0, why: ''};
      else if (packing === 'gzip')
        await this.unpack(file);
      else
        this.add(file);
      if (file.fault && !this.damage && this.gaps.length === length) this.addFault(file.fault);
      if (this.damage || this.isOver()) break;
    }
    return this.pieces.length === 1 ? this.pieces[0] : new Blob(this.pieces);
  }

  /** @param {Blob} piece */
  add(piece) {
    this.pieces.push(piece);
    this.length += piece.size;
  }

  // Adds a gap for a file that isn't what was packed, and in which no other damage was found.
  /** @param {PackedDamage & {length: number}} fault */
  addFault(fault) {
    if (this.gaps.length === MOST_GAPS)
      this.damage = fault;
    else
      this.gaps.push({...fault, place: this.length});
  }

  // Adds what the good members of a file decompress to, with a gap for what isn't one.
  /** @type {(file: NamedBlob) => Promise<void>} */
  async unpack(file) {
    const tell = (/** @type {number} */ at) => this.report(file, at, 0);
    const search = new Search(file, this.limit, this.isOver, tell);
    if (!this.out.length) this.out = new Uint8Array(UNPACKED_PIECE);
    for (let from = 0; from < file.size && !this.damage;) {
      const found = await this.unpackFrom(file, from);
      if (!found || this.isOver()) break;
      if (!PASSED_OVER.has(found.kind) || this.gaps.length === MOST_GAPS)
        this.damage = found;
      else {
        from = await search.next(found.offset + 1);
        const kind = found.kind === 'torn' && from < file.size ? 'damaged' : found.kind;
        this.gaps.push({...found, kind, place: this.length, length: from - found.offset});
      }
    }
    this.read += file.size;
  }

  // Adds what the members of a file decompress to from an offset on, up to the last whole one before a damage, which is
  // returned.
  /** @type {(file: NamedBlob, from: number) => Promise<PackedDamage|null>} */
  async unpackFrom(file, from) {
    /** @type {Blob[]} */
    const pieces = [];
    const members = new Members(this.out, this.limit - this.unpacked, async (bytes) => {
      pieces.push(await kept(bytes));
      this.report(file, members.read, members.given + members.filled);
    }, from);
    let damage = null;
    try {
      await this.feed(file, members);
    } catch (error) {
      if (!(error instanceof Damaged)) throw error;
      damage = {kind: error.kind, name: file.name, offset: members.ended, why: error.why};
      await members.flush();
    }
    this.add(new Blob(pieces).slice(0, members.whole));
    this.unpacked += members.whole;
    return damage;
  }

  /** @type {(file: NamedBlob, members: Members) => Promise<void>} */
  async feed(file, members) {
    for (let at = members.read; at < file.size && !this.isOver(); at = members.read) {
      await members.take(await bytesOfFile(file, at, Math.min(file.size, at + PACKED_PIECE)));
      this.report(file, members.read, members.given + members.filled);
    }
    if (!this.isOver()) await members.end();
  }

  // Reports how much of a file is read, and what was decompressed since the last good members.
  /** @type {(file: NamedBlob, at: number, given: number) => void} */
  report({name}, at, given) {
    this.tell({name, read: this.read + at, size: this.size, unpacked: this.unpacked + given});
  }
}

// Bytes as a Blob that the browser keeps. That it has them is tried, since a browser without room says so only then.
/** @type {(bytes: Uint8Array) => Promise<Blob>} */
async function kept(bytes) {
  const blob = new Blob([bytes]);
  await blob.slice(bytes.length - 1).arrayBuffer().catch(() => {
    throw new Error(NO_ROOM);
  });
  return blob;
}
