// A file as it comes into the memory of a module, and its segments, which helpers list side by side.
'use strict';

const FIRST_PIECE = MEGABYTE;
const SEGMENT = PIECE - MEGABYTE;         // what a helper lists at once, with the rest of its last record
const BEGINNING = `\r\n\r\n${RECORD}1.`;  // what a record's beginning looks like, after the end of the record before it

// The archive as it comes into the memory of a module.
class Filling {
  /**
   * @param {Archive} archive
   * @param {Keeper} keeper
   */
  constructor(archive, keeper) {
    this.archive = archive;
    this.keeper = keeper;
    this.stop = 0;
    this.next = this.read();
  }

  read() {
    const size = this.stop ? PIECE : FIRST_PIECE;
    const next = this.archive.read(this.stop, Math.min(this.archive.size, this.stop + size));
    next.catch(() => {});  // it is reported when it is waited for
    return next;
  }

  // Takes the next piece, while the one after it is read. Returns whether the archive is still wanted.
  async take() {
    const bytes = await this.next;
    if (this.archive.isOver) return false;
    this.keeper.bytes(this.keeper.file + this.stop, bytes.length).set(bytes);
    this.stop += bytes.length;
    this.next = this.read();
    return true;
  }

  // Where a record may begin, from an offset on; -1 if nowhere so far. It is only a guess where a segment may end: the
  // library then says whether it does.
  /** @type {(from: number) => number} */
  beginning(from) {
    for (let at = from; at < this.stop; at += MEGABYTE) {
      const length = Math.min(this.stop - at, MEGABYTE + BEGINNING.length);
      const found = text(this.keeper.bytes(this.keeper.file + at, length)).indexOf(BEGINNING);
      if (found >= 0) return at + found + 4;
    }
    return -1;
  }
}

// The segments of a file, which helpers list side by side. One counts where it begins where the one before it ended.
class Segments {
  /**
   * @param {Filling} filling
   * @param {Helpers} helpers
   */
  constructor(filling, helpers) {
    this.filling = filling;
    this.helpers = helpers;
    this.start = 0;
    this.sought = FIRST_PIECE / 2;
    /** @type {Promise<boolean>[]} */
    this.turns = [];
    this.isBroken = false;               // one didn't end where the next was thought to begin, or its helper was lost
    this.whole = Promise.resolve(true);  // whether all segments so far end where they were thought to
  }

  /** @type {(stop: number) => void} */
  hand(stop) {
    const {start, filling: {keeper}} = this, bytes = keeper.bytes(keeper.file + start, stop - start).slice();
    const listed = this.helpers.ask({list: bytes}, [bytes.buffer]).catch(() => null);
    this.whole = this.whole.then(async (isWhole) => isWhole && this.take(await listed, start, stop));
    this.turns.push(this.whole);
    this.start = stop;
  }

  /** @type {(found: Front|null, start: number, stop: number) => boolean} */
  take(found, start, stop) {
    const {archive} = this.filling;
    if (archive.isOver) return false;
    if (found) archive.report(found, start, stop);
    this.isBroken = !found || archive.end < stop;
    return !this.isBroken;
  }

  // Hands out what came since the last time, and waits where the helpers have enough.
  async handOut() {
    while (this.sought < this.filling.stop) {
      const at = this.filling.beginning(this.sought);
      if (at >= 0) this.hand(at);
      this.sought = at >= 0 ? at + SEGMENT : Math.max(this.sought, this.filling.stop - BEGINNING.length);
      if (at < 0) break;
    }
    if (this.turns.length > 2 * HELPERS) await this.turns.shift();
  }
}

// The fault of a piece, with its offset counted from the beginning of the file.
/** @type {(fault: string, start: number) => string} */
function placed(fault, start) {
  return fault.replace(/ at (\d+)$/, (_, /** @type {string} */ offset) => ` at ${Number(offset) + start}`);
}
