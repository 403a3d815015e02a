// What the page and its workers share.
'use strict';

const MEGABYTE = 1048576;

// Where the numbers of a row are: offset, block and its length, four lengths of texts, mark of truncation. In the four
// bytes after them the page keeps the verdict on the block.
const ROW_BYTES = 48;
const LENGTHS = 24;
const TRUNCATED = 40;
const VERDICT = 44;

const CHANGED = 'the file has changed on disk since it was opened, or can’t be read any more; open it again';
const OF_FILES = new Set(['NotReadableError', 'NotFoundError']);

/**
 * Bytes of a file, which must be as it was when it was opened.
 * @param {Blob} file
 * @param {number} from
 * @param {number} to
 */
async function bytesOfFile(file, from, to) {
  const bytes = await file.slice(from, to).arrayBuffer().catch((error) => {
    throw OF_FILES.has(error.name) ? new Error(CHANGED) : error;
  });
  if (bytes.byteLength !== to - from) throw new Error(CHANGED);
  return new Uint8Array(bytes);
}

const READ_AT_ONCE = MEGABYTE;  // bytes of a file: ranges that are as close as this are read together

/**
 * Ranges in groups, each of one range of any length, or of several that are close together.
 * @param {ByteRange[]} ranges
 */
function groupsOf(ranges) {
  /** @type {ByteRange[][]} */
  const groups = [];
  for (const range of ranges) {
    const last = groups[groups.length - 1];
    if (last && range.to - last[0].from <= READ_AT_ONCE)
      last.push(range);
    else
      groups.push([range]);
  }
  return groups;
}

/**
 * The bytes of ranges of a file, one after another.
 * @param {Blob} file
 * @param {ByteRange[]} ranges
 */
async function bytesOfRanges(file, ranges) {
  if (ranges.length === 1) return bytesOfFile(file, ranges[0].from, ranges[0].to);
  const bytes = new Uint8Array(ranges.reduce((sum, {from, to}) => sum + to - from, 0));
  let at = 0;
  for (const group of groupsOf(ranges)) {
    const {from: begin} = group[0], read = await bytesOfFile(file, begin, group[group.length - 1].to);
    for (const {from, to} of group) {
      bytes.set(read.subarray(from - begin, to - begin), at);
      at += to - from;
    }
  }
  return bytes;
}

/**
 * The last of the numbers from 0 on that passes a test which all before it pass; 0 if none does.
 * @param {number} count how many numbers there are
 * @param {(number: number) => boolean} passes
 */
function lastOf(count, passes) {
  let low = 0, high = count - 1;
  while (low < high) {
    const middle = (low + high + 1) >> 1;
    if (passes(middle))
      low = middle;
    else
      high = middle - 1;
  }
  return low;
}

// The runs of good records in a file. One after another they are an archive: of a file without damage one run, the
// whole file. An offset is one in the archive, and a place one in the file.
class Runs {
  /** @param {Float64Array} ends the places where each run begins and ends, in order */
  constructor(ends) {
    this.ends = ends;
    this.count = ends.length / 2;
    this.starts = new Float64Array(this.count + 1);  // the offset where each begins, and the one where the last ends
    for (let run = 0; run < this.count; run += 1)
      this.starts[run + 1] = this.starts[run] + ends[2 * run + 1] - ends[2 * run];
  }

  /** @param {number} end */
  static one(end) {
    return new Runs(Float64Array.of(0, end));
  }

  // How many bytes the archive has.
  get length() {
    return this.starts[this.count];
  }

  // Whether each offset is the place too.
  get isFront() {
    return this.count < 2 && !this.ends[0];
  }

  /** @param {number} offset */
  runAt(offset) {
    return lastOf(this.count, (run) => this.starts[run] <= offset);
  }

  // How far the place of an offset is from the offset.
  /** @param {number} offset */
  shiftAt(offset) {
    const run = this.runAt(offset);
    return this.ends[2 * run] - this.starts[run];
  }

  // Where the run ends that has the byte at a place.
  /** @param {number} place */
  endOfRun(place) {
    return this.ends[2 * lastOf(this.count, (run) => this.ends[2 * run] <= place) + 1];
  }

  // The places of the bytes from an offset up to another.
  /** @type {(start: number, stop: number) => ByteRange[]} */
  ranges(start, stop) {
    const ranges = [];
    for (let run = this.runAt(start); run < this.count && this.starts[run] < stop; run += 1) {
      const shift = this.ends[2 * run] - this.starts[run];
      const from = Math.max(start, this.starts[run]), to = Math.min(stop, this.starts[run + 1]);
      ranges.push({from: from + shift, to: to + shift});
    }
    return ranges;
  }
}

const workerPolicy =
    globalThis.trustedTypes?.createPolicy('zogwedu-worker', {createScriptURL: (/** @type {string} */ url) => url});

/**
 * A worker that runs a script.
 * @param {string} script
 */
function startWorker(script) {
  const url = URL.createObjectURL(new Blob([script], {type: 'text/javascript'}));
  return new Worker(workerPolicy ? workerPolicy.createScriptURL(url) : url);
}

const latin = new TextDecoder('latin1');

const SIZES = ['bytes', 'KB', 'MB', 'GB', 'TB'];

/** @param {number} bytes */
function size(bytes) {
  let power = 0, value = bytes;
  while (value >= 1000 && power < SIZES.length - 1) {
    value /= 1000;
    power += 1;
  }
  if (power === 0) return `${bytes} ${bytes === 1 ? 'byte' : 'bytes'}`;
  return `${value < 10 ? value.toFixed(1) : Math.round(value)} ${SIZES[power]}`;
}

/** @param {any} error */
const whyOf = (error) => String(error?.message || error);
