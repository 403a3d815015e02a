// ZIP files, read strictly: one with any structural fault is refused as a whole, as Python's package does it. Readers
// of ZIP differ in what they make of a file that contradicts itself, so that one shows what another checked not.
'use strict';

const OF_LOCAL = 0x04034b50, OF_CENTRAL = 0x02014b50, OF_END = 0x06054b50, OF_LOCATOR = 0x07064b50,
      OF_END64 = 0x06064b50;
const LOCAL_BYTES = 30, CENTRAL_BYTES = 46, END_BYTES = 22, LOCATOR_BYTES = 20, END64_BYTES = 56;
const MOST_COMMENT = 65535;
const ALL_ONES = 0xffffffff, SHORT_ONES = 0xffff;
const ZIP64_FIELD = 1;
const DESCRIPTOR_BYTES = 12;  // that follow an entry at least, where a flag says so
const HAS_DESCRIPTOR = 1 << 3;
const CODED_FLAGS = 1 << 0 | 1 << 6 | 1 << 13;
const STORED_METHOD = 0, DEFLATED_METHOD = 8;
const RAW_DEFLATE = -15;  // the window bits by which zlib reads it
const MOST_ENTRIES = 10000;
const MOST_DIRECTORY = 16 * MEGABYTE;
const MOST_NAME = 1024;  // bytes
const AT_ONCE = 65536;   // bytes of heads that are read together
const ENTRY_PIECE = 4 * MEGABYTE;
const INFLATED_PIECE = MEGABYTE;

// Why a ZIP is refused: a fault by its name, and what is wrong at which byte.
class BadZip extends Error {
  /**
   * @param {string} fault
   * @param {string} why
   * @param {number} offset
   */
  constructor(fault, why, offset) {
    super(`${fault}: ${why}`);
    this.fault = fault;
    this.offset = offset;
  }
}

// The bytes of an entry aren't what the directory says of them.
class BadEntry extends Error {}

/** @type {(fault: string, why: string, offset: number) => never} */
function refuseZip(fault, why, offset) {
  throw new BadZip(fault, why, offset);
}

// A number of eight bytes. None that a file may have is as large as infinity.
/** @type {(view: DataView, at: number) => number} */
function wideAt(view, at) {
  const number = view.getBigUint64(at, true);
  return number > BigInt(Number.MAX_SAFE_INTEGER) ? Infinity : Number(number);
}

// Bytes of a file, of which those that lie close together are read together.
class NearBytes {
  /** @param {Blob} file */
  constructor(file) {
    this.file = file;
    this.size = file.size;
    this.begin = 0;
    this.bytes = new Uint8Array();
  }

  /** @type {(offset: number, count: number) => Promise<Uint8Array>} */
  async bytesAt(offset, count) {
    if (offset < this.begin || offset + count > this.begin + this.bytes.length) {
      this.bytes = await bytesOfFile(this.file, offset, Math.min(this.size, offset + Math.max(count, AT_ONCE)));
      this.begin = offset;
    }
    return this.bytes.subarray(offset - this.begin, offset - this.begin + count);
  }

  /** @type {(offset: number, count: number) => Promise<DataView>} */
  async viewAt(offset, count) {
    return viewOf(await this.bytesAt(offset, count));
  }
}

/** @param {Uint8Array} bytes */
const viewOf = (bytes) => new DataView(bytes.buffer, bytes.byteOffset, bytes.length);

// The entries of a ZIP, in the order of its directory.
/** @type {(file: Blob, most?: number) => Promise<ZipEntry[]>} */
async function entriesOf(file, most = MOST_ENTRIES) {
  const reader = new NearBytes(file), place = await placeOf(reader, most), names = new Set();
  const directory = await bytesOfFile(file, place.offset, place.offset + place.length);
  const entries = [];
  for (const entry of entriesIn(directory, place, file)) {
    judgeName(entry, names);
    judgeForm(entry);
    entries.push(await located(reader, entry, place.offset));
  }
  refuseOverlaps(entries, place.offset);
  return entries;
}

// Where the end of the directory is, whose comment ends with the file.
/** @type {(reader: NearBytes) => Promise<number>} */
async function endOf(reader) {
  const {size} = reader, begin = Math.max(size - END_BYTES - MOST_COMMENT, 0), ends = [];
  const tail = viewOf(await bytesOfFile(reader.file, begin, size));
  for (let at = 0; at + END_BYTES <= tail.byteLength; at += 1) {
    const isEnd = tail.getUint8(at) === 0x50 && tail.getUint32(at, true) === OF_END;
    if (isEnd && at + END_BYTES + tail.getUint16(at + 20, true) === tail.byteLength) ends.push(begin + at);
  }
  if (!ends.length) refuseZip('NoEnd', 'no end of a directory: the file is cut, or no ZIP', size);
  if (ends.length > 1) refuseZip('TwoEnds', 'two ends of a directory', ends[0]);
  return ends[0];
}

// Where the directory is, which both ends have to say in the same way.
/** @type {(reader: NearBytes, most: number) => Promise<ZipPlace>} */
async function placeOf(reader, most) {
  const end = await endOf(reader), view = await reader.viewAt(end, END_BYTES);
  const short = [4, 6, 8, 10].map((at) => view.getUint16(at, true));
  let numbers = [...short, view.getUint32(12, true), view.getUint32(16, true)], at = end;
  const locator = end >= LOCATOR_BYTES ? await reader.viewAt(end - LOCATOR_BYTES, LOCATOR_BYTES) : null;
  if (locator?.getUint32(0, true) === OF_LOCATOR) {
    if (locator.getUint32(4, true) || locator.getUint32(16, true) > 1)
      refuseZip('Spans', 'it is on several disks', end - LOCATOR_BYTES);
    at = wideAt(locator, 8);
    numbers = await wideNumbers(reader, at, end - LOCATOR_BYTES, numbers);
  }
  const [disk, diskOfDirectory, here, entries, length, offset] = numbers;
  if (disk || diskOfDirectory || here !== entries) refuseZip('Spans', 'it is on several disks', end);
  if (offset + length !== at) refuseZip('Place', 'the directory isn’t just before its end', end);
  if (entries > most || length > MOST_DIRECTORY)
    refuseZip('TooMany', `more than ${most} entries, or ${MOST_DIRECTORY} bytes of directory`, end);
  return {offset, length, entries};
}

// The numbers of the end of ZIP64, which those of the other end have to be, or all ones.
/** @type {(reader: NearBytes, at: number, locator: number, numbers: number[]) => Promise<number[]>} */
async function wideNumbers(reader, at, locator, numbers) {
  const misplaced = 'the end of ZIP64 isn’t where its locator says';
  if (at + END64_BYTES !== locator) refuseZip('Place', misplaced, locator);
  const view = await reader.viewAt(at, END64_BYTES);
  if (view.getUint32(0, true) !== OF_END64 || wideAt(view, 4) !== END64_BYTES - 12) refuseZip('Place', misplaced, at);
  const wide = [view.getUint32(16, true), view.getUint32(20, true), ...[24, 32, 40, 48].map((it) => wideAt(view, it))];
  const isOther = (/** @type {number} */ number, /** @type {number} */ place) =>
      number !== wide[place] && number !== (place < 4 ? SHORT_ONES : ALL_ONES);
  if (numbers.some(isOther)) refuseZip('Place', 'the end of ZIP64 differs from the other one', at);
  return wide;
}

// The entries as the directory has them. Where their bytes are isn't known yet.
/** @type {(bytes: Uint8Array, place: ZipPlace, file: Blob) => Generator<ZipEntry>} */
function* entriesIn(bytes, place, file) {
  const view = viewOf(bytes);
  let at = 0;
  for (let number = 0; number < place.entries; number += 1) {
    const head = place.offset + at;
    if (at + CENTRAL_BYTES > bytes.length || view.getUint32(at, true) !== OF_CENTRAL)
      refuseZip('Entry', 'the directory has fewer entries than it says', head);
    const [names, extras, comments] = [28, 30, 32].map((it) => view.getUint16(at + it, true));
    const from = at + CENTRAL_BYTES;
    if (from + names + extras + comments > bytes.length)
      refuseZip('Entry', 'a head is longer than the directory', head);
    const own = new DataView(bytes.buffer, bytes.byteOffset + at, CENTRAL_BYTES);
    const extra = bytes.subarray(from + names, from + names + extras);
    yield entryOf(own, bytes.slice(from, from + names), extra, {head, file});
    at = from + names + extras + comments;
  }
  if (at !== bytes.length) refuseZip('Entry', 'the directory has more than its entries', place.offset + at);
}

// An entry of its head in the directory.
/** @type {(view: DataView, raw: Uint8Array, extra: Uint8Array, of: {head: number, file: Blob}) => ZipEntry} */
function entryOf(view, raw, extra, {head, file}) {
  if (view.getUint16(34, true)) refuseZip('Spans', 'it is on several disks', head);
  const wide = widened([24, 20, 42].map((at) => view.getUint32(at, true)), extra);
  if (!wide) refuseZip('Entry', 'the fields of ZIP64 don’t fit', head);
  const [size, packed, offset] = wide, [flags, method] = [8, 10].map((at) => view.getUint16(at, true));
  const name = nameOf(raw, head), crc = view.getUint32(16, true);
  return {name, raw, file, head, offset, begin: 0, packed, size, crc, flags, method};
}

// Numbers of a head: those that are all ones are in the field of ZIP64, one after another. Null if that field isn't
// there, is too short, or is there twice, and if the fields don't fill their place.
/** @type {(numbers: number[], extra: Uint8Array) => number[]|null} */
function widened(numbers, extra) {
  const view = viewOf(extra), fields = [];
  let at = 0;
  while (at < extra.length) {
    if (at + 4 > extra.length) return null;
    const length = view.getUint16(at + 2, true);
    if (view.getUint16(at, true) === ZIP64_FIELD) fields.push({from: at + 4, length});
    at += 4 + length;
  }
  const wanted = numbers.filter((number) => number === ALL_ONES).length;
  if (at !== extra.length || fields.length > 1 || (wanted && !fields.length)) return null;
  if (wanted && fields[0].length < 8 * wanted) return null;
  let next = wanted ? fields[0].from : 0;
  return numbers.map((number) => {
    if (number !== ALL_ONES) return number;
    next += 8;
    return wideAt(view, next - 8);
  });
}

// The name of an entry: UTF-8, whatever its flags say.
/** @type {(raw: Uint8Array, head: number) => string} */
function nameOf(raw, head) {
  try {
    return new TextDecoder('utf-8', {fatal: true, ignoreBOM: true}).decode(raw);
  } catch {
    return refuseZip('Name', 'a name isn’t UTF-8', head);
  }
}

/** @param {{name: string}} entry */
const isFolder = ({name}) => name.endsWith('/');

// Refuses a name that leads elsewhere, and one that is there twice.
/** @type {(entry: ZipEntry, names: Set<string>) => void} */
function judgeName(entry, names) {
  const name = isFolder(entry) ? entry.name.slice(0, -1) : entry.name, parts = name.split('/');
  const isOdd = parts.some((part) => ['', '.', '..'].includes(part)) || parts[0].includes(':') ||
      /[\\\u0000-\u001f\u007f-\u009f]/.test(name);
  if (isOdd || (entry.raw.length - Number(isFolder(entry))) > MOST_NAME)
    refuseZip('Name', `“${entry.name.slice(0, 200)}” is no name of a file below a folder`, entry.head);
  if (names.has(name)) refuseZip('Twice', `two entries are named “${name}”`, entry.head);
  names.add(name);
}

// Refuses what is coded in a way that isn't read here, and sizes that contradict each other.
/** @type {(entry: ZipEntry) => void} */
function judgeForm(entry) {
  const {name, flags, method, size, packed, head} = entry;
  if (flags & CODED_FLAGS || ![STORED_METHOD, DEFLATED_METHOD].includes(method))
    refuseZip('Coded', `“${name}” is encrypted, or compressed by another method`, head);
  if ((method === STORED_METHOD && size !== packed) || (isFolder(entry) && size))
    refuseZip('Size', `“${name}” is stored, and has two sizes, or is a folder with bytes`, head);
}

// An entry with the place of its bytes, once its own head agrees with the directory.
/** @type {(reader: NearBytes, entry: ZipEntry, limit: number) => Promise<ZipEntry>} */
async function located(reader, entry, limit) {
  const {offset, flags, method} = entry, why = `the head of “${entry.name}” differs from the directory`;
  if (offset + LOCAL_BYTES > limit) refuseZip('Local', why, entry.head);
  const view = await reader.viewAt(offset, LOCAL_BYTES), own = view.getUint16(6, true);
  const [names, extras] = [26, 28].map((at) => view.getUint16(at, true));
  const [crc, packed, size] = [14, 18, 22].map((at) => view.getUint32(at, true));
  const begin = offset + LOCAL_BYTES + names + extras;
  const isOther = view.getUint32(0, true) !== OF_LOCAL || view.getUint16(8, true) !== method;
  if (isOther || begin > limit || (own ^ flags) & (CODED_FLAGS | HAS_DESCRIPTOR)) refuseZip('Local', why, offset);
  const texts = await reader.bytesAt(offset + LOCAL_BYTES, names + extras);
  const wide = widened([size, packed], texts.subarray(names));
  const isNamed = names === entry.raw.length && entry.raw.every((byte, at) => byte === texts[at]);
  if (!wide || !isNamed) refuseZip('Local', why, offset);
  const pairs = [[crc, entry.crc], [wide[0], entry.size], [wide[1], entry.packed]];
  if (pairs.some(([number, its]) => number !== its && (number || !(own & HAS_DESCRIPTOR))))
    refuseZip('Local', why, offset);
  return {...entry, begin};
}

// Refuses entries that share bytes, with each other or with the directory.
/** @type {(entries: ZipEntry[], limit: number) => void} */
function refuseOverlaps(entries, limit) {
  let end = 0;
  for (const {name, offset, begin, packed, flags} of [...entries].sort((one, other) => one.offset - other.offset)) {
    const next = begin + packed + (flags & HAS_DESCRIPTOR ? DESCRIPTOR_BYTES : 0);
    if (offset < end || next > limit)
      refuseZip('Overlap', `“${name}” shares bytes with another entry, or the directory`, offset);
    end = next;
  }
}

const CRC_TABLE = Uint32Array.from({length: 256}, (_, number) => {
  for (let bit = 0; bit < 8; bit += 1) number = number & 1 ? number >>> 1 ^ 0xedb88320 : number >>> 1;
  return number;
});

// The CRC-32 of bytes after others.
/** @type {(bytes: Uint8Array, before: number) => number} */
function crcOf(bytes, before) {
  let crc = ~before;
  for (let at = 0; at < bytes.length; at += 1) crc = crc >>> 8 ^ CRC_TABLE[(crc ^ bytes[at]) & 255];
  return ~crc >>> 0;
}

// What an entry holds, in pieces. BadEntry is thrown at the latest after the last of them.
/** @type {(entry: ZipEntry) => AsyncGenerator<Uint8Array>} */
async function* contentOf(entry) {
  let crc = 0, length = 0;
  for await (const piece of entry.method === DEFLATED_METHOD ? inflatedOf(entry) : packedOf(entry)) {
    length += piece.length;
    if (length > entry.size) throw new BadEntry('it holds more bytes than the directory says');
    crc = crcOf(piece, crc);
    yield piece;
  }
  if (length < entry.size) throw new BadEntry('it holds fewer bytes than the directory says');
  if (crc !== entry.crc) throw new BadEntry('its CRC differs');
}

// The bytes of an entry as they are in the file.
/** @type {(entry: ZipEntry) => AsyncGenerator<Uint8Array>} */
async function* packedOf({file, begin, packed}) {
  for (let at = begin; at < begin + packed; at += ENTRY_PIECE)
    yield bytesOfFile(file, at, Math.min(begin + packed, at + ENTRY_PIECE));
}

// The bytes of an entry, inflated.
/** @type {(entry: ZipEntry) => AsyncGenerator<Uint8Array>} */
async function* inflatedOf(entry) {
  const stream = new ZStream(), output = new Uint8Array(INFLATED_PIECE), OTHER = 'other bytes follow what was deflated';
  zlib.inflateInit2(stream, RAW_DEFLATE);
  let state = Z_OK;
  for await (const input of packedOf(entry)) {
    if (state === Z_STREAM_END) throw new BadEntry(OTHER);
    Object.assign(stream, {input, next_in: 0, avail_in: input.length});
    do {
      Object.assign(stream, {output, next_out: 0, avail_out: output.length});
      state = zlib.inflate(stream, Z_FINISH);
      if (![Z_OK, Z_STREAM_END, Z_BUF_ERROR].includes(state)) throw new BadEntry(stream.msg);
      if (stream.next_out) yield output.slice(0, stream.next_out);
    } while (state !== Z_STREAM_END && !stream.avail_out);
    if (state === Z_STREAM_END && stream.avail_in) throw new BadEntry(OTHER);
  }
  if (state !== Z_STREAM_END) throw new BadEntry('what was deflated isn’t whole');
}
