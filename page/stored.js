// Stored bytes for people: heads, charsets, coded bodies, in the page and in its worker. None of this is proved.
'use strict';

const MOST_DECODED = 256 * MEGABYTE;  // bytes of one body
const MOST_OF_META = 16384;           // bytes in which a page names its charset
const MOST_OF_CHARACTER = 5;          // bytes: no charset has more for one
const MOST_CODINGS = 8;               // of one body
const GIVEN_AT_ONCE = MEGABYTE;       // bytes of a gzip body that has several members
const MEDIA_TYPE = /^[a-z0-9.+-]+\/[a-z0-9.+-]+$/;

/**
 * The head of a stored HTTP response, as the library reads it.
 * @param {ReadHttp} read
 * @param {Uint8Array} block
 * @returns {HttpHead}
 */
function httpHead({status, start, fields: read}, block) {
  const fields = asTexts(read, (bytes) => latin.decode(bytes));
  const get = (/** @type {string} */ name) =>
      fields.filter((field) => field[0].toLowerCase() === name).map((field) => field[1]).join(', ');
  return {text: latin.decode(block.subarray(0, start)), status, fields, start, get};
}

/**
 * The names and values of fields as texts.
 * @param {FieldBytes[]} fields
 * @param {(bytes: Uint8Array) => string} decode
 * @returns {[string, string][]}
 */
const asTexts = (fields, decode) => fields.map(([name, value]) => [decode(name), decode(value)]);

/** @type {(fields: [string, string][], name: string) => string} */
const fieldOf = (fields, name) => fields.find((field) => field[0].toLowerCase() === name.toLowerCase())?.[1] ?? '';

// What can't be undone of a body's codings: one of them.
class Undecodable extends Error {
  /**
   * @param {string} coding
   * @param {string} why
   */
  constructor(coding, why) {
    super(why);
    this.coding = coding;
  }
}

const CHUNK_LINE = /^([0-9A-Fa-f]{1,15})[ \t]*(?:;[^\n]*)?\r?$/;  // without its line feed

/**
 * The body of a chunked message, without the chunks' lines; it throws where they are wrong.
 * @param {Uint8Array} bytes
 */
function unchunk(bytes) {
  const parts = [];
  for (let at = 0;;) {
    const start = bytes.indexOf(10, at) + 1, line = CHUNK_LINE.exec(latin.decode(bytes.subarray(at, start - 1)));
    if (!start || !line) throw new Error('a chunk’s length is missing');
    const end = start + parseInt(line[1], 16), isShort = bytes[end] === 10;
    if (end === start) return joined(parts);
    if (!isShort && (bytes[end] !== 13 || bytes[end + 1] !== 10)) throw new Error('a chunk isn’t whole');
    parts.push(bytes.subarray(start, end));
    at = end + (isShort ? 1 : 2);
  }
}

/** @param {Uint8Array[]} parts */
function joined(parts) {
  const all = new Uint8Array(parts.reduce((sum, part) => sum + part.length, 0));
  let at = 0;
  for (const part of parts) {
    all.set(part, at);
    at += part.length;
  }
  return all;
}

/** @param {number} most */
const tooLong = (most) => `it is longer than ${size(most)} when decoded`;

/**
 * The bytes that the browser's own decompression gives, up to a limit.
 * @param {Uint8Array} bytes
 * @param {string} format
 * @param {number} most
 */
async function inflate(bytes, format, most) {
  const reader = new Blob([bytes]).stream().pipeThrough(new DecompressionStream(format)).getReader();
  const parts = [];
  let length = 0;
  for (;;) {
    const {done, value} = await reader.read();
    if (done) return joined(parts);
    parts.push(value);
    length += value.length;
    if (length <= most) continue;
    reader.cancel().catch(() => {});
    throw new RangeError(tooLong(most));
  }
}

/**
 * What gzip wrote, as the browser decompresses it, or member by member: the browser takes one member, and nothing after
 * it.
 * @type {Undo}
 */
async function gunzip(bytes, most) {
  try {
    return await inflate(bytes, 'gzip', most);
  } catch (error) {
    if (error instanceof RangeError) throw error;
  }
  /** @type {Uint8Array[]} */
  const parts = [], members = new Members(new Uint8Array(GIVEN_AT_ONCE), most, (part) => void parts.push(part.slice()));
  try {
    await members.take(bytes);
    await members.end();
  } catch (error) {
    throw error.kind === 'long' ? new RangeError(tooLong(most)) : error;
  }
  return joined(parts);
}

/**
 * A zlib stream, or a bare one, which some servers send.
 * @type {Undo}
 */
function undeflate(bytes, most) {
  const isZlib = bytes.length > 1 && (bytes[0] & 15) === 8 && (bytes[0] * 256 + bytes[1]) % 31 === 0;
  return inflate(bytes, isZlib ? 'deflate' : 'deflate-raw', most);
}

/**
 * How each coding is undone. tests/callers/codings.json has the rules as cases.
 * @type {Map<string, Undo>}
 */
const UNDO = new Map([
  ['chunked', async (/** @type {Uint8Array} */ bytes) => unchunk(bytes)],
  ['gzip', gunzip],
  ['x-gzip', gunzip],
  ['deflate', undeflate],
  ['br', (bytes, most) => inflate(bytes, 'brotli', most)],
  ['zstd', (bytes, most) => inflate(bytes, 'zstd', most)],
]);

/** @param {string} field */
const codingsIn = (field) => field.toLowerCase()
                                 .split(',')
                                 .map((it) => it.replace(/^[ \t]+|[ \t]+$/g, ''))
                                 .filter((it) => it && it !== 'identity')
                                 .reverse();

/**
 * A coded body of HTTP, decoded by the browser: the bytes, and the codings in words.
 * @param {Uint8Array} block
 * @param {HttpHead|null} head
 */
async function decoded(block, head, left = MOST_DECODED) {
  if (!head) throw new Error('there is no HTTP head');
  const steps = ['transfer-encoding', 'content-encoding'].flatMap((name) => codingsIn(head.get(name)));
  if (steps.length > MOST_CODINGS)
    throw new Undecodable(steps[MOST_CODINGS], `it has ${steps.length} codings, more than ${MOST_CODINGS}`);
  let body = block.subarray(head.start);
  for (const coding of steps) body = await undone(coding, body, Math.min(left, MOST_DECODED));
  return {body, steps};
}

/**
 * Bytes without a coding.
 * @type {(coding: string, body: Uint8Array, most: number) => Promise<Uint8Array>}
 */
async function undone(coding, body, most) {
  const undo = UNDO.get(coding);
  if (!undo) throw new Undecodable(coding, `the coding ${coding} is unknown`);
  try {
    return await undo(body, most);
  } catch (error) {
    throw error instanceof RangeError ? error : new Undecodable(coding, `as ${coding}: ${whyOf(error)}`);
  }
}

/**
 * What a body is, by its content type, or by its first bytes where it has none. Of several types the last one counts.
 * @param {string} type
 * @param {Uint8Array} body
 * @param {string} target
 */
function mediaOf(type, body, target) {
  const names = type.toLowerCase().split(',').map((it) => it.split(';')[0].trim());
  const name = names.reverse().find((it) => MEDIA_TYPE.test(it));
  if (name) return name;
  const front = latin.decode(body.subarray(0, 256)).trimStart().toLowerCase();
  if (/^<(?:!doctype html|html|title)/.test(front)) return 'text/html';
  if (front.startsWith('\x89png')) return 'image/png';
  if (body[0] === 0xff && body[1] === 0xd8) return 'image/jpeg';
  if (front.startsWith('gif8')) return 'image/gif';
  return /\.(txt|md|csv)$/i.test(target) || !/[\x00-\x08]/.test(front) ? 'text/plain' : 'application/octet-stream';
}

const PICTURE_TYPE = /^image\/(png|jpeg|gif|webp|avif|bmp|x-icon|vnd\.microsoft\.icon|svg\+xml)$/;
const TEXT_TYPE = /^text\/|json|xml|javascript|ecmascript|x-www-form-urlencoded|warc-fields|application\/http/;

/** @param {string} media */
const isPicture = (media) => PICTURE_TYPE.test(media);

/** @param {string} media */
const isHtml = (media) => media === 'text/html' || media === 'application/xhtml+xml';

/** @param {string} media */
const isText = (media) => TEXT_TYPE.test(media);

const IN_TYPE = /[;\s]charset\s*=\s*["']?\s*([^\s"';]+)/i;
const IN_CONTENT = /charset\s*=\s*(?:"([^"]*)"|'([^']*)'|([^\s;"']+))/i;
const IN_DECLARATION = /^\s*<\?xml[^>]*?\sencoding\s*=\s*["']([^"'>]+)/i;
const IN_SHEET = /^@charset "([^"]*)";/;

/**
 * How a charset is decoded, by its label; null for one that browsers don't know.
 * @param {string|null|undefined} label
 */
function decoderOf(label) {
  try {
    return label ? new TextDecoder(label) : null;
  } catch {
    return null;
  }
}

/**
 * How a page is decoded by the first of its elements `meta` that names a charset which browsers know.
 * @param {string} front
 */
function decoderByMeta(front) {
  for (const valueOf of metasIn(front)) {
    const isType = valueOf('http-equiv')?.toLowerCase() === 'content-type';
    const [, ...named] = isType && IN_CONTENT.exec(valueOf('content') ?? '') || [];
    const found = decoderOf(valueOf('charset')) ?? decoderOf(named.find((it) => it));
    if (found) return found;
  }
  return null;
}

/**
 * How a body is decoded by the charset that its own beginning names. It can name it in ASCII alone, so it isn't UTF-16.
 * @param {string} front
 * @param {string} media
 */
function decoderIn(front, media) {
  const isPage = isHtml(media), byMeta = isPage ? decoderByMeta(front) : null;
  const [, declared] = isPage || media.endsWith('xml') ? IN_DECLARATION.exec(front) ?? [] : [];
  const [, ofSheet] = media === 'text/css' ? IN_SHEET.exec(front) ?? [] : [];
  const found = byMeta ?? decoderOf(declared) ?? decoderOf(ofSheet);
  return found?.encoding.startsWith('utf-16') ? new TextDecoder() : found;
}

/**
 * How a body is decoded by the mark at its beginning, which goes before all that names a charset.
 * @param {Uint8Array} body
 */
function decoderByMark(body) {
  if (body[0] === 0xef && body[1] === 0xbb && body[2] === 0xbf) return new TextDecoder();
  if (body[0] === 0xfe && body[1] === 0xff) return new TextDecoder('utf-16be');
  return body[0] === 0xff && body[1] === 0xfe ? new TextDecoder('utf-16le') : null;
}

/**
 * A body as text, or as much of its beginning as has a number of characters. Browsers choose its charset so: by its
 * mark, by its type, or by its own beginning. If none of them names one that is known, it is UTF-8 if all of it is.
 * @param {Uint8Array} body
 * @param {string} type
 * @param {number} most characters. There may be more of them in the text
 */
function textOf(body, type, most) {
  const front = latin.decode(body.subarray(0, MOST_OF_META)), media = mediaOf(type, body, '');
  const stated = type.split(',').reverse().map((it) => IN_TYPE.exec(it)?.[1]).find((it) => it);
  const decoder = decoderByMark(body) ?? decoderOf(stated) ?? decoderIn(front, media);
  const part = body.subarray(0, most * MOST_OF_CHARACTER), how = {stream: part.length < body.length};
  if (decoder) return decoder.decode(part, how);
  try {
    return new TextDecoder('utf-8', {fatal: true}).decode(part, how);
  } catch {
    return new TextDecoder('windows-1252').decode(part, how);
  }
}
