// Packages (WACZ), in a worker: the archives in one, which are joined as files are; what it says of its files, compared
// with them; and the pages that it lists.
'use strict';

const ARCHIVE_NAME = /^archive\/[^/]+\.warc(?:\.gz|\.zst)?$/s;
const PACKAGE_NAME = /^[^/]+\.wacz$/s;
const STATED_HASH = /^(sha256|sha512|sha1|md5):([0-9a-f]+)$/i;
/** @type {Record<string, number>} */
const HASH_DIGITS = {
  sha256: 64,
  sha512: 128,
  sha1: 40,
  md5: 32
};
const DESCRIPTION = 'datapackage.json', DESCRIPTION_DIGEST = 'datapackage-digest.json';
const PAGE_LISTS = ['pages/pages.jsonl', 'pages/extraPages.jsonl'];
const MOST_JSON = 16 * MEGABYTE;  // bytes of a description, and of a line of pages
const MOST_PAGES = 100000;
const MOST_URL = 65536;   // characters: no head of a record has a longer URI
const MOST_TITLE = 1000;  // characters
const MOST_HASHED = 1024 * MEGABYTE;
const LEAST_TOLD = 16 * MEGABYTE;  // bytes after which progress is reported again
const VERDICT_WORDS = ['good', 'bad', 'unchecked'];
// The kinds of damage of an archive, by what compressed it.
/** @type {Record<string, string>} */
const FAULT_KINDS = {
  gzip: 'members',
  zstd: 'unread',
  '': 'entry'
};
// Of several statements on a file the worst counts.
const WORST_FIRST = ['bad', 'unchecked', 'good'];
const HEAD_OF_FILE = 'WARC/1.1\r\nWARC-Type: metadata\r\nWARC-Date: 2020-01-01\r\n' +
    'WARC-Record-ID: <urn:uuid:00000000-0000-4000-8000-000000000001>\r\n';

// An object of JSON; an empty one if the bytes are none.
/** @type {(bytes: Uint8Array) => any} */
function objectOf(bytes) {
  try {
    const value = JSON.parse(new TextDecoder('utf-8', {fatal: true}).decode(bytes));
    return value && typeof value === 'object' && !Array.isArray(value) ? value : {};
  } catch {
    return {};
  }
}

/** @type {(bytes: Uint8Array) => boolean} */
const startsPackage = (bytes) => bytes.length === FIRST_BYTES && viewOf(bytes).getUint32(0, true) === OF_LOCAL;

// A package that is read from a file.
class Package {
  /**
   * @param {Blob} file
   * @param {string} name
   */
  constructor(file, name) {
    this.file = file;
    this.name = name;
    /** @type {Map<string, ZipEntry>} */
    this.entries = new Map();
    this.roots = [''];  // what the names of each package begin with that is in this one
    /** @type {ZipEntry[]} */
    this.archives = [];
  }

  // Reads what is in it. BadZip is thrown where its ZIP is refused.
  async read() {
    this.add('', await entriesOf(this.file));
    for (const entry of [...this.entries.values()].filter(({name}) => PACKAGE_NAME.test(name)))
      await this.addPackage(entry);
    const isArchive = (/** @type {string} */ name) =>
        this.roots.some((root) => name.startsWith(root) && ARCHIVE_NAME.test(name.slice(root.length)));
    this.archives = [...this.entries.values()].filter(({name}) => isArchive(name)).sort(byName);
    if (!this.archives.length) refuseZip('NoArchive', 'it holds neither archive/*.warc nor archive/*.warc.gz', 0);
  }

  /** @type {(root: string, entries: ZipEntry[]) => void} */
  add(root, entries) {
    for (const entry of entries) {
      const name = root + entry.name;
      if (this.entries.has(name)) refuseZip('Twice', `a folder has the name of the package “${root}”`, entry.head);
      this.entries.set(name, {...entry, name});
    }
  }

  // Adds the entries of a package that is in this one.
  /** @type {(entry: ZipEntry) => Promise<void>} */
  async addPackage(entry) {
    const {name, method, offset} = entry;
    if (method !== STORED_METHOD) refuseZip('Coded', `the package “${name}” is compressed`, offset);
    const inner = this.file.slice(entry.begin, entry.begin + entry.packed), root = `${entry.name}/`;
    const entries = await entriesOf(inner, Math.max(MOST_ENTRIES - this.entries.size, 0)).catch((error) => {
      if (!(error instanceof BadZip)) throw error;
      return refuseZip(error.fault, `in “${entry.name}”: ${error.message}`, entry.begin + error.offset);
    });
    this.roots.push(root);
    this.add(root, entries);
  }

  // The bytes of a file. None if it isn't there, is too long, or is damaged.
  /** @type {(name: string) => Promise<Uint8Array>} */
  async fileOf(name) {
    const entry = this.entries.get(name);
    if (!entry || entry.size > MOST_JSON) return new Uint8Array();
    const bytes = new Uint8Array(entry.size);
    let at = 0;
    try {
      for await (const piece of contentOf(entry)) {
        bytes.set(piece, at);
        at += piece.length;
      }
    } catch (error) {
      if (!(error instanceof BadEntry)) throw error;
      return new Uint8Array();
    }
    return bytes;
  }

  // Who a signature names, which isn't checked.
  /** @type {() => Promise<string>} */
  async signer() {
    const {signedData} = objectOf(await this.fileOf(DESCRIPTION_DIGEST));
    const names = [signedData?.domain, signedData?.publicKey];
    return names.find((name) => typeof name === 'string' && name) ?? '';
  }

  // What is stated of each file that is listed.
  /** @type {() => Promise<Map<string, {hash: any, bytes: any}[]>>} */
  async statements() {
    const found = new Map();
    for (const root of this.roots) {
      const {resources} = objectOf(await this.fileOf(root + DESCRIPTION));
      for (const it of Array.isArray(resources) ? resources : []) {
        if (typeof it?.path !== 'string') continue;
        const name = root + it.path;
        found.set(name, [...(found.get(name) ?? []), {hash: it.hash, bytes: it.bytes}]);
      }
    }
    return found;
  }

  // The verdict on each file in it, and on each that is listed.
  /** @type {(judge: JudgeOfFile) => Promise<PackedFile[]>} */
  async resources(judge) {
    const stated = await this.statements(), found = [];
    const own = new Set(this.roots.flatMap((root) => [root + DESCRIPTION, root + DESCRIPTION_DIGEST]));
    for (const name of [...new Set([...this.entries.keys(), ...stated.keys()])].sort()) {
      const entry = this.entries.get(name), statements = stated.get(name) ?? [];
      if (own.has(name) || (entry && isFolder(entry))) continue;
      const verdict = entry ? await verdictOn(entry, statements, judge) : 'missing';
      found.push({path: name, verdict: statements.length || verdict === 'bad' ? verdict : 'unlisted'});
    }
    for (const root of this.roots) found.push(await this.descriptionOf(root, judge));
    return found;
  }

  // The verdict on a description, by the file beside it.
  /** @type {(root: string, judge: JudgeOfFile) => Promise<PackedFile>} */
  async descriptionOf(root, judge) {
    const path = root + DESCRIPTION, entry = this.entries.get(path);
    if (!this.entries.has(root + DESCRIPTION_DIGEST)) return {path, verdict: 'absent'};
    const {hash} = objectOf(await this.fileOf(root + DESCRIPTION_DIGEST));
    return {path, verdict: entry ? await verdictOn(entry, [{hash, bytes: null}], judge) : 'missing'};
  }

  // The pages that it lists, how many lines were no pages, and whether there are more.
  /** @type {() => Promise<PackedPages>} */
  async pages() {
    /** @type {PackedPages} */
    const all = {list: [], others: 0, isCut: false};
    for (const name of PAGE_LISTS)
      for (const root of this.roots) {
        const entry = this.entries.get(root + name);
        if (entry && await isWhole(entry)) await addPages(entry, all);
      }
    return all;
  }
}

// How the bytes of an entry compare with what is stated of them.
/** @type {(entry: ZipEntry, statements: {hash: any, bytes: any}[], judge: JudgeOfFile) => Promise<string>} */
async function verdictOn(entry, statements, judge) {
  if (!await isWhole(entry)) return 'bad';
  if (statements.some(({bytes}) => Number.isInteger(bytes) && bytes !== entry.size)) return 'bad';
  const verdicts = new Set();
  for (const {hash} of statements) verdicts.add(await verdictByHash(entry, hash, judge));
  return WORST_FIRST.find((verdict) => verdicts.has(verdict)) ?? 'unchecked';
}

// How the bytes of an entry compare with a hash that is stated. The library judges it, as it judges the block of a
// record that states this digest.
/** @type {(entry: ZipEntry, hash: any, judge: JudgeOfFile) => Promise<string>} */
async function verdictByHash(entry, hash, judge) {
  const [, algorithm, digits] = (typeof hash === 'string' && STATED_HASH.exec(hash)) || [];
  if (!algorithm || digits.length !== HASH_DIGITS[algorithm.toLowerCase()] || entry.size > MOST_HASHED)
    return 'unchecked';
  const lines = `WARC-Block-Digest: ${algorithm}:${digits}\r\nContent-Length: ${entry.size}\r\n\r\n`;
  const head = new TextEncoder().encode(HEAD_OF_FILE + lines), rows = new ArrayBuffer(ROW_BYTES);
  const view = new DataView(rows);
  [0, head.length, entry.size].forEach((number, place) => view.setBigUint64(8 * place, BigInt(number), true));
  const file = new Blob([head, await blobOf(entry)]);
  const [verdict] = await judge({file, ranges: [{from: 0, to: file.size}], rows});
  return VERDICT_WORDS[verdict] ?? 'unchecked';
}

// The bytes of an entry, which are those of the file where it is stored.
/** @type {(entry: ZipEntry) => Promise<Blob>} */
async function blobOf(entry) {
  if (entry.method === STORED_METHOD) return entry.file.slice(entry.begin, entry.begin + entry.packed);
  const pieces = [];
  for await (const piece of contentOf(entry)) pieces.push(await kept(piece));
  return new Blob(pieces);
}

// Whether the bytes of an entry are what the directory says of them.
/** @type {(entry: ZipEntry) => Promise<boolean>} */
async function isWhole(entry) {
  try {
    for await (const _ of contentOf(entry))
      ;
  } catch (error) {
    if (!(error instanceof BadEntry)) throw error;
    return false;
  }
  return true;
}

// Adds the pages of a list.
/** @type {(entry: ZipEntry, all: PackedPages) => Promise<void>} */
async function addPages(entry, all) {
  let isFirst = true;
  for await (const line of linesOf(entry)) {
    const said = line ? objectOf(line) : {}, isHead = isFirst && 'format' in said, page = pageOf(said);
    isFirst = false;
    if (page && all.list.length === MOST_PAGES) {
      all.isCut = true;
      return;
    }
    if (page)
      all.list.push(page);
    else if (!isHead)
      all.others += 1;
  }
}

// The page of a line, whose text is dropped.
/** @type {(said: any) => PackedPage|null} */
function pageOf({url, ts, title}) {
  if (typeof url !== 'string' || !url || url.length > MOST_URL) return null;
  const text = (/** @type {any} */ it) => (typeof it === 'string' ? it.slice(0, MOST_TITLE) : '');
  return {url, moment: text(ts), title: text(title)};
}

// The lines of an entry that aren't empty. One that is too long is null.
/** @type {(entry: ZipEntry) => AsyncGenerator<Uint8Array|null>} */
async function* linesOf(entry) {
  /** @type {Uint8Array[]} */
  let held = [], length = 0;
  const line = () => {
    const bytes = length > MOST_JSON ? null : new Uint8Array(length);
    if (bytes) held.reduce((at, part) => (bytes.set(part, at), at + part.length), 0);
    [held, length] = [[], 0];
    return bytes;
  };
  for await (const piece of contentOf(entry)) {
    for (let from = 0; from < piece.length;) {
      const end = piece.indexOf(10, from), to = end < 0 ? piece.length : end;
      length += to - from;
      if (length <= MOST_JSON) held.push(piece.slice(from, to));
      if (end >= 0 && length) yield line();
      from = to + 1;
    }
  }
  if (length) yield line();
}

// Files that a reader chose: packages, and others, which are archives. Gives the archives of all.
class Opening {
  /**
   * @param {File[]} files
   * @param {() => boolean} isOver whether nobody wants them any more
   * @param {(progress: {name: string, read: number, size: number, unpacked: number}) => void} tell
   */
  constructor(files, isOver, tell) {
    this.files = files;
    this.isOver = isOver;
    this.tell = tell;
    /** @type {Package[]} */
    this.packages = [];
    /** @type {PackedDamage|null} */
    this.damage = null;
    this.left = 0;  // files after it
  }

  // The archives, up to the first damage.
  /** @type {() => Promise<NamedBlob[]>} */
  async archives() {
    const found = [];
    this.left = this.files.length;
    for (const file of this.files) {
      this.left -= 1;
      if (!startsPackage(await bytesOfFile(file, 0, Math.min(FIRST_BYTES, file.size))))
        found.push(file);
      else
        found.push(...await this.archivesIn(file));
      if (this.damage || this.isOver()) break;
    }
    return found;
  }

  /** @type {(file: File) => Promise<NamedBlob[]>} */
  async archivesIn(file) {
    const it = new Package(file, file.name), found = [];
    try {
      await it.read();
      this.packages.push(it);
      for (const entry of it.archives) {
        if (this.isOver()) break;
        found.push(await this.archiveOf(file, entry));
      }
    } catch (error) {
      if (!(error instanceof BadZip)) throw error;
      this.damage = {kind: 'zip', name: file.name, offset: error.offset, why: error.message};
    }
    return found;
  }

  // The bytes of an archive, which are tried against their CRC. Of one that isn't what was packed these are what gzip
  // wrote, since its members are judged by themselves, and else nothing. Of one that zstd compressed there are none.
  /** @type {(file: File, entry: ZipEntry) => Promise<NamedBlob>} */
  async archiveOf(file, entry) {
    const name = this.files.length > 1 ? `${file.name}/${entry.name}` : entry.name, pieces = [];
    let read = 0, told = 0, why = '';
    try {
      for await (const piece of contentOf(entry)) {
        if (this.isOver()) break;
        if (entry.method === DEFLATED_METHOD) pieces.push(await kept(piece));
        read += piece.length;
        if (read - told < LEAST_TOLD) continue;
        told = read;
        this.tell({name, read, size: entry.size, unpacked: read});
      }
    } catch (error) {
      if (!(error instanceof BadEntry)) throw error;
      why = error.message;
    }
    const stored = entry.file.slice(entry.begin, entry.begin + entry.packed);
    const held = entry.method === DEFLATED_METHOD ? new Blob(pieces) : stored;
    const packing = packingOf(await bytesOfFile(held, 0, Math.min(FIRST_BYTES, held.size)));
    if (!why && packing !== 'zstd') return Object.assign(held, {name});
    const kind = FAULT_KINDS[packing], {offset, packed: length} = entry;
    return Object.assign(packing === 'gzip' ? held : new Blob(), {name, fault: {kind, name, offset, why, length}});
  }
}
