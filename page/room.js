// The reading room: what it knows of the open archive, and what it says while the archive is read.
'use strict';

const LIMIT = 2 * 1024 ** 3;  // bytes: longer archives are listed, and not kept in memory
const CAPTURES = new Set(['response', 'resource', 'revisit']);
const MOST_NAMED = 20;  // files

// ---------------------------------------------------------------- the archive

/** @type {Room} */
const room = {
  ...emptyRoom(null, []),
  library: null,
  filters: new Map(),
  sort: {by: 'position', up: true},
  visit: 0,
  asked: 0,
  urls: [],
  tab: '',
};

/**
 * What is known of an archive that was just opened.
 * @param {Blob|null} file
 * @param {string[]} names of its files
 */
function emptyRoom(file, names) {
  return /** @type {RoomOfFile} */ ({
    file,
    names,
    parts: [],
    damage: null,
    gaps: [],
    left: 0,
    packages: new Map(),
    number: Date.now(),
    rows: new Rows(),
    counts: new Counts(),
    fault: '',
    runs: Runs.one(0),
    damages: Damages.none(),
    unsought: '',
    end: 0,
    holds: false,
    listed: false,
    isOpen: false,
    isStopped: false,
    findings: null,
    findingLines: '',
    order: null,
    waits: [],
    current: -1,
    words: '',
    captures: null,
    capturesOver: 0,
    targets: null,
    ofWget: null,
    texts: new TextSearch(),
    drawn: Infinity,
    began: performance.now(),
    listedIn: 0,
    foundIn: 0,
  });
}

/**
 * The host of a target, for readers.
 * @param {Uint8Array} target
 */
function hostOf(target) {
  const found = /^[a-z][a-z0-9+.-]*:\/\/(?:[^/?#@]*@)?([^/?#]*)/i.exec(shown(target.subarray(0, 400)));
  return plainly(found?.[1]?.toLowerCase() ?? '');
}

// Whether the archive is more than one file.
const isOfFiles = () => room.parts.length > 1;

// A name for the uncompressed bytes of the archive.
const nameWhenJoined = () =>
    (room.names.length > 1 ? 'archive.warc' : room.names[0].replace(/\.gz$/i, '').replace(/\.wacz$/i, '.warc'));

/**
 * The number of the file that has a byte of the archive.
 * @param {number} offset
 */
function fileAt(offset) {
  let low = 0, high = room.parts.length - 1;
  while (low < high) {
    const middle = (low + high + 1) >> 1;
    if (room.parts[middle].start <= offset)
      low = middle;
    else
      high = middle - 1;
  }
  return low;
}

/**
 * Where a byte of the archive is, if the archive is more than one file, or compressed.
 * @param {number} offset
 */
function placeInFile(offset) {
  const {name, start, isPacked} = room.parts[fileAt(offset)], packed = isPacked ? ', decompressed' : '';
  const where = isOfFiles() ? ` (byte ${(offset - start).toLocaleString('en')} of ${plainly(name)}${packed})` : '';
  return where || (isPacked ? ' of what the file decompresses to' : '');
}

// A file that isn't an archive by itself: its last record ends in the next file. None if no record does so.
function crossing() {
  const {rows, parts} = room;
  for (let number = 1; number < parts.length && rows.count; number += 1) {
    const {start} = parts[number], row = rows.row(lastOf(rows.count, (position) => rows.offset(position) <= start));
    const before = parts[fileAt(row.offset)];
    if (row.offset < start && row.blockStart + row.blockLength > start && before.start < start)
      return {kind: 'crossing', name: before.name, offset: row.offset - before.start, why: ''};
  }
  return null;
}

/** @param {Row} row */
const isCapture = (row) => CAPTURES.has(row.kind.toLowerCase());

// ---------------------------------------------------------------- opening

/** @param {string} text */
function say(text) {
  byId('status').textContent = text;
}

/**
 * Shows which part is done; a negative one is unknown, and null is the end.
 * @param {number|null} part
 */
function showProgress(part) {
  const bar = byId('progress');
  bar.hidden = part === null;
  if (part === null) return;
  if (part < 0)
    bar.removeAttribute('value');
  else
    bar.value = part;
}

// What the head of the page says of the files: their names and sizes, in the order in which they are joined.
function showFiles() {
  const {names, parts, file} = room, first = plainly(names.length > 1 ? parts[0]?.name ?? names[0] : names[0]);
  const more = names.length > 1 ? ` and ${many(names.length - 1, 'more file')}` : '';
  const packed = parts.some((part) => part.isPacked) ?
      `, decompressed from ${size(parts.reduce((sum, part) => sum + part.size, 0))}` :
      '';
  const title = names.length > 1 ? parts.slice(0, MOST_NAMED).map((part) => plainly(part.name)).join('\n') : '';
  const sizes = parts.length ? `${more ? ',' : ''} ${size(file.size)}${packed}` : '';
  byId('opened').replaceChildren(make('b', {title}, first), more, sizes);
  document.title = `${first}${more} – Zogwedu reading room`;
}

/** @param {File[]} files one or more */
function openFiles(files) {
  closeRecord();
  Object.assign(room, emptyRoom(files[0], files.map((file) => file.name)), {sort: {by: 'position', up: true}});
  room.filters.clear();
  byId('words').value = '';
  searchInTexts(false);
  byId('start').hidden = true;
  byId('room').hidden = false;
  byId('room').classList.remove('unreadable', 'of-files');
  byId('another').hidden = false;
  byId('damage').hidden = true;
  byId('package').hidden = true;
  byId('package').replaceChildren();
  byId('opened').hidden = false;
  showFiles();
  if (matchMedia('(max-width: 44em)').matches) foldPlots(true);
  say('Reading…');
  showProgress(0);
  drawAll();
  room.library.open(files);
}

let drawing = false;

// Draws all in the next frame.
function soon() {
  if (drawing) return;
  drawing = true;
  requestAnimationFrame(() => {
    drawing = false;
    drawAll();
  });
}

/** @param {number} time */
const seconds = (time) => `${(time / 1000).toFixed(1)} s`;

/**
 * What is done where the worker reports something.
 * @type {Record<string, (message: any) => void>}
 */
const REPORTS = {
  unpacking({name, read, size: all, unpacked}) {
    say(`Decompressing ${plainly(name)}: ${size(read)} of ${size(all)}, to ${size(unpacked)}`);
    showProgress(read / all);
  },

  joined({file, parts, damage, gaps, left}) {
    Object.assign(room, {file, parts, damage, gaps, left});
    byId('room').classList.toggle('of-files', isOfFiles());
    showFiles();
  },

  rows(message) {
    room.rows.add(message);
    say(`Reading: ${many(room.rows.count, 'record')}, ${size(message.read)} of ${size(message.size)}`);
    showProgress(message.size ? message.read / message.size : 1);
    soon();
  },

  seeking({fault}) {
    room.fault = fault;
    say(`${fault}. Looking for good records after it…`);
    showProgress(-1);
  },

  listed({fault, pieces, end, holds}) {
    const known = {runs: new Runs(pieces.runs), damages: new Damages(pieces, room.gaps), unsought: pieces.why};
    Object.assign(room, known, {fault, end, holds, listed: true, listedIn: performance.now() - room.began});
    room.damage ??= crossing();
    showDamage();
    const looks = holds && Boolean(end || !(fault || room.damage)), words = looks ? ' Looking for findings…' : '';
    const tooLong = holds ? '' : ' This archive is too long to be replayed here.';
    say(`${many(room.rows.count, 'record')} read in ${seconds(room.listedIn)}.${words}${tooLong}`);
    showProgress(looks ? -1 : null);
    soon();
    searchInTexts(room.texts.isOn);
  },

  package({name, pages}) {
    showPackage(name, pages);
  },

  packed({name, resources, signer}) {
    room.packages.get(name)?.replaceChildren(...fileNodes(resources, signer));
  },

  verdicts({first, verdicts}) {
    if (!room.listed) return;
    room.rows.judge(first, verdicts);
    room.counts.judge(verdicts);
    endWaits(({position}) => room.rows.verdict(position) !== UNJUDGED);
    if (room.counts.judged === room.rows.count) lookForWget();
    soon();
  },

  findings({lines}) {
    Object.assign(room, {findingLines: lines, findings: readFindings(lines), foundIn: performance.now() - room.began});
    const times = `${seconds(room.listedIn)}, findings after ${seconds(room.foundIn)}`;
    say(`${many(room.rows.count, 'record')} read in ${times}`);
    showProgress(null);
    drawAll();
  },

  opened() {
    room.isOpen = true;
  },

  failed({why}) {
    showProgress(null);
    const words = /memory/i.test(why) ? 'The memory of this browser doesn’t suffice for it.' : `${plainly(why)}.`;
    say(`The library stopped: ${words}`);
    Object.assign(room, {holds: false, listed: true, isStopped: true});
    endWaits(() => true);
    drawAll();
  },
};

/** @param {any} message */
function hear(message) {
  REPORTS[message.report](message);
}

/** @param {(wait: {position: number}) => boolean} isOver */
function endWaits(isOver) {
  room.waits.filter(isOver).forEach(({done}) => done());
  room.waits = room.waits.filter((wait) => !isOver(wait));
}

/**
 * Waits until the block of the record at a position is judged, or none is any more.
 * @param {number} position
 * @returns {Promise<void>}
 */
function judged(position) {
  if (room.isStopped || room.rows.verdict(position) !== UNJUDGED) return Promise.resolve();
  return new Promise((done) => {
    room.waits.push({position, done});
  });
}

// Why nothing is replayed.
function notReplayed() {
  if (room.isStopped) return 'The library stopped, so nothing is replayed.';
  if (!room.listed) return 'This archive is still being read, so nothing is replayed yet.';
  return 'This archive is too long to be replayed here.';
}

/**
 * @param {string} lines
 * @returns {Finding[]}
 */
function readFindings(lines) {
  return lines.split('\n').filter((line) => line).map((line) => {
    const [position, number, ...field] = line.split(' ');
    return {position: position === '-' ? null : Number(position), number, field: field.join(' ')};
  });
}
