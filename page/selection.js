// Saves the records that the list shows, as one file. Where a record begins is what the library says of it, and a
// record ends where the next one begins, or where its run of good records does.
'use strict';

const OF_SELECTION = 'The file is an archive. A revisit in it may give another reason than here, or the body of ' +
    'another record that fits (the same id, URI and date, or digest), and a segmented record another gap, or a body, ' +
    'if a record that it leads to is left out.';

// Whether it is known where each record that the list shows ends, and there is one.
const canSaveShown = () => room.listed && room.end > 0 && Boolean(room.order?.length);

/**
 * Where the bytes of records are in the file, in the archive's order. Those of neighbours are one range.
 * @param {number[]} positions
 */
function rangesOf(positions) {
  const {rows, runs} = room, sorted = [...positions].sort((a, b) => a - b);
  /** @type {ByteRange[]} */
  const ranges = [];
  for (const position of sorted) {
    const from = rows.offset(position), next = position + 1 < rows.count ? rows.offset(position + 1) : Infinity;
    const to = Math.min(next, runs.endOfRun(from));
    const last = ranges[ranges.length - 1];
    if (last?.to === from)
      last.to = to;
    else
      ranges.push({from, to});
  }
  return ranges;
}

/**
 * The bytes of a group. Those of one range are read by the browser once it saves them. Several are read here, since a
 * browser takes seconds for thousands of slices.
 * @param {Blob} file
 * @param {ByteRange[]} group
 */
async function partOf(file, group) {
  const {from} = group[0], {to} = group[group.length - 1];
  if (group.length === 1) return file.slice(from, to);
  const bytes = await bytesOfFile(file, from, to);
  return new Blob(group.map((it) => bytes.subarray(it.from - from, it.to - from)));
}

/**
 * The bytes of ranges of a file, one after another.
 * @param {Blob} file
 * @param {ByteRange[]} ranges
 */
async function blobOf(file, ranges) {
  const parts = [], starts = room.parts.map(({start}) => start).filter((start) => start < file.size);
  for (const group of groupsOf(ranges)) parts.push(await partOf(file, group));
  const blob = new Blob(parts);
  for (const start of starts) await bytesOfFile(file, start, start + 1);  // a file that has changed isn't read again
  await blob.slice(blob.size - 1).arrayBuffer().catch(() => {
    throw new Error('the browser has no room for it');
  });
  return blob;
}

/**
 * Saves records as one file, and says so.
 * @param {ByteRange[]} ranges where they are
 * @param {string} name
 * @param {number} count
 */
async function saveRecords(ranges, name, count) {
  const words = many(count, 'record'), called = `${name}-of-${nameWhenJoined()}`;  // others may be opened meanwhile
  say(`Reading what is to be saved: ${words}…`);
  try {
    const bytes = await blobOf(room.file, ranges);
    download(bytes, called);
    say(`Given to the browser to be saved: ${words}, ${size(bytes.size)}.`);
  } catch (error) {
    say(`Nothing is saved: ${plainly(whyOf(error))}.`);
  }
}

async function saveShown() {
  if (canSaveShown()) await saveRecords(rangesOf(room.order), 'records', room.order.length);
}

// What is said of saving the records that the list shows now.
function drawSaving() {
  const count = room.order?.length ?? 0, isAll = count === room.rows.count, place = byId('save-shown');
  place.disabled = !canSaveShown();
  place.textContent = count === 1 ? 'Save this record' : `Save these ${count ? many(count, 'record') : 'records'}`;
  const bytes = 'as one WARC file that isn’t compressed, byte for byte, in the archive’s order.';
  byId('of-saving').textContent = isAll || !count ? bytes : `${bytes} ${OF_SELECTION}`;
}
