// The body of a capture: as a page, a picture or a text, or why there is none.
'use strict';

// A revisit as wget 1.21 writes it: with the digest of no bytes, although it stores the HTTP head.
const EMPTY_DIGEST = 'SHA1:3I42H3S6NNFQ2MSVX7XZKYAYSCX5QBYJ';  // the SHA-1 of no bytes
const OF_WGET = 'The digest of this revisit is bad since wget 1.21 states the digest of no bytes in each revisit, ' +
    'although it stores the HTTP head there. It says nothing of the body, which comes from another record with a ' +
    'digest of its own.';
const MOST_LOOKED_AT = 1000;  // records with a bad block

/**
 * @param {Row} row
 * @param {[string, string][]} fields
 */
function isOfWget(row, fields) {
  const isRevisit = row.blockLength > 0 && row.kind.toLowerCase() === 'revisit';
  return isRevisit && fieldOf(fields, 'WARC-Block-Digest').toUpperCase() === EMPTY_DIGEST;
}

// Counts the bad blocks that are bad since wget wrote them so, for the overview.
async function lookForWget() {
  /** @type {Row[]} */
  const revisits = [];
  const {file, rows} = room;
  for (let position = 0; position < rows.count && revisits.length < MOST_LOOKED_AT; position += 1) {
    if (rows.verdict(position) === BAD && rows.row(position).kind.toLowerCase() === 'revisit')
      revisits.push(rows.row(position));
  }
  if (!revisits.length) return;
  const heads = await Promise.all(revisits.map((row) => headOf(row).catch(() => null)));
  const read = await room.library.heads(heads.map((head) => ({head, front: null}))).catch(() => []);
  const found = read.filter(({fields}, number) => isOfWget(revisits[number], asTexts(fields ?? [], shown))).length;
  if (file !== room.file || !found) return;
  room.ofWget = found;
  drawPlots();
}

/**
 * What the overview says of bad blocks by wget.
 * @param {number} found
 * @param {number} bad
 */
function wgetWords(found, bad) {
  const some = `${found} of the ${bad} bad blocks ${found === 1 ? 'is a revisit' : 'are revisits'}`;
  const all = bad === 1 ? 'The bad block is a revisit' : `All ${bad} bad blocks are revisits`;
  const why = 'which states the digest of no bytes there, although it stores the HTTP head';
  return `${found === bad ? all : some} by wget 1.21, ${why}. That says nothing of the bodies.`;
}

/** @param {Subject} it */
function fileName(it) {
  const path = shown(it.row.target).split(/[?#]/)[0].split('/').pop();
  return path || 'page.html';
}

/**
 * Whether the library gives no body because it is stored chunked or compressed.
 * @param {Answer|undefined|null} answer
 */
const isCoded = (answer) => numberOf(answer?.reason ?? '') === 'P10';

const WITH_OTHERS = 'Open the archive together with the file that has it, or choose another capture of this URI.';
const IN_OTHER_FILES = new Set(['P4', 'P5']);

/**
 * Why there is no body, and what to do. Where all captures are later, they are listed.
 * @param {string} reason
 * @param {Uint8Array} [uri]
 */
function noBody(reason, uri) {
  const number = numberOf(reason), captures = number === 'P2' && uri ? capturesOf(uri) : [];
  const links =
      captures.slice(0, MOST_LISTED).map((it) => make('li', {}, recordLink(it.position, it.date), ` ${it.kind}`));
  const more = links.length ? [make('ul', {className: 'plain-list'}, ...links)] : [];
  return reasonNote(reason, {can: IN_OTHER_FILES.has(number) ? WITH_OTHERS : '', more});
}

/**
 * What is said before a body: where a revisit leads, or why there is none.
 * @param {Subject} it
 */
function wordsBefore(it) {
  const {answer, given, row} = it, words = answer ? damageNote() : [];
  if (it.note) words.push(note(it.note));
  if (!room.holds && isCapture(row)) words.push(note(`${notReplayed()} The block is shown as it is stored.`));
  if (given !== row) {
    const link = recordLink(given.position, `record ${given.position}`);
    words.push(note('This is a revisit: it has the payload of ', link, `, captured ${plainly(given.date)}.`));
  }
  if (isOfWget(row, it.own.fields)) words.push(note(OF_WGET));
  if (answer?.reason && !isCoded(answer)) words.push(noBody(answer.reason));
  words.push(...wordsOfStatus(it));
  if (answer?.truncated) {
    const truncated =
        'A record that this body is joined from is marked as truncated: the page was captured only in part.';
    words.push(make('p', {className: 'note'}, truncated));
  }
  return words;
}

/**
 * What the status of a capture means for its reader.
 * @param {Subject} it
 */
function wordsOfStatus(it) {
  const status = it.answer?.status ?? 0, location = it.http?.get('location');
  if (status >= 400) return [note(`Status ${status}: this is the server’s error page.`)];
  const leads = status >= 300 && location ? resolved(location, shown(it.row.target)) : null;
  if (!leads) return [];
  const link = button('link', () => openAsOf(typed(leads), moments(it)[1][1], true), {}, plainly(leads));
  return [note(`Status ${status}: the server sent the reader on to `, link, '.')];
}

/**
 * The bytes that are shown: the body that the library gives, or a coded body as the browser decodes it, or none.
 * @param {Subject} it
 * @returns {Promise<Found>}
 */
async function bodyOf(it) {
  if (it.answer?.body) return {bytes: it.answer.body, words: []};
  const stored = await bytesAt(it.given.blockStart, it.given.blockLength);
  if (!isCoded(it.answer)) return {bytes: null, stored, words: []};
  const said = `${it.answer.reason}: ${plain(inWords(it.answer.reason)[1])}`;
  try {
    const {body: bytes, steps} = await decoded(stored, it.http);
    const how = ` (${steps.join(', then ')}), outside of what is proved. ${said}`;
    const save = make('div', {className: 'actions'}, saving(`${fileName(it)}.stored`, stored, 'Save the stored block'));
    const words = make('div', {className: 'note'}, make('p', {}, make('b', {}, 'Decoded by this browser'), how), save);
    return {bytes, stored, isDecoded: true, words: [words]};
  } catch (error) {
    const why = `${said} This browser can’t decode it: ${plainly(whyOf(error))}.`;
    return {bytes: null, stored, words: [make('p', {className: 'note reason'}, make('b', {}, 'No body: '), why)]};
  }
}

/**
 * A button that saves a body.
 * @param {Subject} it
 * @param {Found} found
 */
const savingBody = (it, found) =>
    saving(fileName(it), found.bytes, found.isDecoded ? 'Save the decoded bytes' : 'Save the exact bytes');

/** @param {Subject} it */
async function pageTab(it) {
  const found = await bodyOf(it), words = [...wordsBefore(it), ...found.words], {bytes} = found;
  if (!bytes) return [...words, ...storedBytes(it, found.stored)];
  if (!bytes.length) return [...words, make('p', {}, 'The body is empty.')];
  const media = mediaOf(it.type, bytes, shown(it.row.target));
  const facts = make('span', {className: 'small'}, `${media}, ${size(bytes.length)}`);
  const saved = make('div', {className: 'actions'}, savingBody(it, found), facts);
  if (isPicture(media)) return [...words, saved, picture(bytes, media)];
  if (isHtml(media)) return [...words, ...(await htmlView(it, bytes, saved))];
  if (isText(media)) return [...words, saved, textView(textOf(bytes, it.type, MOST_TEXT))];
  const unknown = `The reading room doesn’t show ${media}. Save the bytes, and open them in another program.`;
  const first = make('details', {}, make('summary', {}, 'The first bytes'), hexView(bytes));
  return [...words, saved, make('p', {}, unknown), first];
}

/** @param {Subject} it */
async function sourceTab(it) {
  const found = await bodyOf(it), words = [...wordsBefore(it), ...found.words], {bytes} = found;
  if (!bytes) return [...words, ...storedBytes(it, found.stored)];
  const view = isText(mediaOf(it.type, bytes, '')) ? textView(textOf(bytes, it.type, MOST_TEXT)) : hexView(bytes);
  return [...words, view, make('div', {className: 'actions'}, savingBody(it, found))];
}

/**
 * @param {Uint8Array} bytes
 * @param {string} media
 */
function picture(bytes, media) {
  return make('img', {className: 'picture', src: addressOf(bytes, media, room.urls), alt: 'The captured picture'});
}

/**
 * @param {Subject} it
 * @param {Uint8Array} stored
 */
function storedBytes({given: {position}}, stored) {
  const title = make('p', {className: 'small'}, `The block of record ${position} as it is stored:`);
  const save = saving(`block-${position}`, stored, 'Save the stored block');
  return [title, storedView(stored), make('div', {className: 'actions'}, save)];
}

// ---------------------------------------------------------------- HTML as of a moment

/**
 * The moments as of which a page's pictures and styles may be looked for.
 * @param {Subject} it
 */
function moments(it) {
  const start = captureTime(it.row.date) ?? 0, next = capturesOf(it.row.target).find((capture) => capture.time > start);
  return momentsFrom(it.row.date, next?.time);
}

/**
 * Asks the library, and adds to each answer its content type. A coded body is decoded by the browser, and marked so:
 * one after another, since a few bytes may give many. Together they may have as many bytes as are left.
 * @param {Question[]} questions
 * @param {number} left
 */
async function answersWithTypes(questions, left) {
  const answers = await room.library.ask(questions);
  await Promise.all(answers.map(addType));
  for (const answer of answers) {
    if (isCoded(answer) && answer.given !== null) left = await addDecoded(answer, left);
  }
  return answers;
}

/** @param {Answer} answer */
async function addType(answer) {
  if (answer.given === null || answer.given === undefined) return;
  const {type, http} = await typeOf(room.rows.row(answer.given));
  Object.assign(answer, {type, http});
}

/**
 * Adds a body that the browser decodes. Returns how many bytes are left for others: none, if this one has more.
 * @param {Answer} answer
 * @param {number} left
 */
async function addDecoded(answer, left) {
  const row = room.rows.row(answer.given);
  try {
    if (!left) throw new RangeError('nothing is left');
    const {body, steps} = await decoded(await bytesAt(row.blockStart, row.blockLength), answer.http, left);
    Object.assign(answer, {body, steps, isDecoded: true});
    return left - body.length;
  } catch (error) {
    if (!(error instanceof RangeError) || left >= MOST_DECODED) return left;  // it stays without a body
    Object.assign(answer, {reason: 'left out of this view', isLeftOut: true});
    return 0;
  }
}

// The open archive as what answers a view.
/** @type {ViewHost} */
const ARCHIVE = {
  ask: answersWithTypes,
  visit: () => room.visit,
  keep(urls) {
    forgetUrls();
    room.urls = urls;
  },
  leave: leaveRecord,
  hearDrops: (page) => hearDrops(page),
  has: (uri) => capturesOf(typed(uri)).length > 0,
  lead: (uri, moment) => openAsOf(typed(uri), moment, true),
  line(uri, found) {
    const origin = found.given === found.chosen ? '' : `, from ${found.given}`;
    return [recordLink(found.chosen, plainly(uri)), ` record ${found.chosen}${origin}`];
  },
};

/**
 * @param {Subject} it
 * @param {Uint8Array} bytes
 * @param {Node} saved
 */
async function htmlView(it, bytes, saved) {
  const view = new PageView(ARCHIVE, htmlOf(bytes, it.type), shown(it.row.target), moments(it), it.visit);
  await view.draw();
  return view.nodes(saved);
}
