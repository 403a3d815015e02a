// The reading room over a collection. A server answers what the library answers for one archive.
'use strict';

const TOP = document.body.dataset.top;
const FIRST_REASON = /^(?:chosen .* )?([PE]\d+ [A-Z]\w*.*)$/m;
const IN_PATH = /[A-Za-z0-9._~-]/;
const LATER = '9999';  // how a view writes a moment after all captures
const LATEST = '99991231235959';
const DIGITS = 23;          // of an instant with nanoseconds
const LIST_LIMIT = 5000;    // captures that are shown as points
const FIRST_PAGES = '0-0';  // where the pages of packages begin
const MOST_COUNTED = 100;   // captures of a near URI that the server counts

/** @type {{visit: number, asked: number, urls: string[]}} */
const served = {
  visit: 0,
  asked: 0,  // how often a reader asked for a page
  urls: []
};

// ---------------------------------------------------------------- what the server is asked

/**
 * Bytes in a path of the server, each but letters, digits and a few marks as an escape.
 * @param {Uint8Array} target
 */
function pathOf(target) {
  return [...target]
      .map((byte) => {
        const letter = String.fromCharCode(byte);
        return IN_PATH.test(letter) ? letter : `%${byte.toString(16).toUpperCase().padStart(2, '0')}`;
      })
      .join('');
}

/**
 * The bytes that a part of an address means, as the server reads it: escapes count if there is no colon.
 * @param {string} path
 */
function targetIn(path) {
  if (path.includes(':')) return typed(path);
  const bytes = path.replace(/%([0-9A-Fa-f]{2})/g, (_, digits) => String.fromCharCode(parseInt(digits, 16)));
  return Uint8Array.from(bytes, (letter) => letter.charCodeAt(0));
}

/**
 * An instant, as the server or a view writes it, as digits with nanoseconds.
 * @param {string} instant
 */
function digitsOf(instant) {
  if (instant === LATER) return LATEST;
  const [seconds, part = ''] = instant.replace(/[-:TZ]/g, '').split('.');
  return seconds + part.padEnd(9, '0');
}

/**
 * The digits of a date that a reader typed, which the server reads; null for what is no date. Nothing is the latest.
 * @param {string} date
 */
async function digitsTyped(date) {
  if (!date) return LATEST;
  const reply = await fetch(`${TOP}/room/instant/${pathOf(typed(date))}`, {redirect: 'error'});
  if (reply.status === 400) return null;
  if (!reply.ok) throw new Error((await reply.text()).trim());
  return digitsOf((await reply.json()).instant);
}

/**
 * Digits as a date for readers.
 * @param {string} digits
 */
function dateIn(digits) {
  const [year, month, day, hour, minute, second] = digits.match(/^\d{4}|\d\d/g);
  const part = digits.slice(14).replace(/0+$/, '');
  return `${year}-${month}-${day}T${hour}:${minute}:${second}${part && `.${part}`}Z`;
}

/** @param {string} instant */
const dateOf = (instant) => instant.replace(/\.?0+Z$/, 'Z');

/**
 * What the collection gives of a URI as of a date.
 * @param {Uint8Array} uri
 * @param {string} digits
 * @returns {Promise<ServedAnswer>}
 */
async function answerOf(uri, digits) {
  const reply = await fetch(`${TOP}/room/answer/${digits}/${pathOf(uri)}`, {redirect: 'error'});
  if (!reply.ok) {
    const text = (await reply.text()).trim();
    return {reason: FIRST_REASON.exec(text)?.[1] ?? text.split('\n')[0], words: text};
  }
  const about = JSON.parse(reply.headers.get('X-Archived-About'));
  return {...about, reason: undefined, stored: new Uint8Array(await reply.arrayBuffer())};
}

/**
 * Undoes the codings of the content of an answer.
 * @param {ServedAnswer} answer
 * @param {number} most
 */
async function undoContent(answer, most) {
  if (!answer.stored) return;
  const steps = codingsIn(answer.coding);
  if (steps.length > MOST_CODINGS) throw new Undecodable(steps[MOST_CODINGS], 'it has too many codings');
  let body = answer.stored;
  for (const coding of steps) body = await undone(coding, body, most);
  Object.assign(answer, {body, steps, isDecoded: steps.length > 0});
}

/**
 * Answers for a view. Coded bodies are decoded one after another, and take no more bytes than are left.
 * @param {Question[]} questions
 * @param {number} left
 */
async function answersFor(questions, left) {
  const answers = await Promise.all(questions.map(({uri, date}) => answerOf(uri, digitsOf(date))));
  for (const answer of answers) {
    try {
      await undoContent(answer, Math.min(left, MOST_DECODED));
    } catch (error) {
      const isLeftOut = error instanceof RangeError;
      Object.assign(answer, {isLeftOut, reason: isLeftOut ? 'left out of this view' : whyOf(error)});
    }
    if (answer.isDecoded) left -= answer.body.length;
  }
  return answers;
}

// ---------------------------------------------------------------- what is shown

/**
 * Has a screen reader say a few words. What is shown isn't read out as a whole.
 * @param {string} words
 */
function hear(words) {
  byId('heard').textContent = words;
}

/**
 * Shows something in the place of what is shown, under the name of its heading.
 * @param {...Node|string} children
 */
function show(...children) {
  const record = byId('record');
  record.replaceChildren(...children);
  record.hidden = false;
  record.setAttribute('aria-label', record.querySelector('h2')?.textContent ?? '');
  byId('status').textContent = byId('find-status').textContent = '';
  hear('');
}

/** @param {string[]} urls */
function keepUrls(urls) {
  served.urls.forEach((url) => URL.revokeObjectURL(url));
  served.urls = urls;
}

/**
 * The address of a page as of a date in this room.
 * @param {Uint8Array} uri
 * @param {string} digits
 */
const addressIn = (uri, digits) => `#${digits}/${pathOf(uri)}`;

/**
 * A link to a page as of a date in this room.
 * @param {Uint8Array} uri
 * @param {string} digits
 * @param {string} text
 */
const roomLink = (uri, digits, text) => make('a', {href: addressIn(uri, digits)}, text);

/** @type {ViewHost} */
const COLLECTION = {
  ask: answersFor,
  visit: () => served.visit,
  keep: keepUrls,
  leave: () => byId('uri').focus(),
  hearDrops() {},  // no file is opened here
  lead(uri, moment) {
    location.hash = addressIn(typed(uri), digitsOf(moment));
  },
  line(uri, found) {
    const {chosen, given} = /** @type {any} */ (found), file = fileOf(given) === fileOf(chosen) ? '' : ', given by ';
    const link = roomLink(typed(uri), digitsOf(/** @type {any} */ (found).instant), plainly(uri));
    return [link, ` ${placeOf(chosen)}`, file && `${file}${placeOf(given)}`];
  },
};

/** @param {[string, number]} place */
const fileOf = (place) => place[0];

/** @param {[string, number]} place */
const placeOf = ([path, position]) => `record ${position} of ${plainly(path.split('/').pop())}`;

/**
 * The capture of a URI as of a date, by its number; -1 if all are later.
 * @param {ServedCapture[]} list
 * @param {string} digits
 */
function numberAsOf(list, digits) {
  const end = digits.padEnd(DIGITS, '9'), last = list.filter((it) => digitsOf(it.instant) <= end).pop();
  return list.findIndex((it) => it.instant === last?.instant);
}

/**
 * Which capture of a URI is shown, in words.
 * @param {number} now
 * @param {number} count of the captures that are shown
 * @param {boolean} isCut whether there are later ones
 */
function numberInWords(now, count, isCut) {
  if (now < 0 && isCut) return `The first ${count.toLocaleString('en')} captures of this URI; this one is later`;
  if (now < 0)
    return count === 1 ? 'The only capture of this URI is later' : `All ${count} captures of this URI are later`;
  const all = `${isCut ? 'more than ' : ''}${count.toLocaleString('en')}`;
  return count === 1 ? 'The only capture of this URI' :
                       `Capture ${(now + 1).toLocaleString('en')} of ${all} of this URI`;
}

// Reasons in a list by which only the file of the capture itself has no body: another file may have it.
const OPEN = /^(?:P4|P5|elsewhere)\b/;

/**
 * A capture as a point.
 * @param {Uint8Array} uri
 * @param {ServedCapture} it
 * @param {number} part how far from the first to the last it is
 * @param {boolean} isShown
 */
function pointOfServed(uri, it, part, isShown) {
  const why = !it.reason ? '' : OPEN.test(it.reason) ? ', with the body of another file' : `, ${plainly(it.reason)}`;
  const label = `${dateOf(it.instant)}, ${it.kind}${why}, ${placeOf([it.path, it.position])}`;
  const properties = {
    title: label,
    'aria-label': label,
    'aria-current': String(isShown),
    style: {left: `${part * 100}%`},
  };
  return button(`${it.kind}${it.reason && !OPEN.test(it.reason) ? ' failed' : ''}`, () => {
    location.hash = addressIn(uri, it.uri.split('/memento/')[1].split('/')[0]);
  }, properties);
}

/**
 * The captures of a URI as points in time.
 * @param {Uint8Array} uri
 * @param {ServedCaptures} captures
 * @param {number} now the number of the one that is shown
 */
function pointsOf(uri, {list, isCut}, now) {
  const times = list.map((it) => Date.parse(it.datetime)), [first] = times, span = times[times.length - 1] - first;
  const every = Math.ceil(list.length / LIST_LIMIT), instant = list[now]?.instant;
  const points = list.map((it, number) => {
    if (number % every && it.instant !== instant) return null;
    const part = span ? (times[number] - first) / span : list.length > 1 ? number / (list.length - 1) : 0.5;
    return pointOfServed(uri, it, part, it.instant === instant);
  });
  const ends = list.length > 1 ? [list[0], list[list.length - 1]] : list;
  const words = numberInWords(now, list.length, isCut);
  const line = make('div', {className: 'line-of', role: 'group', 'aria-label': 'Captures in time'}, ...points);
  return make(
      'div', {className: 'timeline'}, make('div', {className: 'small steps'}, words), line,
      make('div', {className: 'ends'}, ...ends.map((it) => make('span', {}, it.datetime))),
      list.length >= CALENDAR_FROM ? calendarOf(uri, list) : '');
}

/**
 * The captures of a URI, or the first ones where there are too many for one answer; none where there are none.
 * @param {Uint8Array} uri
 * @returns {Promise<ServedCaptures>}
 */
async function capturesAt(uri) {
  const reply = await fetch(`${TOP}/timemap/json/${pathOf(uri)}`, {redirect: 'error'});
  if (!reply.ok) return {list: [], isCut: false};
  const {mementos, next} = await reply.json();
  return {list: mementos.list, isCut: Boolean(next)};
}

/**
 * The number of the capture that an answer is about; -1 for none that is shown.
 * @param {ServedCaptures} captures
 * @param {ServedAnswer} it
 * @param {string} digits as of which it was asked for
 */
function numberOfAnswer({list, isCut}, it, digits) {
  if (it.instant) return list.findIndex((other) => other.instant === it.instant);
  const now = numberAsOf(list, digits), isLast = list[now]?.instant === list[list.length - 1]?.instant;
  return isCut && isLast ? -1 : now;
}

const MAY_HAVE_IT = /^(?:may have it: |and \d+ files more that may have it|A file that may have it can't be read)/m;
const UNREAD =
    'Some files of this collection couldn’t be read, and may have it: ask those who run it, or come back later.';
const NEAR = /^near: (\S+) (\d+) (\S+) (\S+)$/;
const FOR_ALL = /^(?:near: |A file that may have it |$)/;  // lines that aren't for operators
const FOLDERS = /(^|\s)\/\S*\//g;

/**
 * A line for a target that has captures.
 * @param {ServedTarget} found
 * @param {number} [most] how many captures are counted
 */
function foundLine({path, captures, first, last}, most = Infinity) {
  const target = targetIn(path), link = roomLink(target, LATEST, seen(target));
  const count = `${captures < most ? '' : 'at least '}${many(captures, 'capture')}`;
  const about = ` ${count}, ${first.slice(0, 10)} to ${last.slice(0, 10)}`;
  return make('li', {}, make('bdi', {}, link), make('span', {className: 'small'}, about));
}

/**
 * Near URIs that have captures, to choose from.
 * @param {ServedTarget[]} near
 */
function nearList(near) {
  if (!near.length) return [];
  const list = near.map((it) => foundLine(it, MOST_COUNTED));
  return [
    make('p', {}, 'There are captures of other spellings:'), make('ul', {className: 'plain-list found'}, ...list)
  ];
}

/**
 * Near URIs as the server names them in a text.
 * @param {string[]} lines
 */
function nearLines(lines) {
  const near = lines.map((line) => NEAR.exec(line)).filter((it) => it);
  return nearList(near.map(([, path, captures, first, last]) => ({path, captures: Number(captures), first, last})));
}

/**
 * Why there is no body, in words. What the server says of its files is in the details, without their folders.
 * @param {ServedAnswer} answer
 */
function noAnswer({reason, words: text}) {
  const lines = text.split('\n'), more = nearLines(lines);
  if (MAY_HAVE_IT.test(text)) more.push(make('p', {}, UNREAD));
  const ofFiles = lines.filter((line) => line !== reason && !FOR_ALL.test(line));
  const details = ofFiles.map((line) => make('p', {className: 'small'}, plainly(line.replace(FOLDERS, '$1'))));
  return reasonNote(reason, {more, details});
}

/**
 * When a capture was made, and what it says; in details, where it is.
 * @param {ServedAnswer} it
 */
function factsOf(it) {
  const [chosen, given] = [it.chosen, it.given].map(placeOf), coding = it.coding && `, ${it.coding}`;
  const from = given === chosen ? '' : `; the body is that of ${given}`;
  const joined = it.joined > 1 ? ` (${it.joined} files were joined for it)` : '';
  const facts = `${dateOf(it.instant)}, status ${it.status ?? '–'}, ${it.type}${coding}`;
  const damaged = it.damaged ? '. It is from good records of a damaged file' : '';
  const where = make('details', {}, make('summary', {}, 'Details'), plainly(`${chosen}${from}${joined}`));
  return make('div', {className: 'sub'}, plainly(facts), damaged, where);
}

/**
 * The body of an answer: HTML as a view, a picture, a text, or bytes to be saved.
 * @param {Uint8Array} uri
 * @param {ServedAnswer} it
 * @param {ServedCapture[]} list
 * @param {number} visit
 */
async function bodyView(uri, it, list, visit) {
  const {body} = it, media = mediaOf(it.type.replace(/^application\/octet-stream$/, ''), body, shown(uri));
  const name = shown(uri).split(/[?#]/)[0].split('/').pop() || 'page.html';
  const saved = make(
      'div', {className: 'actions'}, saving(name, body, it.isDecoded ? 'Save the decoded bytes' : 'Save the bytes'));
  if (!body.length) return [make('p', {}, 'The body is empty.')];
  if (isPicture(media)) {
    /** @type {string[]} */
    const urls = [], src = addressOf(body, media, urls);
    keepUrls(urls);
    return [saved, make('img', {className: 'picture', src, alt: 'The captured picture'})];
  }
  if (isHtml(media)) {
    const next = list.find((other) => other.instant > it.instant), at = dateOf(it.instant);
    const moments = momentsFrom(at, next && Date.parse(next.datetime));
    const view = new PageView(COLLECTION, htmlOf(body, it.type), shown(uri), moments, visit);
    await view.draw();
    return view.nodes(saved);
  }
  return isText(media) ? [saved, textView(textOf(body, it.type, MOST_TEXT))] : [saved, hexView(body)];
}

/**
 * The body of an answer with its codings undone, or why it can't be shown.
 * @param {Uint8Array} uri
 * @param {ServedAnswer} it
 * @param {ServedCapture[]} list
 * @param {number} visit
 */
async function contentOf(uri, it, list, visit) {
  try {
    await undoContent(it, MOST_DECODED);
    return visit === served.visit ? await bodyView(uri, it, list, visit) : [];  // or it would end another's addresses
  } catch (error) {
    return [note(`It can’t be shown here: ${plainly(whyOf(error))}.`)];
  }
}

/**
 * Where a captured redirect leads.
 * @param {Uint8Array} uri
 * @param {ServedAnswer} it
 */
function redirectOf(uri, it) {
  const isRedirect = it.status >= 300 && it.status < 400 && it.location;
  const to = isRedirect ? resolved(it.location, shown(uri)) : null;
  if (!to) return '';
  return note(
      `Status ${it.status}: the server sent the reader on to `, roomLink(typed(to), digitsOf(it.instant), plainly(to)),
      '.');
}

/**
 * Shows a URI as of a date.
 * @param {Uint8Array} uri
 * @param {string} digits
 */
async function showPage(uri, digits) {
  const visit = served.visit += 1;
  byId('uri').value = shown(uri);
  byId('moment').value = digits === LATEST ? '' : dateIn(digits);
  byId('status').textContent = 'Asking the collection…';
  const [it, captures] = await Promise.all([answerOf(uri, digits), capturesAt(uri)]), {list} = captures;
  const title = make('header', {}, make('h2', {}, make('bdi', {}, seen(uri))), it.stored ? factsOf(it) : '');
  const points = list.length ? pointsOf(uri, captures, numberOfAnswer(captures, it, digits)) : '';
  const content = it.stored ? await contentOf(uri, it, list, visit) : [noAnswer(it)];
  if (visit !== served.visit) return;
  show(title, points, make('div', {className: 'panel'}, redirectOf(uri, it), ...content));
  const reason = byId('record').querySelector('.note.reason');
  hear(it.stored ? `Shown, as of ${dateOf(it.instant)}` : reason?.textContent ?? '');
  document.title = `${seen(uri)} – Zogwedu reading room`;
}

/**
 * Shows the targets that begin with a text.
 * @param {Uint8Array} front
 */
async function showFound(front) {
  const visit = served.visit += 1;
  byId('uri').value = shown(front);
  byId('status').textContent = 'Looking for URIs…';
  const reply = await fetch(`${TOP}/room/found/${pathOf(front)}`, {redirect: 'error'});
  const text = await reply.text(), {found, near, most} = reply.ok ? JSON.parse(text) : {found: [], near: [], most: 0};
  if (visit !== served.visit) return;
  const lines = found.map((/** @type {ServedTarget} */ it) => foundLine(it));
  const words = !reply.ok ? text : found.length < most ? many(lines.length, 'URI') : `The first ${most} URIs`;
  show(
      make('header', {}, make('h2', {}, make('bdi', {}, `${seen(front)}…`)), make('div', {className: 'sub'}, words)),
      make('div', {className: 'panel'}, make('ul', {className: 'plain-list found'}, ...lines), ...nearList(near)));
  hear(words);
}

/**
 * A page that a package lists, as a place to begin: as of its own time, or of its first capture if that is later.
 * @param {ServedPage} page
 */
function pageLine({path, title, instant, later}) {
  const target = targetIn(path), link = roomLink(target, instant ?? LATEST, title ? plainly(title) : seen(target));
  const when = later ? `first captured later, at ${dateOf(later)}` : instant ? dateIn(instant) : 'the latest capture';
  const about = make('span', {className: 'small'}, ' ', make('bdi', {}, seen(target)), `, ${when}`);
  return make('li', {}, make('bdi', {}, link), about);
}

/**
 * The pages of packages after a place among them, as lines, and where the next ones are.
 * @param {string} place
 */
async function pagesFrom(place) {
  const reply = await fetch(`${TOP}/room/pages/${place}`, {redirect: 'error'});
  if (!reply.ok) return {lines: [], next: ''};
  const {found, next} = await reply.json();
  return {lines: found.map(pageLine), next};
}

// The pages that packages list, of which a reader sees some at once; nothing where there are none. Pages that a reader
// may not see aren't among them.
async function pagesPart() {
  const list = make('ul', {className: 'plain-list found'}),
        more = button('button quiet', () => add(), {}, 'More pages');
  let place = FIRST_PAGES;
  async function add() {
    const {lines, next} = await pagesFrom(place);
    list.append(...lines);
    place = next;
    more.hidden = !next;
  }
  await add();
  if (!list.childNodes.length && more.hidden) return [];
  const about = make('div', {className: 'sub'}, SCRIPTED);
  return [
    make('header', {}, make('h2', {}, 'Pages of packages'), about),
    make('div', {className: 'panel'}, list, make('div', {className: 'actions'}, more))
  ];
}

// Shows what there is, to a reader who knows no URI: the hosts, and the pages of packages.
async function showBeginning() {
  const visit = served.visit += 1, parts = await Promise.all([hostsPart(), pagesPart()]);
  if (visit !== served.visit) return;
  const said = byId('status').textContent;  // perhaps about what a reader typed meanwhile
  show(...parts.flat());
  byId('status').textContent = said;
  document.title = 'Zogwedu reading room';
}

// ---------------------------------------------------------------- beginning

/** @param {any} error */
const noReply = (error) => `The server doesn’t answer: ${plainly(whyOf(error))}`;

// Shows what the address says: `#DIGITS/URI` a page, `#?TEXT` the URIs that begin so, `#search?..` the pages with
// words, `#below/TEXT` a tree; and without any of these what there is.
async function follow() {
  const hash = location.hash.slice(1), page = /^(\d{14}(?:\d{9})?)\/(.+)$/s.exec(hash);
  try {
    if (page)
      await showPage(targetIn(page[2]), page[1]);
    else if (hash.startsWith('?') && hash.length > 1)
      await showFound(targetIn(hash.slice(1)));
    else if (hash.startsWith('search?'))
      await showWords(hash.slice('search?'.length));
    else if (hash.startsWith('below/'))
      showBelow(hash.slice('below/'.length));
    else
      await showBeginning();
  } catch (error) {
    byId('status').textContent = noReply(error);
  }
}

/** @param {Event} event */
async function askForPage(event) {
  event.preventDefault();
  const uri = byId('uri').value.trim(), asked = served.asked += 1;
  if (!uri) {
    byId('status').textContent = 'Which URI?';
    return;
  }
  try {
    const digits = await digitsTyped(byId('moment').value.trim());
    if (asked !== served.asked) return;
    if (digits)
      location.hash = addressIn(typed(uri), digits);
    else
      byId('status').textContent = DATE_FORMS;
  } catch (error) {
    byId('status').textContent = noReply(error);
  }
}

byId('ask').addEventListener('submit', askForPage);
byId('find').addEventListener('click', () => {
  const front = byId('uri').value.trim();
  location.hash = `#?${pathOf(typed(front))}`;
});
byId('skip').addEventListener('click', () => byId('record').focus());
addEventListener('hashchange', follow);
follow();
