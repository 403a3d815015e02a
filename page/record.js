// One record: its captures in time, its tabs, or why there is no body.
'use strict';

const WHOLE = '#record';  // the focus goes to the record itself
const MOST_POINTS = 2000;
const MOST_OF_HEAD = 65536;  // bytes of an HTTP head that the library looks at

function forgetUrls() {
  room.urls.forEach((url) => URL.revokeObjectURL(url));
  room.urls = [];
}

/** @type {(from: number, length: number) => Promise<Uint8Array>} */
const bytesAt = (from, length) => bytesOfFile(room.file, from, from + length);

/** @param {Row} row */
const headOf = (row) => bytesAt(row.offset, row.blockStart - row.offset);

// The captures of each target, in the order of time. Only for the points: the library decides which one answers.
function allCaptures() {
  /** @type {Map<string, Capture[]>} */
  const captures = new Map();
  for (let position = 0; position < room.rows.count; position += 1) {
    const row = room.rows.row(position), name = latin.decode(row.target);
    if (!isCapture(row) || !name) continue;
    if (!captures.has(name)) captures.set(name, []);
    captures.get(name).push({position, time: captureTime(row.date) ?? 0, date: row.date, kind: row.kind.toLowerCase()});
  }
  captures.forEach((list) => list.sort((a, b) => a.time - b.time || a.position - b.position));
  return captures;
}

/**
 * The captures of a target.
 * @param {Uint8Array} target
 */
function capturesOf(target) {
  if (!room.captures || room.capturesOver !== room.rows.count) {
    room.captures = allCaptures();
    room.capturesOver = room.rows.count;
  }
  return room.captures.get(latin.decode(target)) ?? [];
}

/**
 * The fields of a record's head, the content type that its block states, and the head of its stored HTTP response, if
 * it has one. Nothing of them is known once the library stopped.
 * @param {Row} row
 * @returns {Promise<StoredType>}
 */
async function typeOf(row) {
  const isHttp = row.kind.toLowerCase() !== 'resource' && /^https?:/i.test(latin.decode(row.target.subarray(0, 8)));
  const head = await headOf(row);
  const front = isHttp ? await bytesAt(row.blockStart, Math.min(row.blockLength, MOST_OF_HEAD)) : null;
  if (!room.library.worker) return {fields: [], http: null, type: ''};
  const [read] = await room.library.heads([{head, front}]);
  if (!read.fields) throw new Error(CHANGED);  // or it wouldn't be listed
  const fields = asTexts(read.fields, shown), http = read.http && httpHead(read.http, front);
  return {fields, http, type: http ? http.get('content-type') : isHttp ? '' : fieldOf(fields, 'Content-Type')};
}

// ---------------------------------------------------------------- opening and closing

function closeRecord() {
  forgetUrls();
  room.visit += 1;
  byId('record').hidden = true;
  byId('record').replaceChildren();
  byId('room').classList.remove('has-record');
}

// Closes the record, and leads back to the list.
function leaveRecord() {
  closeRecord();
  drawRows();
  byId('list').focus();
  remember({});
}

const closing = () => button('button quiet close', leaveRecord, {'aria-label': 'Close the record'}, 'Close');

/**
 * What the browser's Back leads to. A browser may refuse where there is too much of it.
 * @param {object} shows
 */
function remember(shows) {
  try {
    history.pushState({file: room.number, ...shows}, '');
  } catch {
    // Back skips it.
  }
}

/**
 * What Back and Forward show, if it is of this file.
 * @param {{state: any}} event
 */
function goBack({state}) {
  if (!room.file || (state && state.file !== room.number)) return;
  if (state?.position !== undefined)
    openRecord(state.position, {focus: WHOLE, isBack: true});
  else if (state?.uri)
    openAsOf(typed(state.uri), state.date, true, true);
  else {
    closeRecord();
    drawRows();
    byId('list').focus();
  }
}

// Shows the record from its top, unless most of it can be seen.
function bringRecord() {
  const {top} = byId('record').getBoundingClientRect();
  if (top < 0 || top > innerHeight / 4) byId('record').scrollIntoView({block: 'start'});
}

/**
 * Shows something in the place of a record.
 * @param {boolean} isFocused
 * @param {...Node} children
 */
function showPanel(isFocused, ...children) {
  const panel = byId('record');
  byId('room').classList.add('has-record');
  panel.hidden = false;
  panel.replaceChildren(...children);
  bringRecord();
  if (isFocused) panel.focus({preventScroll: true});
}

/**
 * Opens the record at a position, and moves the list to it. The focus goes to the record, or to a part of it, or stays.
 * @param {number} position
 * @param {{focus?: string|null, note?: string|null, isBack?: boolean}} how
 */
async function openRecord(position, {focus = null, note = null, isBack = false} = {}) {
  forgetUrls();
  const visit = room.visit += 1, row = room.rows.row(position), place = room.order?.indexOf(position) ?? -1;
  if (!isBack) remember({position});
  room.current = position;
  if (place >= 0) bringIntoView(place);
  drawRows();
  if (isCapture(row) && !byId('uri').dataset.typed) byId('uri').value = shown(row.target);
  const waiting = make('div', {className: 'panel'}, make('p', {className: 'small'}, 'Reading…'));
  showPanel(Boolean(focus), titleOf(row), waiting);
  const own = await typeOf(row).catch((error) => {
    waiting.replaceChildren(make('p', {className: 'note reason'}, whyOf(error)));
    return null;
  });
  if (own && visit === room.visit) fillPanel(subjectOf(row, own, note, visit), focus);
}

/**
 * What the tabs show of a record, with the library's answer as soon as it is there.
 * @param {Row} row
 * @param {StoredType} own
 * @param {string|null} note
 * @param {number} visit
 * @returns {Subject}
 */
function subjectOf(row, own, note, visit) {
  const {type, http} = own, answered = Promise.resolve();
  const it = {position: row.position, row, own, given: row, type, http, note, visit, answered};
  if (isCapture(row) && room.holds) it.answered = completed(it);
  it.answered.catch(() => {});  // the tab that waits for it says so
  return it;
}

/**
 * @param {Subject} it
 * @param {string|null} focus
 */
function fillPanel(it, focus) {
  const panel = byId('record'), points = isCapture(it.row) && it.row.target.length ? timeline(it) : '';
  panel.replaceChildren(titleOf(it.row), points, ...tabList(isCapture(it.row) ? CAPTURE_TABS : OTHER_TABS, it));
  if (focus) (panel.querySelector(focus) ?? panel).focus({preventScroll: true});
}

/**
 * Adds the library's answer, and what is stored of the origin that gives the body.
 * @param {Subject} it
 */
async function completed(it) {
  [it.answer] = await room.library.ask([{position: it.position}]);
  if (it.answer.given === null || it.answer.given === it.position) return;
  it.given = room.rows.row(it.answer.given);
  const {type, http} = await typeOf(it.given);
  Object.assign(it, {type, http});
}

/**
 * A link to the record at a position.
 * @param {number} position
 * @param {string} text
 */
const recordLink = (position, text) => button('link', () => openRecord(position, {focus: WHOLE}), {}, text);

/**
 * The verdict on a record's block, now or once it is judged.
 * @param {Row} row
 */
function verdictOf(row) {
  const word = make('span', {className: `verdict ${row.verdict}`}, row.verdict);
  judged(row.position).then(() => {
    word.className = `verdict ${row.verdict}`;
    word.textContent = row.verdict;
  });
  return word;
}

/** @param {Row} row */
function titleOf(row) {
  const name = seen(row.target) || plainly(`${row.kind} ${latin.decode(row.id)}`);
  const facts = `Record ${row.position}, ${plainly(row.kind)}, ${plainly(row.date)}, ${size(row.blockLength)}, digest `;
  const file = isOfFiles() ? [', in ', make('bdi', {}, plainly(room.parts[fileAt(row.offset)].name))] : [];
  const damaged = damageMark().flatMap((mark) => [', of a ', mark]);
  const sub = [facts, verdictOf(row), row.truncated ? ', marked as truncated' : '', ...file, ...damaged];
  return make('header', {}, closing(), make('h2', {}, make('bdi', {}, name)), make('div', {className: 'sub'}, ...sub));
}

// ---------------------------------------------------------------- captures in time

/**
 * The captures of the URI as points in time.
 * @param {Subject} it
 */
function timeline(it) {
  const list = capturesOf(it.row.target), now = list.findIndex((capture) => capture.position === it.position);
  const every = Math.ceil(list.length / MOST_POINTS);
  const points = list.filter((_, number) => number % every === 0 || number === now);
  const buttons = points.map((capture) => pointOf(capture, list, capture.position === it.position));
  const current = points.findIndex((capture) => capture.position === it.position);
  const ends = list.length > 1 ? [list[0], list[list.length - 1]] : [list[0]];
  return make(
      'div', {className: 'timeline', role: 'group', 'aria-label': 'Captures of this URI'}, stepsOf(list, now),
      oneStop('line-of', buttons, {role: 'group', 'aria-label': 'Captures as points in time'}, current),
      make('div', {className: 'ends'}, ...ends.map((capture) => make('span', {}, capture.date))));
}

/**
 * One capture as a point.
 * @param {Capture} capture
 * @param {Capture[]} list
 * @param {boolean} isCurrent
 */
function pointOf(capture, list, isCurrent) {
  const first = list[0].time, span = list[list.length - 1].time - first;
  const byTime = span > 1 ? (capture.time - first) / span : list.indexOf(capture) / (list.length - 1);
  const properties = {
    title: `${capture.date} ${capture.kind}, record ${capture.position}`,
    'aria-label': `${capture.date}, ${capture.kind}`,
    'aria-current': String(isCurrent),
    style: {left: `${list.length === 1 ? 50 : byTime * 100}%`},
  };
  return button(
      capture.kind, () => openRecord(capture.position, {focus: '.line-of [aria-current="true"]'}), properties);
}

/**
 * Steps to the capture before and to the one after.
 * @param {Capture[]} list
 * @param {number} now
 */
function stepsOf(list, now) {
  const step = (/** @type {number} */ to, /** @type {string} */ word) => button(
      `link ${word}`, () => openRecord(list[to].position, {focus: `.${word}:enabled`}), {disabled: !list[to]}, word);
  const isOne = list.length === 1,
        words = isOne ? 'The only capture of this URI' : `Capture ${now + 1} of ${list.length} of this URI`;
  const steps = isOne ? [] : [step(now - 1, 'earlier'), step(now + 1, 'later')];
  return make('div', {className: 'small steps'}, make('span', {}, words), ...steps);
}

// ---------------------------------------------------------------- tabs

/** @type {[string, Tab][]} */
const CAPTURE_TABS = [
  ['Page', pageTab],
  ['Source', sourceTab],
  ['HTTP head', httpTab],
  ['Record head', headTab],
  ['Facts', factsTab],
];
/** @type {[string, Tab][]} */
const OTHER_TABS = [['Block', blockTab], ['Record head', headTab], ['Facts', factsTab]];

// The tabs of a record, and the panel that shows the chosen one.
class Tabs {
  /**
   * @param {[string, Tab][]} tabs
   * @param {Subject} it
   */
  constructor(tabs, it) {
    this.tabs = tabs;
    this.it = it;
    this.turn = 0;
    this.panel =
        make('div', {className: 'panel', role: 'tabpanel', id: 'panel', tabIndex: 0, 'aria-labelledby': 'tab-0'});
    this.buttons = tabs.map(([name], number) => {
      const on = {
        click: () => this.choose(number),
        keydown: (/** @type {KeyboardEvent} */ event) => this.arrows(event, number)
      };
      return make('button', {type: 'button', role: 'tab', id: `tab-${number}`, 'aria-controls': 'panel', on}, name);
    });
  }

  /** @param {number} number */
  async choose(number) {
    const [name, tab] = this.tabs[number], turn = this.turn += 1;
    this.buttons.forEach((it, other) => {
      it.setAttribute('aria-selected', String(other === number));
      it.tabIndex = other === number ? 0 : -1;
    });
    this.panel.setAttribute('aria-labelledby', `tab-${number}`);
    this.panel.dataset.ready = 'no';
    this.panel.replaceChildren(
        make('p', {className: 'small'}, room.isOpen ? 'Asking the archive…' : 'Opening the archive…'));
    room.tab = name;
    const content = await this.content(tab);
    if (this.it.visit !== room.visit || turn !== this.turn) return;
    this.panel.replaceChildren(...content.filter((node) => node));
    this.panel.dataset.ready = 'yes';
  }

  /** @param {Tab} tab */
  async content(tab) {
    try {
      if (tab !== headTab) await this.it.answered;
      return await tab(this.it);
    } catch (error) {
      return [make('p', {className: 'note reason'}, plainly(whyOf(error)))];
    }
  }

  /**
   * @param {KeyboardEvent} event
   * @param {number} number
   */
  arrows(event, number) {
    const steps = {ArrowRight: number + 1, ArrowLeft: number - 1, Home: 0, End: this.tabs.length - 1};
    const next = steps[/** @type {keyof typeof steps} */ (event.key)];
    if (next === undefined) return;
    event.preventDefault();
    const to = (next + this.tabs.length) % this.tabs.length;
    this.buttons[to].focus();
    this.choose(to);
  }
}

/**
 * @param {[string, Tab][]} tabs
 * @param {Subject} it
 */
function tabList(tabs, it) {
  const list = new Tabs(tabs, it), label = 'What is shown of the record';
  list.choose(Math.max(0, tabs.findIndex(([name]) => name === room.tab)));
  return [make('div', {className: 'tabs', role: 'tablist', 'aria-label': label}, ...list.buttons), list.panel];
}

// ---------------------------------------------------------------- heads, blocks, facts

/** @param {Subject} it */
async function httpTab(it) {
  const isRevisit = it.given !== it.row, words = isRevisit ? wordsBefore({...it, answer: null}) : [];
  const none = room.library.worker ? 'This record stores no HTTP head.' : 'The library stopped, and reads no head.';
  const head = it.http ? headView(it.http.text) : make('p', {}, none);
  if (!isRevisit || !it.own.http) return [...words, head];
  const own = make('p', {className: 'small'}, 'The head that the revisit itself stores:');
  return [...words, head, own, headView(it.own.http.text)];
}

/** @param {Subject} it */
async function headTab(it) {
  const bytes = await headOf(it.row), save = saving(`head-${it.position}`, bytes, 'Save the head');
  return [headView(shown(bytes)), make('div', {className: 'actions'}, save)];
}

/** @param {Subject} it */
async function blockTab({row, position}) {
  const bytes = await bytesAt(row.blockStart, Math.min(row.blockLength, MOST_TEXT));
  const save = () => download(room.file.slice(row.blockStart, row.blockStart + row.blockLength), `block-${position}`);
  const content = row.blockLength ? storedView(bytes) : make('p', {}, 'The block is empty.');
  return [content, make('div', {className: 'actions'}, button('button', save, {}, 'Save the block'))];
}

/**
 * What was found of a block by its digest.
 * @param {Row} row
 */
const verdictWords = ({verdict}) => verdict === '…' ? 'not judged' : `${verdict}: ${VERDICT_TITLES.get(verdict)}`;

/** @type {(row: Row, stated: string) => [string, string][]} */
const rowFacts = (row, stated) => [
    ['Position', String(row.position)],
    ['Offset', `byte ${row.offset.toLocaleString('en')}${placeInFile(row.offset)}`],
    ['Type', plainly(row.kind)],
    ['Date', plainly(row.date)],
    ['Id', plainly(latin.decode(row.id))],
    ['Target', seen(row.target) || '–'],
    ['Head', size(row.blockStart - row.offset)],
    ['Block', `${row.blockLength.toLocaleString('en')} bytes from byte ${row.blockStart.toLocaleString('en')} on`],
    ['Digest of the block', verdictWords(row)],
    ['Digest as stated', plainly(stated) || '–'],
];

/**
 * @param {Answer|undefined} answer
 * @returns {[string, string][]}
 */
function answerFacts(answer) {
  /** @type {[string, string][]} */
  const damaged = damageMark().length ? [['Damaged archive', OF_DAMAGED]] : [];
  if (answer?.reason) return [['No body', `${answer.reason}. ${plain(inWords(answer.reason)[1])}`], ...damaged];
  if (!answer?.body) return [];
  return [
    ...damaged,
    ['Chosen', `record ${answer.chosen}`],
    ['Given', `record ${answer.given}${answer.given === answer.chosen ? '' : ', where the revisit leads'}`],
    ['Status', answer.status === null ? '–' : String(answer.status)],
    ['Truncated', answer.truncated ? 'yes' : 'no'],
    ['Length of the body', `${answer.length.toLocaleString('en')} bytes`],
  ];
}

/** @param {number} position */
function findingsOf(position) {
  const found = (room.findings ?? []).filter((finding) => finding.position === position);
  const nothing = room.findings ? 'Nothing was found wrong with this record.' : '';
  if (!found.length) return make('p', {className: 'small'}, nothing);
  const lines =
      found.map((it) => make('li', {}, plainly(`${it.number} ${it.field} `), ...prose(inWords(it.number)[1])));
  return make('div', {}, make('h3', {}, 'Findings'), make('ul', {className: 'plain-list'}, ...lines));
}

/** @param {Subject} it */
async function factsTab(it) {
  await judged(it.position);
  const stated = fieldOf(it.own.fields, 'WARC-Block-Digest');
  const facts = [...rowFacts(it.row, stated), ...answerFacts(it.answer), ...textFacts(it.position)];
  const source = 'These are the library’s answers, whose contracts are proved.';
  return [
    make(
        'dl', {className: 'facts'}, ...facts.flatMap(([name, value]) => [make('dt', {}, name), make('dd', {}, value)])),
    make('p', {className: 'small'}, source),
    isOfWget(it.row, it.own.fields) ? make('p', {className: 'note plainly'}, OF_WGET) : null,
    findingsOf(it.position),
  ];
}

// ---------------------------------------------------------------- a URI as of a date

/**
 * @param {Uint8Array} uri
 * @param {string} date
 * @param {boolean} isFocused
 */
async function openAsOf(uri, date, isFocused, isBack = false) {
  if (!room.holds) {
    say(notReplayed());
    return;
  }
  const {rows, visit} = room, asked = room.asked += 1;
  const isWanted = () => rows === room.rows && visit === room.visit && asked === room.asked;
  const answers = await room.library.ask([{uri, date}]).catch((error) => {
    if (isWanted()) say(`There is no answer: ${plainly(whyOf(error))}.`);
  });
  if (!answers || !isWanted()) return;  // something else was opened, or asked, meanwhile
  const [answer] = answers;
  if (answer.chosen !== null && answer.chosen !== undefined) {
    const note = `As of ${plainly(date)}, the archive chooses this capture of the URI.`;
    await openRecord(answer.chosen, {focus: isFocused ? WHOLE : null, isBack, note});
    return;
  }
  closeRecord();
  if (!isBack) remember({uri: shown(uri), date});
  room.current = -1;
  drawRows();
  const sub = make('div', {className: 'sub'}, `as of ${plainly(date)}`);
  const header = make('header', {}, closing(), make('h2', {}, make('bdi', {}, seen(uri))), sub);
  showPanel(isFocused, header, make('div', {className: 'panel'}, ...damageNote(), noBody(answer.reason, uri)));
}
