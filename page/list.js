// The list of records: filters, order, and the lines that are seen.
'use strict';

const LINE = 26;             // pixels of a line without a part of a text
const MOST_PIXELS = 30e6;    // no browser scrolls further
const MOST_OF_TARGET = 400;  // bytes of a target that a line shows

/** @typedef {(row: Row) => boolean} Test */

/**
 * Tests by filters that are set, by their names.
 * @type {Record<string, (filter: {value: any, end?: number}) => Test>}
 */
const TESTS = {
  only: () => isCapture,
  type: ({value}) => (row) => row.kind.toLowerCase() === value,
  host: ({value}) => (row) => isCapture(row) && hostOf(row.target) === value,
  verdict: ({value}) => (row) => row.verdict === value,

  time: ({value, end}) => (row) => {
    const time = isCapture(row) ? captureTime(row.date) : null;
    return time !== null && time >= value && time < end;
  },

  finding: ({value}) => {
    const positions = new Set((room.findings ?? []).filter((it) => it.number === value).map((it) => it.position));
    return (row) => positions.has(row.position);
  },

  text: ({value}) => (row) => room.texts.whyNone(row.position) === value,
};

// The searched text of each record, in small letters; made once.
function searched() {
  room.targets ??= [];
  for (let position = room.targets.length; position < room.rows.count; position += 1) {
    const row = room.rows.row(position);
    room.targets.push(`${shown(row.target)} ${latin.decode(row.id)}`.toLowerCase());
  }
  return room.targets;
}

// The positions of the records that pass all filters and have the words.
function passing() {
  const wanted = [...room.filters].map(([name, it]) => TESTS[name](it)), found = [];
  const {isOn, hits} = room.texts, words = isOn ? '' : room.words.toLowerCase(), texts = words ? searched() : null;
  for (let position = 0; position < room.rows.count; position += 1) {
    if (texts && !texts[position].includes(words)) continue;
    if (hits && !hits.has(position)) continue;
    const row = wanted.length ? room.rows.row(position) : null;
    if (wanted.every((test) => test(row))) found.push(position);
  }
  return found;
}

function filter() {
  const found = passing(), all = many(room.rows.count, 'record');
  room.order = sortOrder(found);
  const some = found.length === room.rows.count ? all : `${found.length.toLocaleString('en')} of ${all}`;
  byId('shown').textContent = room.texts.wrong ? plainly(room.texts.wrong) : some;
  byId('only').setAttribute('aria-pressed', String(room.filters.has('only')));
  const set = [...room.filters].filter(([name]) => name !== 'only');
  byId('filters').replaceChildren(...set.map(([name, {label}]) => filterButton(name, label)));
  drawHead();
  drawRows();
  drawSaving();
}

/**
 * A button that takes a filter off.
 * @param {string} name
 * @param {string} label
 */
function filterButton(name, label) {
  const takeOff = () => {
    room.filters.delete(name);
    drawPlots();
    filter();
    byId('list').focus({preventScroll: true});
  };
  const properties = {title: 'Remove this filter', 'aria-label': `Remove the filter ${name} ${label}`};
  return button('', takeOff, properties, `${name}: ${label} ×`);
}

/**
 * What the list is sorted by, of a position.
 * @type {Record<string, (position: number) => any>}
 */
const KEYS = {
  type: (position) => room.rows.row(position).kind.toLowerCase(),
  date: (position) => room.rows.row(position).date,
  target: (position) => latin.decode(room.rows.row(position).target),
  size: (position) => room.rows.blockLength(position),
  digest: (position) => room.rows.verdict(position),
  file: (position) => fileAt(room.rows.row(position).offset),
};

/** @param {number[]} found */
function sortOrder(found) {
  const {by, up} = room.sort, sign = up ? 1 : -1;
  if (by === 'position') return up ? found : found.reverse();
  const keys = new Map(found.map((position) => [position, KEYS[by](position)]));
  return found.sort((a, b) => {
    const x = keys.get(a), y = keys.get(b);
    if (x === y) return a - b;
    return x < y ? -sign : sign;
  });
}

const COLUMNS = ['position', 'type', 'date', 'target', 'size', 'digest'];
const columns = () => (isOfFiles() ? [...COLUMNS, 'file'] : COLUMNS);

function drawHead() {
  const focused = /** @type {HTMLElement|null} */ (document.activeElement)?.dataset?.column;
  const ofText = make('div', {className: 'hidden-input', role: 'columnheader'}, 'text');
  byId('columns').replaceChildren(...columns().map(columnHead), showsTexts() ? ofText : '');
  byId('columns').querySelectorAll('button').forEach(
      (/** @type {HTMLButtonElement} */ it, /** @type {number} */ number) => {
        it.dataset.column = columns()[number];
        if (focused === it.dataset.column) it.focus();
      });
  byId('list').setAttribute('aria-rowcount', String((room.order?.length ?? 0) + 1));
}

const LAST_COLUMNS = new Map([['digest', 'last'], ['file', 'file']]);  // by their classes

/** @param {string} name */
function columnHead(name) {
  const isSorted = room.sort.by === name, order = room.sort.up ? 'ascending' : 'descending',
        arrow = room.sort.up ? ' ↑' : ' ↓';
  const words = [make('span', {}, name === 'position' ? 'no.' : name), isSorted ? arrow : ''];
  const sort = button('', () => sortBy(name), {tabIndex: 0, 'aria-label': `Sort by ${name}`}, ...words);
  const properties = {role: 'columnheader', 'aria-sort': isSorted ? order : 'none'};
  return make('div', {className: LAST_COLUMNS.get(name) ?? '', ...properties}, sort);
}

/** @param {string} name */
function sortBy(name) {
  room.sort = {by: name, up: room.sort.by === name ? !room.sort.up : name !== 'size'};
  filter();
}

const body = () => byId('rows');
const lineHeight = () => (showsTexts() ? LINE + textLines() * TEXT_LINE + BELOW_TEXT : LINE);
const pixels = () => Math.min(MOST_PIXELS, room.order.length * lineHeight());

// The number of the line at the top, how many lines are seen, and where a line is.
function visibleLines() {
  const line = lineHeight(), high = Math.ceil(body().clientHeight / line) + 1, all = room.order.length;
  if (all * line <= MOST_PIXELS) {
    return {first: Math.floor(body().scrollTop / line), high, top: (/** @type {number} */ number) => number * line};
  }
  const part = body().scrollTop / Math.max(1, pixels() - body().clientHeight);
  const first = Math.round(part * Math.max(0, all - high + 2));
  return {first, high, top: (/** @type {number} */ number) => body().scrollTop + (number - first) * line};
}

// Only the lines that are seen are drawn.
function drawRows() {
  const spacer = byId('spacer');
  spacer.style.height = `${pixels()}px`;
  const {first, high, top} = visibleLines(), from = Math.max(0, first);
  const drawn = room.order.slice(from, first + high);
  const lines = drawn.map((position, number) => drawLine(position, from + number, top(from + number)));
  body().replaceChildren(spacer, ...lines);
  if (showsTexts()) askForParts(drawn);
  if (!room.order.length) body().append(make('p', {className: 'none', style: {padding: '1em'}}, emptyWords()));
  const active = lines.some((line) => line.classList.contains('current'));
  if (active)
    byId('list').setAttribute('aria-activedescendant', 'current-line');
  else
    byId('list').removeAttribute('aria-activedescendant');
}

// Why the list is empty.
function emptyWords() {
  const {hits, wrong} = room.texts;
  if (wrong) return `${plainly(wrong)}.`;
  if (hits && !hits.size) return noTextFound();
  if (room.rows.count) return 'No record passes the filters.';
  return room.listed ? 'The archive has no records.' : '';
}

/**
 * @param {number} position
 * @param {number} number
 * @param {number} top
 */
function drawLine(position, number, top) {
  const row = room.rows.row(position), current = position === room.current;
  const cell = (/** @type {string} */ name, /** @type {(Node|string)[]} */...children) =>
      make('span', {className: name, role: 'gridcell'}, ...children);
  const file = isOfFiles() ? plainly(room.parts[fileAt(row.offset)].name) : null;
  const text = showsTexts() ? textCell(position) : null;
  const kind = plainly(row.kind), target = seen(row.target.subarray(0, MOST_OF_TARGET)) || '–';
  const properties = {
    className: `line${current ? ' current' : ''}${text ? ' with-text' : ''}`,
    role: 'row',
    id: current ? 'current-line' : '',
    'aria-rowindex': String(number + 2),
    'aria-selected': String(current),
    style: {top: `${top}px`, '--tone': tone(row.kind), ...(text ? {height: `${lineHeight()}px`} : {})},
    on: {click: () => openLine(position)},
  };
  return make(
      'div', properties, cell('position', String(position)),
      cell('kind', make('i', {'aria-hidden': 'true', title: kind}), make('span', {}, kind)),
      cell('date', plainly(row.date)), cell('target', make('bdi', {}, target)), cell('size', size(row.blockLength)),
      cell(`verdict ${row.verdict}`, make('span', {}, row.verdict), row.verdict === 'bad' ? ' ●' : ''),
      file === null ? null : cell('file', make('bdi', {title: file}, file)), text);
}

/**
 * Opens the record of a line; one whose text has the words, as a page.
 * @param {number} position
 * @param {{focus?: string}} how
 */
function openLine(position, how = {}) {
  if (showsTexts()) room.tab = 'Page';
  openRecord(position, how);
}

/** @param {number} number */
function moveToLine(number) {
  if (!room.order?.length) return;
  const place = Math.max(0, Math.min(room.order.length - 1, number));
  room.current = room.order[place];
  bringIntoView(place);
  drawRows();
}

/** @param {number} place */
function bringIntoView(place) {
  const list = body(), high = list.clientHeight, line = lineHeight();
  if (room.order.length * line > MOST_PIXELS) {
    list.scrollTop = place / room.order.length * (pixels() - high);
    return;
  }
  const top = place * line, under = top + line - (list.scrollTop + high), over = list.scrollTop - top;
  if (under <= 0 && over <= 0) return;
  if (Math.max(under, over) > line)
    list.scrollTop = top - high / 4;  // a jump, and no step
  else
    list.scrollTop += under > 0 ? under : -over;
}

/** @param {KeyboardEvent} event */
function listKey(event) {
  if (event.target !== byId('list')) return;
  const now = room.order?.indexOf(room.current) ?? -1,
        page = Math.max(1, Math.floor(body().clientHeight / lineHeight()) - 1);
  const moves = new Map([
    ['ArrowDown', now + 1],
    ['ArrowUp', Math.max(0, now - 1)],
    ['PageDown', now + page],
    ['PageUp', now - page],
    ['Home', 0],
    ['End', Infinity],
  ]);
  const isOpening = event.key === 'Enter' && room.current >= 0;
  if (!isOpening && !moves.has(event.key)) return;
  event.preventDefault();
  if (isOpening)
    openLine(room.current, {focus: WHOLE});
  else
    moveToLine(moves.get(event.key));
}
