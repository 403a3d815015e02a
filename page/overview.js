// The overview of an archive: numbers, the file from beginning to end, and bars.
'use strict';

const TONES = new Map(Object.entries({
  response: 0,
  continuation: 1,
  resource: 2,
  metadata: 3,
  revisit: 4,
  conversion: 6,
  warcinfo: 7,
  request: 8,
}));
const OTHER_TONE = 5;
const STRIP = 28;      // pixels
const LEAST_MARK = 3;  // pixels of a damage
const ABOUT_STRIP = 'The file from beginning to end, each record as wide as it is long, coloured by its type';
const BUCKETS = 60;
const MOST_BARS = 100;

/** @param {string} kind */
const toneName = (kind) => `--c${TONES.get(kind.toLowerCase()) ?? OTHER_TONE}`;

/** @param {string} kind */
const tone = (kind) => `var(${toneName(kind)})`;

// Counts over all records, added to as rows come, and then as their blocks are judged.
class Counts {
  constructor() {
    this.seen = 0;
    /** @type {Map<string, number>} */
    this.kinds = new Map();
    /** @type {Map<string, number>} */
    this.hosts = new Map();
    this.verdicts = [0, 0, 0];
    this.judged = 0;
    /** @type {number[]} */
    this.times = [];
    this.first = Infinity;
    this.last = -Infinity;
  }

  /** @param {Rows} rows */
  addAll(rows) {
    for (; this.seen < rows.count; this.seen += 1) this.add(rows.row(this.seen));
  }

  /** @param {Row} row */
  add(row) {
    const kind = row.kind.toLowerCase(), host = isCapture(row) ? hostOf(row.target) : '';
    this.kinds.set(kind, (this.kinds.get(kind) ?? 0) + 1);
    if (host) this.hosts.set(host, (this.hosts.get(host) ?? 0) + 1);
    const time = isCapture(row) ? captureTime(row.date) : null;
    if (time === null) return;
    this.times.push(time);
    this.first = Math.min(this.first, time);
    this.last = Math.max(this.last, time);
  }

  /** @param {Uint8Array} verdicts */
  judge(verdicts) {
    verdicts.forEach((verdict) => {
      this.verdicts[verdict] += 1;
    });
    this.judged += verdicts.length;
  }
}

function drawAll() {
  room.counts.addAll(room.rows);
  drawNumbers();
  drawStrip(room.listed);
  drawPlots();
  filter();
}

function drawNumbers() {
  const {counts, rows, findings} = room, isJudged = counts.judged === rows.count;
  /** @type {[string, string|number][]} */
  const verdicts =
      ['blocks good', 'bad', 'unchecked'].map((name, verdict) => [name, isJudged ? counts.verdicts[verdict] : '…']);
  /** @type {[string, string|number][]} */
  const numbers = [
    ['records', rows.count],
    ['captures', counts.times.length],
    ['hosts', counts.hosts.size],
    ...verdicts,
    ['findings', findings ? findings.length : '…'],
  ];
  if (room.damages.count) numbers.push([room.damages.count === 1 ? 'damage' : 'damages', room.damages.count]);
  const day = (/** @type {number} */ time) => dateText(time).slice(0, 10);
  const span = counts.first <= counts.last ? `${day(counts.first)} to ${day(counts.last)}` : '';
  const cells = numbers.map(
      ([name, number]) => make('div', {}, make('b', {}, number.toLocaleString('en')), make('span', {}, name)));
  byId('numbers').replaceChildren(...cells, span ? make('div', {}, make('span', {}, span)) : '');
}

/**
 * Hides or shows the plots.
 * @param {boolean} hide
 */
function foldPlots(hide) {
  byId('plots').hidden = hide;
  byId('fold').setAttribute('aria-expanded', String(!hide));
  byId('fold').textContent = hide ? 'Show plots' : 'Hide plots';
  if (!hide && room.file) drawStrip();
}

// ---------------------------------------------------------------- the strip

// A pen on the strip, which draws records as wide as they are long.
class StripPen {
  constructor() {
    this.canvas = byId('strip');
    this.wide = Math.max(300, this.canvas.clientWidth);
    this.scale = devicePixelRatio || 1;
    this.pen = this.canvas.getContext('2d');
    this.length = Math.max(1, room.file?.size ?? 1);
    const styles = getComputedStyle(document.documentElement);
    /** @type {Map<string, string>} */
    this.colours = new Map();
    this.colour = (/** @type {string} */ name) => {
      if (!this.colours.has(name)) this.colours.set(name, styles.getPropertyValue(name));
      return this.colours.get(name);
    };
  }

  get fits() {
    return this.canvas.width === Math.round(this.wide * this.scale);
  }

  clear() {
    this.canvas.width = Math.round(this.wide * this.scale);
    this.canvas.height = Math.round(STRIP * this.scale);
    this.pen.scale(this.scale, this.scale);
  }

  /** @type {(name: string, from: number, to: number, top?: number, least?: number) => void} */
  fill(name, from, to, top = 0, least = 0.6) {
    this.pen.fillStyle = this.colour(name);
    const width = Math.max(least, (to - from) / this.length * this.wide - 0.4);
    this.pen.fillRect(Math.min(from / this.length * this.wide, this.wide - width), top, width, STRIP - top);
  }

  /** @param {Piece} piece */
  draw({view, base, count, starts, words}) {
    for (let number = 0; number < count; number += 1) {
      const at = number * ROW_BYTES,
            [from, block, length] = [0, 8, 16].map((place) => Number(view.getBigUint64(at + place, true)));
      const kindEnd = starts[number] + view.getUint32(at + LENGTHS, true);
      const kind = latin.decode(words.subarray(starts[number], kindEnd));
      this.fill(toneName(kind), from + base, block + base + length);
      if (view.getUint32(at + VERDICT, true) === BAD) this.fill('--bad', from + base, block + base + length, 23, 2);
    }
  }
}

// The file from beginning to end. While it is read, only what is new is drawn.
function drawStrip(isNew = true) {
  const pen = new StripPen(), {pieces} = room.rows;
  if (isNew || room.drawn > pieces.length || !pen.fits) {
    pen.clear();
    room.drawn = 0;
  }
  for (; room.drawn < pieces.length; room.drawn += 1) pen.draw(pieces[room.drawn]);
  drawDamages(pen);
  const {count} = room.damages, marked = `${many(count, 'damage')} marked over the whole height, in red`;
  byId('of-strip').textContent = count ? ` ${marked}.` : '';
  byId('strip').setAttribute('aria-label', count ? `${ABOUT_STRIP}; ${marked}` : ABOUT_STRIP);
}

// A mark for each damage where it is. Of those that fall on the same pixels, one is drawn.
/** @param {StripPen} pen */
function drawDamages(pen) {
  const {damages} = room, pixel = pen.length / pen.wide;
  for (let number = 0, drawn = -1; number < damages.count; number += 1) {
    const end = damages.end(number);
    if (end <= drawn) continue;
    pen.fill('--bad', damages.place(number), end, 0, LEAST_MARK);
    drawn = Math.max(end, damages.place(number) + pixel);
  }
}

// ---------------------------------------------------------------- bars

/**
 * Where an arrow key leads among buttons.
 * @param {string} key
 * @param {number} at
 * @param {number} last
 */
function stepOf(key, at, last) {
  const steps = {ArrowRight: at + 1, ArrowDown: at + 1, ArrowLeft: at - 1, ArrowUp: at - 1, Home: 0, End: last};
  return steps[/** @type {keyof typeof steps} */ (key)];
}

/**
 * A group of buttons with one stop for the Tab key: the arrow keys lead from one to the next.
 * @param {string} className
 * @param {HTMLButtonElement[]} buttons
 * @param {Record<string, any>} properties
 */
function oneStop(className, buttons, properties = {}, now = 0) {
  const live = buttons.filter((it) => !it.disabled), last = live.length - 1;
  const stopAt = (/** @type {EventTarget} */ wanted) => buttons.forEach((it) => {
    it.tabIndex = it === wanted ? 0 : -1;
  });
  stopAt(buttons[now]?.disabled ? live[0] : buttons[now]);
  const focusin = (/** @type {FocusEvent} */ {target}) => {
    if (live.some((it) => it === target)) stopAt(target);
  };
  const keydown = (/** @type {KeyboardEvent} */ event) => {
    const at = live.findIndex((it) => it === event.target), to = stepOf(event.key, at, last);
    if (to === undefined || at < 0) return;
    event.preventDefault();
    live[Math.max(0, Math.min(last, to))].focus();
  };
  return make('div', {className, ...properties, on: {focusin, keydown}}, ...buttons);
}

/**
 * A bar for each name, which filters the list; of many names the first alone.
 * @param {string} name of the filter
 * @param {[string, number, string?][]} entries value, count and label
 * @param {(value: string) => string} toneOf
 * @param {(value: string) => string} titleOf
 */
function bars(name, entries, toneOf = () => 'var(--c8)', titleOf = () => '') {
  const most = entries.reduce((found, [, count]) => Math.max(found, count), 1), first = entries.slice(0, MOST_BARS);
  const group = oneStop(
      'bars', first.map(([value, count, label]) => {
        const words = plainly(label ?? value), part = `${Math.max(1, count / most * 100)}%`;
        const pressed = String(room.filters.get(name)?.value === value),
              style = {'--part': part, '--tone': toneOf(value)};
        return button(
            'bar', () => toggle(name, value, words), {title: titleOf(value), 'aria-pressed': pressed, style},
            make('span', {className: 'name'}, words), make('span', {className: 'count'}, count.toLocaleString('en')));
      }),
      {role: 'group', 'aria-label': `Filter by ${name}`});
  if (first.length === entries.length) return [group];
  return [group, none(`and ${(entries.length - first.length).toLocaleString('en')} more`)];
}

/**
 * @param {Map<string, number>} map
 * @returns {[string, number][]}
 */
const sorted = (map) => [...map].sort((a, b) => b[1] - a[1]);

/**
 * Draws a plot anew. The focus stays where it was, and so does what is seen of a long one.
 * @param {string} id
 * @param {...(Node|string)} children
 */
function plot(id, ...children) {
  const place = byId(id), focused = [...place.querySelectorAll('button')].indexOf(document.activeElement);
  const top = place.querySelector('.bars')?.scrollTop ?? 0;
  place.replaceChildren(place.querySelector('figcaption'), ...children);
  if (top) place.querySelector('.bars').scrollTop = top;
  if (focused >= 0) place.querySelectorAll('button')[focused]?.focus({preventScroll: true});
}

function drawPlots() {
  const {kinds, hosts} = room.counts;
  plot('types', ...bars('type', sorted(kinds), tone));
  plot('hosts', ...(hosts.size ? bars('host', sorted(hosts)) : [none('none')]));
  drawVerdicts();
  drawTimes();
  drawFindings();
}

const VERDICT_TONES = new Map([['good', 'var(--good)'], ['bad', 'var(--bad)']]);
const VERDICT_TITLES = new Map([
  ['good', 'the block has the digest that its record states'],
  ['bad', 'the block doesn’t have the digest that its record states'],
  ['unchecked', 'the record states no digest, or one that can’t be checked'],
]);

function drawVerdicts() {
  const {judged: count, verdicts} = room.counts;
  if (!count && room.rows.count) {
    plot('verdicts', none('not judged yet'));
    return;
  }
  /** @type {[string, number][]} */
  const entries = verdicts.map((it, number) => [VERDICTS[number], it]);
  const toneOf = (/** @type {string} */ it) => VERDICT_TONES.get(it) ?? 'var(--c8)';
  const ofWget = room.ofWget ? make('p', {className: 'small'}, wgetWords(room.ofWget, verdicts[BAD])) : '';
  plot(
      'verdicts', ...bars('verdict', entries.filter((it) => it[1]), toneOf, (it) => VERDICT_TITLES.get(it) ?? ''),
      ofWget);
}

function drawFindings() {
  if (!room.findings) {
    plot('findings', none(room.listed && !room.holds ? `not looked for. ${notReplayed()}` : 'not looked for yet'));
    return;
  }
  /** @type {Map<string, number>} */
  const numbers = new Map();
  room.findings.forEach((it) => numbers.set(it.number, (numbers.get(it.number) ?? 0) + 1));
  /** @type {[string, number, string][]} */
  const entries = sorted(numbers).map(([number, count]) => [number, count, `${number} ${inWords(number)[0]}`]);
  const titleOf = (/** @type {string} */ number) => plain(inWords(number)[1]);
  plot('findings', ...(entries.length ? bars('finding', entries, () => 'var(--warn)', titleOf) : [none('none')]));
}

// ---------------------------------------------------------------- times

function drawTimes() {
  const {times, first, last} = room.counts;
  if (!times.length) {
    plot('times', none('none'));
    return;
  }
  const step = Math.max(1000, Math.ceil((last - first + 1) / BUCKETS));
  const counts = new Array(Math.floor((last - first) / step) + 1).fill(0);
  times.forEach((time) => {
    counts[Math.floor((time - first) / step)] += 1;
  });
  const most = Math.max(...counts);  // at most BUCKETS of them
  const buttons = counts.map((count, number) => timeBar(count, first + number * step, step, count / most));
  const ends = [make('span', {}, dateText(first)), first < last ? make('span', {}, dateText(last)) : null];
  const group = oneStop('times', buttons, {role: 'group', 'aria-label': 'Filter by time of capture'});
  plot('times', group, make('div', {className: 'ends'}, ...ends));
}

/** @type {(count: number, from: number, step: number, part: number) => HTMLButtonElement} */
function timeBar(count, from, step, part) {
  const ends = [...new Set([from, from + step - 1].map((time) => dateText(Math.floor(time / 1000) * 1000)))];
  const title = `${many(count, 'capture')}, ${ends.join(' to ')}`;
  const properties = {
    title,
    'aria-label': title,
    'aria-pressed': String(room.filters.get('time')?.value === from),
    disabled: count === 0,
    style: {'--part': count ? `${Math.max(3, part * 100)}%` : '0'},
  };
  return button('', () => toggle('time', from, ends[0], from + step), properties, ...(count ? [make('i')] : []));
}

/**
 * Sets a filter, or takes it off.
 * @param {string} name
 * @param {string|number} value
 * @param {string} label
 * @param {number} [end]
 */
function toggle(name, value, label, end) {
  if (room.filters.get(name)?.value === value)
    room.filters.delete(name);
  else
    room.filters.set(name, {value, label, end});
  drawPlots();
  filter();
}
