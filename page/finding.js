// What a reader of the room finds without knowing a URI: pages by their words, hosts, the pages of a host as a tree,
// and the captures of a URI in a calendar. The server answers, and leaves out what is withheld.
'use strict';

const MOST_SHOWN_PERIODS = 20;
const CALENDAR_FROM = 12;            // captures: fewer are easily read as points
const NARROW = '(max-width: 44em)';  // on such a screen the calendar is folded
const MONTHS = ['Jan', 'Feb', 'Mar', 'Apr', 'May', 'Jun', 'Jul', 'Aug', 'Sep', 'Oct', 'Nov', 'Dec'];
// The fields of the form for words, by their names in a question.
const WORD_FIELDS = {
  q: 'find-words',
  host: 'find-host',
  type: 'find-type',
  from: 'find-from',
  before: 'find-before'
};

/** @param {string} instant */
const dayOf = (instant) => instant.slice(0, 10);

/** @type {(first: string, last: string) => string} */
const spanOf = (first, last) => (dayOf(first) === dayOf(last) ? dayOf(first) : `${dayOf(first)} to ${dayOf(last)}`);

/**
 * An answer of the server as JSON. What it refuses is an error with its sentence.
 * @param {string} path
 */
async function asked(path) {
  const reply = await fetch(`${TOP}${path}`, {redirect: 'error'});
  if (!reply.ok) throw new Error((await reply.text()).trim().split('\n')[0]);
  return reply.json();
}

// ---------------------------------------------------------------- words

/**
 * From when to when a page had the words, in how many of its captures.
 * @param {WordHit} hit
 * @param {Uint8Array} uri
 */
function timesOf(hit, uri) {
  const link = (/** @type {string} */ instant, /** @type {string} */ text) => roomLink(uri, digitsOf(instant), text);
  const times = [`in ${hit.count} of ${many(hit.of, 'capture')}, ${spanOf(hit.first, hit.last)} `];
  if (hit.in_periods > 1) {
    const some = hit.periods.slice(0, MOST_SHOWN_PERIODS);
    const links = some.flatMap(([first, last]) => [' ', link(first, spanOf(first, last))]);
    times.push(`in ${hit.in_periods} periods:`, ...links, some.length < hit.in_periods ? ' …' : '', ' ');
  }
  const [first, last] = [[hit.first, 'first'], [hit.last, 'latest']].map(([instant, name]) => {
    const made = link(instant, name);
    made.setAttribute('aria-label', `${name}, ${dayOf(instant)}`);
    return made;
  });
  return make('div', {className: 'small'}, ...times, first, ' ', last);
}

/**
 * A page that has the words.
 * @param {WordHit} hit
 */
function hitItem(hit) {
  const uri = targetIn(hit.uri_path), [file, position, instant] = hit.chosen;
  const title = make('h3', {}, make('bdi', {}, roomLink(uri, digitsOf(instant), plainly(hit.title || hit.uri))));
  const where = make('div', {className: 'small'}, make('bdi', {}, plainly(hit.uri)));
  const mark = hit.mark ? make('span', {className: 'mark'}, plainly(hit.mark)) : '';
  const snippet = make('p', {}, make('bdi', {}, ...markedText(hit.snippet, hit.marks)));
  const from = make('div', {className: 'small'}, placeOf([file, position]), mark && ', ', mark);
  return make('li', {}, title, where, timesOf(hit, uri), snippet, from);
}

/**
 * What is said of the hits together.
 * @param {WordAnswer} answer
 * @param {number} count of those that are shown
 */
function hitsInWords({more, left_out: leftOut, unread, missing}, count) {
  const some = more === null ? many(count, 'page') : `The first ${many(count, 'page')}`;
  const lacks = missing.length ? `. No text has: ${missing.map(plainly).join(', ')}` : '';
  const files = unread ? `. ${many(unread, 'file has', 'files have')} no texts here` : '';
  return `${count ? some : 'No page has these words'}${lacks}${files}${leftOut && `. ${leftOut}`}`;
}

/**
 * Adds the next pages to a list, and a button for those after them.
 * @param {URLSearchParams} question
 * @param {HTMLElement} list
 * @param {HTMLElement} said
 * @param {HTMLElement} below
 * @param {number} visit
 */
async function addHits(question, list, said, below, visit) {
  /** @type {WordAnswer} */
  const answer = await asked(`/search/json?${question}`);
  if (visit !== served.visit) return;
  const items = answer.found.map(hitItem), isMore = list.children.length > 0;
  list.append(...items);
  said.textContent = byId('find-status').textContent = hitsInWords(answer, list.children.length);
  if (isMore && items.length) items[0].querySelector('a').focus();
  if (answer.more === null) {
    below.replaceChildren();
    return;
  }
  const next = new URLSearchParams(question);
  next.set('after', String(answer.more));
  below.replaceChildren(button('button', () => {
    addHits(next, list, said, below, visit).catch((error) => {
      said.textContent = plainly(whyOf(error));
    });
  }, {}, 'More'));
}

/**
 * Shows the pages that have words.
 * @param {string} fields
 */
async function showWords(fields) {
  const visit = served.visit += 1, question = new URLSearchParams(fields);
  for (const [name, id] of Object.entries(WORD_FIELDS)) byId(id).value = question.get(name) ?? '';
  byId('status').textContent = '';
  byId('find-status').textContent = 'Searching…';
  const list = make('ol', {className: 'hits'}), below = make('div', {className: 'actions'});
  const said = make('div', {className: 'sub'}), words = question.get('q') ?? '';
  try {
    await addHits(question, list, said, below, visit);
  } catch (error) {
    byId('find-status').textContent = plainly(whyOf(error));
    return;
  }
  if (visit !== served.visit) return;
  const count = said.textContent;
  show(
      make('header', {}, make('h2', {}, 'Pages with ', make('bdi', {}, plainly(words))), said),
      make('div', {className: 'panel'}, list, below));
  byId('find-status').textContent = count;
  document.title = `${plainly(words)} – Zogwedu reading room`;
}

/** @param {Event} event */
function askForWords(event) {
  event.preventDefault();
  const question = new URLSearchParams();
  for (const [name, id] of Object.entries(WORD_FIELDS)) {
    const value = byId(id).value.trim();
    if (value) question.set(name, value);
  }
  if (question.has('q'))
    location.hash = `#search?${question}`;
  else
    byId('find-status').textContent = 'Which words?';
}

// ---------------------------------------------------------------- hosts and their pages

/**
 * How many URIs and captures there are of something, and from when to when.
 * @param {OverviewRow} row
 */
const numbersIn = ({uris, captures, first, last}) =>
    ` ${many(uris, 'URI')}, ${many(captures, 'capture')}, ${spanOf(first, last)}`;

/** @param {OverviewRow} row */
function hostRow(row) {
  const front = targetIn(row.path), text = seen(front) || 'others';
  const name = make('a', {href: `#below/${pathOf(front)}`}, text);
  const cells = [row.uris, row.captures].map((it) => make('td', {className: 'number'}, it.toLocaleString('en')));
  const [first, ...last] = spanOf(row.first, row.last).split(' to ').map((it) => make('span', {}, it));
  const days = make('td', {}, first, ...last.flatMap((it) => [' to ', it]));
  return make('tr', {}, make('th', {scope: 'row'}, make('bdi', {}, name)), ...cells, days);
}

// The hosts, with their numbers and spans.
async function hostsPart() {
  const {found, more} = await asked('/room/hosts');
  const heads = ['Host', 'URIs', 'Captures', 'When'].map((it) => make('th', {scope: 'col'}, it));
  const words = more ? `The first ${many(found.length, 'host')}` : many(found.length, 'host');
  const table = make(
      'table', {className: 'hosts'}, make('caption', {}, words), make('thead', {}, make('tr', {}, ...heads)),
      make('tbody', {}, ...found.map(hostRow)));
  return [make('header', {}, make('h2', {}, 'What is here')), make('div', {className: 'panel wide'}, table)];
}

/**
 * A page of a host, or a folder that opens to what is in it.
 * @param {string} front
 * @param {OverviewRow} row
 */
function branchItem(front, row) {
  const target = targetIn(row.path), text = seen(target), own = text.slice(seen(typed(front)).length) || text;
  const numbers = make('span', {className: 'small'}, numbersIn(row));
  if (!/[/?]$/.test(row.path) || row.path === front)
    return make('li', {}, make('bdi', {}, roomLink(target, LATEST, own)), numbers);
  const folder = make('details', {}, make('summary', {}, make('bdi', {}, own), numbers));
  folder.addEventListener('toggle', () => {
    if (folder.open && folder.children.length === 1) folder.append(branchesOf(row.path));
  });
  return make('li', {}, folder);
}

/**
 * What comes next after the beginning of a URI, as a list that is filled when the server has answered.
 * @param {string} path
 */
function branchesOf(path) {
  const list = make('ul', {className: 'tree'}, make('li', {}, 'Asking the collection…'));
  asked(`/room/tree/${path}`)
      .then(({found, more}) => {
        const items = found.map((/** @type {OverviewRow} */ row) => branchItem(path, row));
        hear(`${more ? 'The first ' : ''}${many(found.length, 'path')} in ${seen(targetIn(path))}`);
        list.replaceChildren(...items, ...(more ? [make('li', {}, '… and there may be more')] : []));
      })
      .catch((error) => list.replaceChildren(make('li', {}, plainly(whyOf(error)))));
  return list;
}

/**
 * Shows the pages whose URIs begin so, as a tree of paths.
 * @param {string} path
 */
function showBelow(path) {
  served.visit += 1;
  const title = seen(targetIn(path));
  show(make('header', {}, make('h2', {}, make('bdi', {}, title))), make('div', {className: 'panel'}, branchesOf(path)));
  document.title = `${title} – Zogwedu reading room`;
}

// ---------------------------------------------------------------- a calendar

/**
 * The captures of a month, as links.
 * @param {Uint8Array} uri
 * @param {ServedCapture[]} captures
 */
function monthList(uri, captures) {
  const items = captures.map(
      (it) => make(
          'li', {}, roomLink(uri, digitsOf(it.instant), dateOf(it.instant)),
          make('span', {className: 'small'}, ` ${it.kind}${it.reason ? `, ${plainly(it.reason)}` : ''}`)));
  return make('ul', {className: 'plain-list'}, ...items);
}

/**
 * The captures of a URI by year and month.
 * @param {Uint8Array} uri
 * @param {ServedCapture[]} list
 */
function calendarOf(uri, list) {
  /** @type {Map<string, ServedCapture[]>} */
  const months = new Map();
  for (const it of list) {
    const month = it.instant.slice(0, 7);
    months.set(month, [...(months.get(month) ?? []), it]);
  }
  const years = [...new Set(list.map((it) => it.instant.slice(0, 4)))];
  const shown = make('div', {});
  /** @type {HTMLElement|null} */
  let pressed = null;
  const cell = (/** @type {string} */ year, /** @type {string} */ name, /** @type {number} */ number) => {
    const found = months.get(`${year}-${String(number + 1).padStart(2, '0')}`);
    if (!found) return make('td', {});
    const label = `${name} ${year}: ${many(found.length, 'capture')}`;
    const own = button('button quiet', () => {
      pressed?.setAttribute('aria-pressed', 'false');
      own.setAttribute('aria-pressed', 'true');
      pressed = own;
      shown.replaceChildren(make('h3', {}, label), monthList(uri, found));
      hear(`${label}, listed below`);
    }, {'aria-label': label, 'aria-pressed': 'false'}, String(found.length));
    return make('td', {}, own);
  };
  const row = (/** @type {string} */ year) =>
      make('tr', {}, make('th', {scope: 'row'}, year), ...MONTHS.map((name, number) => cell(year, name, number)));
  const heads = ['Year', ...MONTHS].map((it) => make('th', {scope: 'col'}, it));
  const table = make(
      'table', {className: 'calendar', 'aria-label': 'Captures by year and month'},
      make('thead', {}, make('tr', {}, ...heads)), make('tbody', {}, ...years.map(row)));
  const title = make('summary', {}, `Calendar of ${many(list.length, 'capture')}`);
  return make('details', {open: !matchMedia(NARROW).matches}, title, make('div', {className: 'wide'}, table), shown);
}

if (document.body.dataset.search === 'yes') byId('find-form').hidden = false;
byId('find-form').addEventListener('submit', askForWords);
