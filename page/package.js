// A package (WACZ): what it says of its files, compared with them, and the pages that it lists, as places to begin.
'use strict';

const PAGES_AT_ONCE = 100;
const ANY_DATE = '9999';
const PLAIN_MOMENT = /^\d{4}-\d\d-\d\dT\d\d:\d\d:\d\d(?:\.\d{1,9})?Z$/;
const AS_PACKED = 'Good means that a file is as it was packed, and not by whom.';

/**
 * The time of a page as a date of the library; empty if it is none.
 * @param {string} text
 */
function momentIn(text) {
  if (PLAIN_MOMENT.test(text)) return text;
  const time = /^\d{4}-.*T.*(?:Z|[+-]\d\d:\d\d)$/i.test(text) ? Date.parse(text) : NaN;
  return Number.isNaN(time) ? '' : new Date(time).toISOString();
}

/**
 * Shows a page as of its time, or its first capture if that is later: a browser writes down when it began.
 * @param {PackedPage} page
 */
async function openPage({url, moment}) {
  const uri = typed(url), date = momentIn(moment) || ANY_DATE;
  Object.assign(byId('uri'), {value: url});
  byId('uri').dataset.typed = url;
  byId('moment').value = date;
  if (!room.holds) {
    say(notReplayed());
    return;
  }
  const {rows} = room, asked = room.asked += 1;
  const [answer] = await room.library.ask([{uri, date}]).catch(() => [null]);
  if (rows !== room.rows || asked !== room.asked) return;  // something else was opened, or asked, meanwhile
  const [first] = numberOf(answer?.reason ?? '') === 'P2' ? capturesOf(uri) : [];
  if (!first) {
    await openAsOf(uri, date, true);
    return;
  }
  const later = seconds(first.time - Date.parse(date));
  const note = `The package says ${plainly(date)} of this page. This is its first capture, ${later} later.`;
  await openRecord(first.position, {focus: WHOLE, note});
}

/** @param {PackedPage} page */
function pageLineOf(page) {
  const url = plainly(page.url), open = () => openPage(page);
  const when = momentIn(page.moment) ? `, ${plainly(page.moment)}` : '';
  const title = button('link', open, {}, make('bdi', {}, page.title ? plainly(page.title) : url));
  return make('li', {}, title, make('span', {className: 'small'}, ' ', make('bdi', {}, url), when));
}

/**
 * The pages of a package, some at once, with a field that looks for words in their titles and URIs.
 * @param {PackedPages} pages
 */
function pageNodes({list, others, isCut}) {
  const lines = make('ul', {className: 'plain-list found'}), more = button('button quiet', () => add(), {});
  const words = make('input', {type: 'search', spellcheck: false, 'aria-label': 'Search pages', placeholder: 'Search'});
  let found = list, shownPages = 0;
  const add = () => {
    const next = found.slice(shownPages, shownPages + PAGES_AT_ONCE);
    lines.append(...next.map(pageLineOf));
    shownPages += next.length;
    more.hidden = shownPages >= found.length;
    more.textContent = `Show more of ${many(found.length, 'page')}`;
  };
  words.addEventListener('input', () => {
    const text = words.value.toLowerCase();
    found = list.filter(({url, title}) => `${title}\n${url}`.toLowerCase().includes(text));
    shownPages = 0;
    lines.replaceChildren();
    add();
  });
  add();
  const odd = others ? ` ${many(others, 'line')} of its lists ${others === 1 ? 'is no page' : 'are no pages'}.` : '';
  const about = `${many(list.length, 'page')}${isCut ? ', and more that aren’t shown' : ''}.${odd} ${SCRIPTED}`;
  return [make('p', {className: 'small'}, about), ...(list.length ? [words, lines, more] : [])];
}

/**
 * How many files of a package have which verdict, and those that aren't good.
 * @param {PackedFile[]} resources
 * @param {string} signer
 */
function fileNodes(resources, signer) {
  const counts = new Map();
  for (const {verdict} of resources) counts.set(verdict, (counts.get(verdict) ?? 0) + 1);
  const words = [...counts].map(([verdict, count]) => `${count.toLocaleString('en')} ${verdict}`).join(', ');
  const others = resources.filter(({verdict}) => verdict !== 'good').slice(0, MOST_LISTED);
  const lines = others.map(({verdict, path}) => make('li', {}, `${verdict} `, make('bdi', {}, plainly(path))));
  const title = make('summary', {}, 'Files that aren’t good');
  const list = make('details', {}, title, make('ul', {className: 'plain-list'}, ...lines));
  const signed = signer ? ` It names ${plainly(signer.slice(0, 200))} as who signed it, which isn’t checked.` : '';
  const sentence = make('p', {}, `${many(resources.length, 'file')}: ${words}. ${AS_PACKED}${signed}`);
  return lines.length ? [sentence, list] : [sentence];
}

/**
 * Shows the pages of a package, and once its files are compared what came of that.
 * @param {string} name
 * @param {PackedPages} pages
 */
function showPackage(name, pages) {
  const files = make('div', {}, make('p', {}, 'Comparing its files with what it says of them…'));
  room.packages.set(name, files);
  const title = make('h2', {}, 'Package ', make('bdi', {}, plainly(name)));
  byId('package').append(title, files, ...pageNodes(pages));
  byId('package').hidden = false;
}
