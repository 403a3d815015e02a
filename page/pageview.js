// A page as a view, with what is said of it. A host answers: an archive that is open, or a server.
'use strict';

/**
 * The moments as of which a page's pictures and styles may be looked for: as of each of them the page's URI gives this
 * capture. The first is the moment of the capture.
 * @param {string} date of the capture
 * @param {number|undefined} next when the next capture is
 * @returns {[string, string][]}
 */
function momentsFrom(date, next) {
  const start = captureTime(date) ?? 0;
  /** @type {[string, number][]} */
  const later = [['an hour later', HOUR], ['a day later', DAY]];
  const between = later.filter(([, after]) => next === undefined || start + after < next);
  return [
    ['at its capture', date],
    ...between.map(([name, after]) => /** @type {[string, string]} */ ([name, dateText(start + after)])),
    next === undefined ? ['at any later time', '9999'] : ['just before the next capture', dateText(next - 1)],
  ];
}

const ABOUT_VIEWS = 'Links lead to what is in the archive, and what isn’t there is missing. ' +
    'The bytes on disk and in the download are never changed.';

/**
 * A place on a page by its name: an element with this id, or a link that was named so before there were ids.
 * @param {Document} page
 * @param {string} name
 * @returns {Element|undefined|null}
 */
function placeIn(page, name) {
  const place = Document.prototype.getElementById.call(page, name) ??
      every(rootOf(page), 'a[name]').find((it) => attributeOf(it, 'name') === name);
  return place ?? (name.toLowerCase() === TOP_OF_PAGE ? rootOf(page) : null);
}

// A page as a view, with what is said of it.
class PageView {
  /**
   * @param {ViewHost} host what answers, and shows where links lead
   * @param {string} html
   * @param {string} uri
   * @param {[string, string][]} choices moments, with a name for each
   * @param {number} visit for which it was asked
   */
  constructor(host, html, uri, choices, visit) {
    this.host = host;
    this.html = html;
    this.uri = uri;
    this.visit = visit;
    this.turn = 0;  // how often it was drawn
    this.place = make('div');
    this.summary = make('div', {'aria-live': 'polite', className: 'small'});
    this.below = make('div');
    const options = choices.map(
        ([name, moment], number) =>
            make('option', {value: moment, selected: number === 1}, `${name}: ${plainly(moment)}`));
    const label = 'As of which moment pictures and styles are looked for';
    this.choice = make('select', {'aria-label': label, on: {change: () => this.draw()}}, ...options);
  }

  /** @param {Node} saved */
  nodes(saved) {
    const label = make('span', {className: 'small'}, 'Pictures and styles as of');
    const choice = make('div', {className: 'actions'}, label, this.choice);
    const title = make('summary', {}, make('b', {}, 'This is a view'), ', without scripts and without network');
    const about = make('details', {}, title, make('p', {}, ABOUT_VIEWS));
    return [make('div', {className: 'note plainly'}, about, choice, this.summary), saved, this.place, this.below];
  }

  // Draws the page with the pictures and styles of the moment that is chosen.
  async draw() {
    const moment = this.choice.value, turn = this.turn += 1,
          isWanted = () => turn === this.turn && this.visit === this.host.visit();
    this.summary.textContent = 'Looking for pictures and styles…';
    const resources = new Resources(this.host.ask, moment, isWanted);
    const {root, targets} = await viewOf(this.html, this.uri, resources);
    if (!isWanted()) {
      resources.forget();
      return;
    }
    this.host.keep(resources.urls);
    this.place.replaceChildren(emptyFrame((page) => {
      hearOf(page, 'click', (event) => this.follow(event, targets, moment));
      hearOf(page, 'keydown', (event) => event.key === 'Escape' && this.host.leave());
      this.host.hearDrops(page);
      moveInto(page, root);
    }));
    this.sumUp(resources, moment);
    this.below.replaceChildren(
        ...listed(this.host, resources, [...new Set(targets.map((target) => target.uri))], moment));
  }

  /**
   * @param {Resources} resources
   * @param {string} moment
   */
  sumUp({there, missing, budget}, moment) {
    const byBrowser = there.filter(([, found]) => found.isDecoded).length, left = budget.words;
    const count = many(there.length, 'picture or style', 'pictures and styles');
    const how = byBrowser ? `, ${byBrowser} of them decoded by this browser` : '';
    const words = `${count} from the archive as of ${plainly(moment)}${how}; ${missing.length} missing.`;
    const leftOut = make('p', {className: 'left-out'}, `Left out of this view: ${left.join('; ')}.`);
    this.summary.replaceChildren(words, left.length ? leftOut : '');
  }

  /**
   * Follows a link: to a place on the same page, or to what the archive gives as of the view’s moment.
   * @param {any} event
   * @param {Target[]} targets
   * @param {string} moment
   */
  follow(event, targets, moment) {
    const link = Element.prototype.closest.call(event.target, 'a[href], area[href]');
    if (!link) return;
    event.preventDefault();
    const target = targets[Number(/^about:srcdoc#(\d+)$/.exec(attributeOf(link, 'href'))?.[1])];
    if (!target) return;
    if (target.place && target.uri === resolved(this.uri, this.uri)) {
      const place = placeIn(ownerOf(link), nameOf(target.place));
      if (place) Element.prototype.scrollIntoView.call(place);
    } else if (mayHold(this.host, target.uri))
      this.host.lead(target.uri, moment);
    else
      this.summary.textContent = `The archive has no capture of ${plainly(target.uri)}`;
  }
}

/**
 * Whether a host may have a capture of a URI.
 * @param {ViewHost} host
 * @param {string} uri
 */
const mayHold = (host, uri) => !host.has || host.has(uri);

/**
 * What is in a view, what is missing, and where its links lead.
 * @param {ViewHost} host
 * @param {Resources} resources
 * @param {string[]} links
 * @param {string} moment
 */
function listed(host, {there, missing}, links, moment) {
  const present = there.map(([uri, found]) => {
    return make('li', {}, ...host.line(uri, found), found.isDecoded ? ', decoded by this browser' : '');
  });
  const absent = missing.map(
      ([uri, why]) => make('li', {className: 'absent'}, `${plainly(uri)} `, make('span', {className: 'small'}, why)));
  const known = new Set(links.filter((uri) => mayHold(host, uri)));
  const ofThem = host.has ? `, ${known.size} of them in this archive` : '';
  const leading = links.slice(0, MOST_LISTED).map((uri) => {
    if (!known.has(uri)) return make('li', {className: 'absent'}, plainly(uri));
    return make('li', {}, button('link', () => host.lead(uri, moment), {}, plainly(uri)));
  });
  return [
    folded(`Pictures and styles in this view (${present.length})`, present),
    folded(`Missing (${absent.length})`, absent),
    folded(`Links on this page (${links.length}${ofThem})`, leading),
  ];
}
