// HTML as a view: the archive's own pictures and styles as of one moment, without scripts and without network.
'use strict';

const VIEW_POLICY = 'default-src \'none\'; img-src blob: data:; style-src \'unsafe-inline\'; font-src blob: data:; ' +
    'form-action \'none\'; base-uri \'none\'';
const EMPTY_VIEW =
    `<!doctype html><meta charset="utf-8"><meta http-equiv="Content-Security-Policy" content="${VIEW_POLICY}">`;
const MOST_ROUNDS = 6;      // styles that name styles that name styles
const AT_ONCE = 16;         // URIs that the library is asked for together
const TOP_OF_PAGE = 'top';  // the name of a place that each page has

/**
 * What one view may take, and what shows a reader that there was more.
 * @type {Record<string, [number, string]>}
 */
const MOST_OF_VIEW = {
  addresses: [32 * MEGABYTE, 'drawings (SVG) of over 32 MB in all'],
  decoded: [512 * MEGABYTE, 'pictures and styles of over 512 MB in all'],
  elements: [100000, 'what follows the first 100,000 elements'],
  nested: [0, `what follows more than ${MOST_NESTED} brackets within each other in a style`],
  references: [10000, 'more than 10,000 references to pictures and styles'],
  styles: [8 * MEGABYTE, 'styles of over 8 MB in all'],
  text: [16 * MEGABYTE, 'what follows the first 16 MB of HTML'],
};

// A browser that has no trusted types takes the text itself.
const parserPolicy =
    globalThis.trustedTypes?.createPolicy('zogwedu-parser', {createHTML: (/** @type {string} */ text) => text});

/** @type {(text: string) => any} */
const asHtml = (text) => (parserPolicy ? parserPolicy.createHTML(text) : text);

// What is left of what a view may take.
class Budget {
  constructor() {
    this.left = Object.fromEntries(Object.entries(MOST_OF_VIEW).map(([name, [most]]) => [name, most]));
    /** @type {Set<string>} */
    this.spent = new Set();
  }

  /**
   * Takes an amount, if as much is left.
   * @param {string} name
   * @param {number} amount
   */
  take(name, amount) {
    if (amount <= this.left[name]) {
      this.left[name] -= amount;
      return true;
    }
    this.spent.add(name);
    return false;
  }

  /** What was left out, in words. */
  get words() {
    return [...this.spent].map((name) => MOST_OF_VIEW[name][1]);
  }
}

/**
 * The exact URI that a reference means on a page, without its fragment; null for one that no archive holds.
 * @param {string} reference
 * @param {string} base
 * @returns {string|null}
 */
function resolved(reference, base) {
  try {
    const url = new URL(reference.trim(), base);
    url.hash = '';
    return /^(https?|ftp):$/.test(url.protocol) ? url.href : null;
  } catch {
    return null;
  }
}

/**
 * Where a link or a frame of a page leads: the exact URI, and the name of a place on that page.
 * @param {string} reference
 * @param {string} base
 */
function targetOf(reference, base) {
  const uri = resolved(reference, base), top = reference.trim().endsWith('#') ? TOP_OF_PAGE : '';
  return uri && {uri, place: new URL(reference.trim(), base).hash.slice(1) || top};
}

/**
 * Whether a body is there, of neither an error nor a redirect.
 * @param {Answer} found
 */
const isThere = (found) => Boolean(found.body) && (!found.status || (found.status >= 200 && found.status < 300));

/**
 * Bytes as an address that holds them.
 * @param {Uint8Array} bytes
 * @param {string} media
 */
function dataUrl(bytes, media) {
  const parts = [];
  for (let at = 0; at < bytes.length; at += 0x8000) parts.push(String.fromCharCode(...bytes.subarray(at, at + 0x8000)));
  return `data:${media};base64,${btoa(parts.join(''))}`;
}

/**
 * An address of bytes for an element that shows them. A drawing can hold what runs and loads, so its bytes are in the
 * address itself: no browser opens that as a page. Others get an address that lasts until it is revoked.
 * @param {Uint8Array} bytes
 * @param {string} media
 * @param {string[]} urls where an address is kept that has to be revoked
 */
function addressOf(bytes, media, urls) {
  if (media === 'image/svg+xml') return dataUrl(bytes, media);
  const url = URL.createObjectURL(new Blob([bytes], {type: isPicture(media) ? media : 'application/octet-stream'}));
  urls.push(url);
  return url;
}

// What the archive gives for URIs as of one moment; each is asked once.
class Resources {
  /**
   * @param {(questions: Question[], most: number) => Promise<Answer[]>} ask
   * @param {string} moment
   * @param {() => boolean} isWanted whether the view is still wanted
   */
  constructor(ask, moment, isWanted) {
    this.ask = ask;
    this.moment = moment;
    this.isWanted = isWanted;
    this.budget = new Budget();
    /** @type {Map<string, Answer>} */
    this.known = new Map();
    /** @type {Map<string, string>} */
    this.addresses = new Map();
    /** @type {string[]} */
    this.urls = [];
  }

  /** @param {string[]} uris */
  async find(uris) {
    const wanted = [...new Set(uris)].filter((uri) => uri && !this.known.has(uri));
    for (let at = 0; at < wanted.length && this.isWanted(); at += AT_ONCE)
      await this.findPart(wanted.slice(at, at + AT_ONCE));
  }

  /** @param {string[]} uris */
  async findPart(uris) {
    const questions = uris.map((uri) => ({uri: typed(uri), date: this.moment}));
    const answers = this.budget.spent.has('decoded') ? [] : await this.ask(questions, this.budget.left.decoded);
    uris.forEach((uri, number) => {
      const found = answers[number] ?? {reason: 'left out of this view'};
      if (found.isLeftOut) this.budget.spent.add('decoded');
      const isKept = !found.body || this.budget.take('decoded', found.body.length);
      this.known.set(uri, isKept ? found : {...found, body: null, reason: 'left out of this view'});
    });
  }

  /** @param {string|null} uri */
  get(uri) {
    const found = this.known.get(uri ?? '');
    return found && isThere(found) ? found : null;
  }

  /**
   * The address of what a URI gives, the same for each reference to it.
   * @param {string|null} uri
   */
  address(uri) {
    const found = this.get(uri);
    if (!found) return null;
    let address = this.addresses.get(uri);
    if (!address) {
      address = addressOf(found.body, mediaOf(found.type ?? '', found.body, ''), this.urls);
      this.addresses.set(uri, address);
    }
    return !address.startsWith('data:') || this.budget.take('addresses', address.length) ? address : null;
  }

  get there() {
    return [...this.known].filter(([, found]) => isThere(found));
  }

  get missing() {
    return [...this.known]
        .filter(([, found]) => !isThere(found))
        .map(([uri, found]) => [uri, found.reason ?? `captured with status ${found.status}`]);
  }

  forget() {
    this.urls.forEach((url) => URL.revokeObjectURL(url));
  }
}

// The styles of a view: each sheet is read and written once, and none while it is open.
class Sheets {
  /** @param {Resources} resources */
  constructor(resources) {
    this.resources = resources;
    this.budget = resources.budget;
    /** @type {Map<string, string>} */
    this.written = new Map();
    /** @type {Set<string>} */
    this.open = new Set();
  }

  /**
   * The text of a sheet of the archive; what is longer than all styles of a view may be is cut.
   * @param {string} uri
   */
  text(uri) {
    const found = this.resources.get(uri), most = MOST_OF_VIEW.styles[0];
    if (!found) return '';
    if (found.body.length > most) this.budget.spent.add('styles');
    return textOf(found.body.subarray(0, most), found.type ?? '', most);
  }

  /**
   * The URIs that a style names: sheets, and others.
   * @param {string} css
   * @param {string} base
   */
  named(css, base) {
    /** @type {{sheets: string[], others: string[]}} */
    const found = {sheets: [], others: []};
    const add = (/** @type {string[]} */ list, /** @type {string} */ reference) => {
      const uri = resolved(reference, base);
      if (uri && !/^(?:data:|#)/i.test(reference) && this.budget.take('references', 1)) list.push(uri);
      return '';
    };
    rewritten(css, {url: (it) => add(found.others, it), sheet: (it) => add(found.sheets, it), cut: () => {}});
    return found;
  }

  /**
   * A style in which each URI is an address of the bytes that it means, or of nothing. What it imports and it are no
   * longer than what is left: an import that would be is left out, and then the style is empty if it is longer itself.
   * @param {string} css
   * @param {string} base
   */
  filled(css, base, left = this.budget.left.styles) {
    let rest = left;
    const text = rewritten(css, {
      url: (reference) => this.place(reference, base),
      sheet: (reference, media) => {
        const inner = this.fitting(this.whole(resolved(reference, base), rest), rest);
        rest -= inner.length;
        return media && inner ? `@media ${media}{${inner}}` : inner;
      },
      cut: () => this.budget.spent.add('nested'),
    });
    return this.fitting(text, left);
  }

  /**
   * A text that isn't longer than what is left, or none.
   * @param {string} text
   * @param {number} left
   */
  fitting(text, left) {
    if (text.length <= left) return text;
    this.budget.spent.add('styles');
    return '';
  }

  /**
   * A style that goes into the view.
   * @param {string} text
   */
  taken(text) {
    return this.budget.take('styles', text.length) ? text : '';
  }

  /**
   * @param {string} reference
   * @param {string} base
   */
  place(reference, base) {
    if (/^(?:#|data:(?:image|font|application\/(?:x-)?font)[/;,-])/i.test(reference)) return reference;
    return this.resources.address(resolved(reference, base)) ?? NOTHING;
  }

  /**
   * A sheet of the archive with all that it imports, but for what is open already.
   * @param {string|null} uri
   * @returns {string}
   */
  whole(uri, left = this.budget.left.styles) {
    if (!uri || this.open.has(uri)) return '';
    const before = this.written.get(uri);
    if (before !== undefined) return before;
    this.open.add(uri);
    const text = this.filled(this.text(uri), uri, left);
    this.open.delete(uri);
    this.written.set(uri, text);
    return text;
  }
}

const MISSING_DRAWING =
    '<svg xmlns="http://www.w3.org/2000/svg" width="120" height="60"><rect x="1" y="1" width="118" ' +
    'height="58" fill="#f4f1ea" stroke="#b9b2a3" stroke-dasharray="4 3"/><text x="60" y="34" font-size="10" ' +
    'font-family="sans-serif" fill="#7c756a" text-anchor="middle">not in the archive</text></svg>';
const MISSING = `data:image/svg+xml,${encodeURIComponent(MISSING_DRAWING)}`;
const FRAME_LOOK = 'display:block;border:1px dashed #b9b2a3;padding:0.6em 1em;margin:0.4em 0;font:14px sans-serif;' +
    'color:#275d7c;background:#fff';

/**
 * A link in the place of a frame, which the view doesn't show. A frame without an address of its own leads nowhere.
 * @param {Element} node
 * @param {string} base
 */
function linkForFrame(node, base) {
  const link = newElement(ownerOf(node), 'a'), source = attributeOf(node, 'src')?.trim();
  const uri = source ? resolved(source, base) : null;
  link.textContent = uri ? `A frame that isn’t shown here: ${uri}` : 'A frame that isn’t shown here';
  link.setAttribute('style', FRAME_LOOK);
  if (uri) link.setAttribute('href', uri);
  return link;
}

/**
 * Puts links in the place of frames, and of a set of frames.
 * @param {Element} root
 * @param {string} base
 */
function unframe(root, base) {
  const [set] = every(root, 'frameset');
  if (set) {
    const body = newElement(ownerOf(root), 'body');
    body.append(...every(set, 'frame').slice(0, 1000).map((node) => linkForFrame(node, base)));
    replaceBy(set, body);
  }
  every(root, 'iframe').forEach((node) => replaceBy(node, linkForFrame(node, base)));
}

/**
 * The first reference of a set of pictures. It may have commas in it, and none at its ends.
 * @param {string} set
 */
const firstOfSet = (set) => /[^\s,](?:\S*[^\s,])?/.exec(set)?.[0] ?? '';

/** @type {(node: Element, address: string) => void} */
const setPicture = (node, address) => setAttribute(node, tagOf(node) === 'image' ? 'href' : 'src', address);

// What a page names, taken out of it before it is cleaned, and put back as bytes afterwards.
class Named {
  /**
   * @param {string} base
   * @param {Sheets} sheets
   */
  constructor(base, sheets) {
    this.base = base;
    this.sheets = sheets;
    this.budget = sheets.resources.budget;
    /** @type {{node: Element, uri: string|null}[]} */
    this.pictures = [];
    /** @type {{node: HTMLElement, uri: string|null}[]} */
    this.linked = [];
    /** @type {{node: Element, name: string, css: string}[]} */
    this.styles = [];  // the text of a style element has no name of an attribute
    /** @type {{node: Element, target: Target}[]} */
    this.links = [];
  }

  /**
   * Takes all that a tree names; what is beyond the budget is taken away.
   * @param {Element} root
   */
  takeAll(root) {
    const nodes = every(root, '*'), most = MOST_OF_VIEW.elements[0];
    if (nodes.length > most) this.budget.spent.add('elements');
    nodes.slice(most).forEach(drop);
    [root, ...nodes.slice(0, most)].forEach((node) => this.take(node));
  }

  /** @param {Element} node */
  take(node) {
    const tag = tagOf(node).toLowerCase();
    attributesOf(node).forEach((name) => this.takeAttribute(node, name));
    if (tag === 'link') this.takeSheet(node);
    if (tag === 'style') {
      this.styles.push({node, name: '', css: textIn(node)});
      node.textContent = '';
    }
    if (PICTURES.has(tag)) this.takePicture(node);
    if (LINKS.has(tag)) this.takeLink(node);
  }

  /**
   * Takes an attribute that is a style. Any other that nests too deep is taken away, as a browser may read it as one.
   * @param {Element} node
   * @param {string} name
   */
  takeAttribute(node, name) {
    const value = attributeOf(node, name), isDeep = ATTRIBUTES.has(name.toLowerCase()) && nestsDeep(value);
    if (STYLES.has(name)) this.styles.push({node, name, css: value});
    if (isDeep) this.budget.spent.add('nested');
    if (isDeep || STYLES.has(name)) dropAttribute(node, name);
  }

  /**
   * Puts a style element in the place of a link to a sheet.
   * @param {Element} node
   */
  takeSheet(node) {
    const kinds = words((attributeOf(node, 'rel') ?? '').toLowerCase());
    if (!kinds.includes('stylesheet') || kinds.includes('alternate') || !this.budget.take('references', 1)) return;
    const style = newElement(ownerOf(node), 'style'), media = attributeOf(node, 'media');
    if (media) style.setAttribute('media', media);
    replaceBy(node, style);
    this.linked.push({node: style, uri: resolved(attributeOf(node, 'href') ?? '', this.base)});
  }

  /** @param {Element} node */
  takePicture(node) {
    if (tagOf(node) === 'input' && (attributeOf(node, 'type') ?? '').toLowerCase() !== 'image') return;
    const [href, src, linked] = [...NAMING].map((name) => attributeOf(node, name)?.trim());
    const reference = src || firstOfSet(attributeOf(node, 'srcset') ?? '') || href || linked || '';
    NAMING.forEach((name) => dropAttribute(node, name));
    if (/^data:/i.test(reference))
      setPicture(node, reference);
    else if (reference)
      this.pictures.push({node, uri: this.budget.take('references', 1) ? resolved(reference, this.base) : null});
  }

  /** @param {Element} node */
  takeLink(node) {
    const target = targetOf(attributeOf(node, 'href') ?? attributeOf(node, 'xlink:href') ?? '#', this.base);
    const isLink = attributesOf(node).some((name) => NAMING.has(name));
    NAMING.forEach((name) => dropAttribute(node, name));
    if (isLink && target) this.links.push({node, target});
  }

  // Asks for pictures and styles, and for what the styles name.
  async gather() {
    const {resources} = this.sheets, inPage = this.styles.map((it) => this.sheets.named(it.css, this.base));
    let sheets = [...this.linked.map((it) => it.uri), ...inPage.flatMap((it) => it.sheets)];
    let wanted = [...sheets, ...this.pictures.map((it) => it.uri), ...inPage.flatMap((it) => it.others)];
    const read = new Set();
    for (let turn = 0; turn < MOST_ROUNDS && wanted.length; turn += 1) {
      await resources.find(wanted);
      const fresh = [...new Set(sheets)].filter((uri) => !read.has(uri) && resources.get(uri));
      fresh.forEach((uri) => read.add(uri));
      const inSheets = fresh.map((uri) => this.sheets.named(this.sheets.text(uri), uri));
      sheets = inSheets.flatMap((it) => it.sheets);
      wanted = [...sheets, ...inSheets.flatMap((it) => it.others)];
    }
  }

  /**
   * Puts the bytes into a tree that was cleaned.
   * @param {Element} root
   */
  fill(root) {
    const isKept = (/** @type {{node: Node}} */ {node}) => holds(root, node);
    for (const {node, uri} of this.linked.filter(isKept)) node.textContent = this.sheets.taken(this.sheets.whole(uri));
    for (const {node, name, css} of this.styles.filter(isKept)) {
      const style = this.sheets.taken(this.sheets.filled(css, this.base));
      if (name)
        setAttribute(node, name, style);
      else
        node.textContent = style;
    }
    for (const {node, uri} of this.pictures.filter(isKept))
      setPicture(node, this.sheets.resources.address(uri) ?? MISSING);
    this.links.forEach(({node, target}, number) => {
      setAttribute(node, 'href', `about:srcdoc#${number}`);  // it looks like a link; the page handles the click
      setAttribute(node, 'title', target.uri);
    });
  }
}

/** @type {(body: Uint8Array, type: string) => string} */
const htmlOf = (body, type) => textOf(body, type, MOST_OF_VIEW.text[0]);

// Attributes that a browser reads as styles as soon as it parses a page, up to where their values begin.
const READ_AT_ONCE_IN_TAGS = /[\s"'/](?:style|media)\s*=\s*(["']?)/gi;
const BRACKETS = /[([{]|&(?:#x?0*(?:28|40|5b|91|7b|123)|lpar|lsqb|lbrack|lcub|lbrace)/gi;
const MOST_BRACKETS = 1000;  // of one value: a browser ends where tens of thousands are within each other

/**
 * Where the value of an attribute ends; -1 where its quote isn't closed, and it is none.
 * @param {string} html
 * @param {number} start
 * @param {string} quote
 */
function endOfValue(html, start, quote) {
  if (quote) return html.indexOf(quote, start);
  const ending = /[\s>]|$/g;
  ending.lastIndex = start;
  return ending.exec(html).index;
}

/**
 * HTML without the values of such attributes that have too many brackets. A text that looks like one counts too.
 * @param {string} html
 * @param {Budget} budget
 */
function shallow(html, budget) {
  const parts = [];
  let from = 0;
  for (const found of html.matchAll(READ_AT_ONCE_IN_TAGS)) {
    const start = found.index + found[0].length, end = endOfValue(html, start, found[1]);
    if (start < from || end - start <= MOST_BRACKETS) continue;
    if ((html.slice(start, end).match(BRACKETS)?.length ?? 0) <= MOST_BRACKETS) continue;
    budget.spent.add('nested');
    parts.push(html.slice(from, start));
    from = end;
  }
  return parts.join('') + html.slice(from);
}

const MOST_OF_FRONT = 65536;  // characters in which a page begins
const FRONT = /\s+|<!--(?:-?>|[\s\S]*?--!?>)|(<(?:!doctype|html)\b[^>]*>)|<(?:\?|!(?!--))[^>]*>/iy;

/**
 * What a page has before its head: its document type, and the tag of its root.
 * @param {string} html
 */
function frontOf(html) {
  const front = html.slice(0, MOST_OF_FRONT), kept = [];
  FRONT.lastIndex = 0;
  for (let found = FRONT.exec(front); found; found = FRONT.exec(front)) kept.push(found[1] ?? '');
  return kept.join('');
}

/**
 * The root of a page of HTML, and what its references are resolved against. The document is one that loads and runs
 * nothing. The root isn't in it, so that the browser doesn't read style elements before they are written anew.
 * @param {string} html
 * @param {string} uri
 * @param {Budget} budget
 */
function parsed(html, uri, budget) {
  const most = MOST_OF_VIEW.text[0], text = shallow(html.slice(0, most), budget);
  if (html.length > most) budget.spent.add('text');
  const page = new DOMParser().parseFromString(asHtml(frontOf(text)), 'text/html');
  const root = newElement(page, 'html'), own = rootOf(page);
  attributesOf(own).forEach((name) => setAttribute(root, name, attributeOf(own, name)));
  root.innerHTML = asHtml(text);
  const [first] = every(root, 'base[href]');
  return {root, base: resolved(first ? attributeOf(first, 'href') : '', uri) ?? uri};
}

/**
 * The elements `meta` of a page, as its parser finds them: what gives the values of their attributes.
 * @param {string} front
 */
const metasIn = (front) => every(parsed(front, '', new Budget()).root, 'meta')
                               .map((meta) => (/** @type {string} */ name) => attributeOf(meta, name));

/**
 * The tree of a view, and where its links lead.
 * @param {string} html
 * @param {string} uri
 * @param {Resources} resources
 */
async function viewOf(html, uri, resources) {
  const {root, base} = parsed(html, uri, resources.budget);
  unframe(root, base);
  const named = new Named(base, new Sheets(resources));
  named.takeAll(root);
  clean(root);
  await named.gather();
  named.fill(root);
  narrow(root);
  return {root, targets: named.links.map((it) => it.target)};
}

/**
 * A frame without scripts, whose document is empty and has its policy before anything is put into it.
 * @param {(page: Document) => void} fill
 */
function emptyFrame(fill) {
  const frame = make('iframe', {className: 'view', title: 'The page as a view, without scripts and without network'});
  frame.setAttribute('sandbox', 'allow-same-origin');  // no scripts; so that this page can hear a click on a link
  frame.referrerPolicy = 'no-referrer';
  frame.addEventListener('load', () => {
    const page = frame.contentDocument;
    if (frame.dataset.shown || page?.URL !== 'about:srcdoc') return;
    fill(page);
    frame.dataset.shown = 'yes';
  });
  frame.srcdoc = asHtml(EMPTY_VIEW);
  return frame;
}

/**
 * Moves a cleaned tree into the document of a frame, node by node: nothing of it is written as text and read again.
 * @param {Document} page
 * @param {Element} root
 */
function moveInto(page, root) {
  const {documentElement: html, head, body} = page;
  attributesOf(root).forEach((name) => html.setAttribute(name, attributeOf(root, name)));
  for (let part = firstOf(root); part; part = firstOf(root)) {
    const mine = page.adoptNode(part), tag = mine instanceof Element || mine.nodeType === 1 ? tagOf(mine) : '';
    if (tag === 'body')
      body.replaceWith(mine);
    else if (tag === 'head')
      for (let node = firstOf(mine); node; node = firstOf(mine)) head.append(node);
    else
      html.append(mine);
  }
}
