// HTML as the text that a reader sees, in one pass, in a worker: the rules of the collection's scan.py. Both are held
// to the same cases, tests/unit/scan.json.
//
// Tokens are those of the HTML Standard. No tree is made of them: a worker has no parser, and trees of hostile pages
// take time that grows with the square of the length. Each expression here either moves on or ends the page. Nothing is
// fetched, run or expanded but references to characters.
'use strict';

const MOST_CHARACTERS = 2000000;  // of the text of a page
const MOST_OF_TITLE = 300;
const MOST_ATTRIBUTES = 64;  // that are read of a tag
const MOST_FOREIGN = 64;     // parts of SVG and MathML within each other

const MARKUP = /<[A-Za-z/!?]/g;
const TAG = /<(\/?)([A-Za-z][^\t\n\f\r />]*)/y;
const ATTRIBUTE = new RegExp(
    '[\\t\\n\\f\\r /]*([^\\t\\n\\f\\r />][^\\t\\n\\f\\r />=]*)(?:[\\t\\n\\f\\r ]*=[\\t\\n\\f\\r ]*' +
        '(?:"([^"]*)"|\'([^\']*)\'|([^\\t\\n\\f\\r >"\'][^\\t\\n\\f\\r >]*)|(?=>)|(["\'])))?',
    'y');
const TAG_END = /[\t\n\f\r /]*>/y;
const COMMENT_END = /--!?>/g;
const IN_SCRIPT = /<!--|-->|<(\/?)script(?=[\t\n\f\r />])/gi;
const REFERENCE = /&(?:#([0-9]+)|#[xX]([0-9a-fA-F]+)|([A-Za-z0-9]{1,32}))(;?)/g;
const LONGEST_OLD = 6;  // letters of a name that is known without a semicolon
const NO_CHARACTER = '\ufffd';
// Elements whose content is no markup, and those of which a reader sees nothing.
const RAW = ['script', 'style', 'xmp', 'iframe', 'noembed', 'noframes', 'title', 'textarea'];
const NOT_SEEN = new Set(['script', 'style', 'iframe', 'noembed', 'noframes']);
const RAW_ENDS = new Map(RAW.map((name) => [name, new RegExp(`</${name}(?=[\\t\\n\\f\\r />])`, 'gi')]));
const CLOSED = new Set([...RAW, 'plaintext']);
const CLOSED_IN_SVG = new Set(['script', 'style']);
// Elements before and after which a word ends. All others are within a line.
const APART = new Set(
    ('address area article aside audio blockquote body br button canvas caption center col colgroup dd details ' +
     'dialog dir div dl dt embed fieldset figcaption figure footer form frame frameset h1 h2 h3 h4 h5 h6 head header ' +
     'hgroup hr html iframe img input legend li listing main menu nav noscript object ol optgroup option p plaintext ' +
     'pre search section select summary svg table tbody td text textarea tfoot th thead tr ul video xmp')
        .split(' '));
const WITH_ALT = new Set(['img', 'area', 'input']);
// Elements that end a part of SVG or MathML around them, and those within which HTML goes on.
const OUTSIDE = new Set(
    ('b big blockquote body br center code dd div dl dt em embed h1 h2 h3 h4 h5 h6 head hr i img li listing menu ' +
     'meta nobr ol p pre ruby s small span strong strike sub sup table tt u ul var')
        .split(' '));
const FOREIGN = new Set(['svg', 'math']);
const AGAIN_HTML = new Set(['foreignobject', 'desc', 'title', 'mi', 'mo', 'mn', 'ms', 'mtext']);
// A soft hyphen, a word joiner and a mark of the order of bytes are no part of a text.
const VANISHING = /[\0\u00ad\u2060\ufeff]+/g;
const SPACE = '\\t-\\r\\x1c-\\x20\\x85\\xa0\\u1680\\u2000-\\u200a\\u2028\\u2029\\u202f\\u205f\\u3000';
const SPACES = new RegExp(`[${SPACE}]+`, 'g');

// The kinds of a page's parts: a text, a start tag, an end tag, and content that is no markup.
const TEXT_PART = 0, START = 1, FINISH = 2, CONTENT = 3;

// What an expression finds that moves on from a place.
/** @type {(pattern: RegExp, page: string, at: number) => RegExpExecArray|null} */
function matchFrom(pattern, page, at) {
  pattern.lastIndex = at;
  return pattern.exec(page);
}

// Which elements around a place change how it is read: templates, whose content is no part of the page, and SVG and
// MathML, in which no content is raw.
class Nesting {
  constructor() {
    this.templates = 0;
    /** @type {string[]} */
    this.foreign = [];
  }

  get isForeign() {
    return this.foreign.length > 0 && !AGAIN_HTML.has(this.foreign[this.foreign.length - 1]);
  }

  // Takes a start tag.
  /** @type {(name: string, isClosed: boolean) => void} */
  start(name, isClosed) {
    const {isForeign} = this;
    if (name === 'template' && !isForeign)
      this.templates += 1;
    else if (isForeign && OUTSIDE.has(name))
      this.foreign = [];
    else if ((FOREIGN.has(name) || (isForeign && AGAIN_HTML.has(name))) && !isClosed) {
      if (this.foreign.length < MOST_FOREIGN) this.foreign.push(name);
    }
  }

  // Takes an end tag.
  /** @type {(name: string) => void} */
  finish(name) {
    if (name === 'template' && !this.isForeign)
      this.templates = Math.max(this.templates - 1, 0);
    else if (this.foreign.includes(name))
      this.foreign.length = this.foreign.lastIndexOf(name);
  }
}

// The parts of a page that are no comments and in no template. A tag's place is that of its attributes.
/** @type {(page: string) => Generator<PagePart>} */
function* partsOf(page) {
  const nesting = new Nesting();
  for (let at = 0; at < page.length;) {
    const mark = matchFrom(MARKUP, page, at)?.index ?? page.length;
    if (mark > at && !nesting.templates) yield {kind: TEXT_PART, name: '', begin: at, end: mark};
    if (mark === page.length) return;
    const {parts, end} = markupOf(page, mark, nesting);
    if (!nesting.templates) yield* parts;
    at = end;
  }
}

// A tag, with what its element holds where that is raw, or a comment; and where it ends.
/** @type {(page: string, mark: number, nesting: Nesting) => {parts: PagePart[], end: number}} */
function markupOf(page, mark, nesting) {
  const found = matchFrom(TAG, page, mark);
  if (found) {
    const begin = mark + found[0].length, end = endOfTag(page, begin);
    if (end < 0) return {parts: [], end: page.length};  // the page ends in the tag
    return tagOfPage(page, {kind: found[1] ? FINISH : START, name: found[2].toLowerCase(), begin, end}, nesting);
  }
  const end = endOfOther(page, mark, nesting.isForeign);
  if (end === mark) return {parts: [{kind: TEXT_PART, name: '', begin: mark, end: page.length}], end: page.length};
  if (!nesting.isForeign || !page.startsWith('<![CDATA[', mark)) return {parts: [], end};
  return {parts: [{kind: CONTENT, name: '', begin: mark + 9, end: Math.max(end - 3, mark + 9)}], end};
}

// A tag, and the content of the element that it begins, where that is raw; and where they end.
/** @type {(page: string, tag: PagePart, nesting: Nesting) => {parts: PagePart[], end: number}} */
function tagOfPage(page, tag, nesting) {
  const {name, end: begin} = tag, {isForeign} = nesting, isClosed = page[begin - 2] === '/';
  if (tag.kind === FINISH) {
    nesting.finish(name);
    return {parts: [tag], end: begin};
  }
  nesting.start(name, isClosed);
  // Within SVG, styles and scripts may hold markup. It is no text all the same.
  if (!(isForeign ? CLOSED_IN_SVG : CLOSED).has(name) || (isForeign && isClosed)) return {parts: [tag], end: begin};
  const end = name === 'plaintext' ? page.length : endOfRaw(page, name, begin);
  return {parts: [tag, {kind: CONTENT, name, begin, end}], end};
}

// Where a comment or a declaration ends that begins at a place; the place itself if none does, and the page ends there.
/** @type {(page: string, mark: number, isForeign: boolean) => number} */
function endOfOther(page, mark, isForeign) {
  if (page.startsWith('<!--', mark)) {
    for (const empty of ['>', '->'])
      if (page.startsWith(empty, mark + 4)) return mark + 4 + empty.length;
    const found = matchFrom(COMMENT_END, page, mark + 4);
    return found ? found.index + found[0].length : page.length;
  }
  const isRaw = isForeign && page.startsWith('<![CDATA[', mark), last = isRaw ? ']]>' : '>';
  if (page[mark + 1] === '/' && mark + 2 === page.length) return mark;
  const end = page.indexOf(last, isRaw ? mark : mark + 2);
  return end < 0 ? page.length : end + last.length;
}

// Where a tag ends whose attributes begin at a place; -1 if the page ends before.
/** @type {(page: string, at: number) => number} */
function endOfTag(page, at) {
  let last = at;
  for (const {end} of attributesIn(page, at)) last = end;
  return matchFrom(TAG_END, page, last) ? TAG_END.lastIndex : -1;
}

// The attributes of a tag: where each ends, its name, and its value as it is written. A value that the page ends in is
// none.
/** @type {(page: string, at: number) => Generator<{end: number, name: string, value: string}>} */
function* attributesIn(page, at) {
  for (let end = at;;) {
    const found = matchFrom(ATTRIBUTE, page, end);
    if (!found || found[5] !== undefined) return;
    end += found[0].length;
    yield {end, name: found[1], value: found[2] || found[3] || found[4] || ''};
  }
}

// The first attributes of a tag by their names. Of those with one name the first one counts.
/** @type {(page: string, tag: PagePart) => Map<string, string>} */
function attributesOfTag(page, {begin}) {
  /** @type {Map<string, string>} */
  const values = new Map();
  let count = 0;
  for (const {name, value} of attributesIn(page, begin)) {
    if (count === MOST_ATTRIBUTES) break;
    const own = name.toLowerCase();
    if (!values.has(own)) values.set(own, unescaped(value, true));
    count += 1;
  }
  return values;
}

// Where the content of an element ends that holds no markup.
/** @type {(page: string, name: string, at: number) => number} */
function endOfRaw(page, name, at) {
  if (name === 'script') return endOfScript(page, at);
  return matchFrom(RAW_ENDS.get(name), page, at)?.index ?? page.length;
}

// Where a script ends. After `<!--` a script may hold another one.
/** @type {(page: string, at: number) => number} */
function endOfScript(page, at) {
  let isComment = false, isWithin = false;
  for (let from = at;;) {
    const found = matchFrom(IN_SCRIPT, page, from);
    if (!found) return page.length;
    from = found.index + found[0].length;
    if (found[0] === '<!--') {
      isComment = true;
      from -= 2;  // its hyphens may end it, too
    } else if (found[0] === '-->')
      isComment = isWithin = false;
    else if (!found[1])
      isWithin = isComment;
    else if (isWithin)
      isWithin = false;
    else
      return found.index;
  }
}

const NAMED = new Map(Object.entries(ENTITIES));

// A text with its references to characters undone.
/** @type {(text: string, isAttribute?: boolean) => string} */
function unescaped(text, isAttribute = false) {
  if (!text.includes('&')) return text;
  return text.replace(REFERENCE, (whole, decimal, hexadecimal, name, end, at) => {
    if (name === undefined) return characterOf(decimal ?? hexadecimal, decimal === undefined ? 16 : 10);
    const rest = isAttribute ? text[at + whole.length] : undefined;
    return (end && NAMED.get(name + end)) ||
        oldReference(whole, name, isAttribute && !end && rest === '=', isAttribute);
  });
}

// What a reference means whose name isn't known with a semicolon: as it is written, if it means nothing. In an
// attribute, letters, digits or an equals sign after a name without a semicolon make it a part of a query.
/** @type {(whole: string, name: string, isBeforeValue: boolean, isAttribute: boolean) => string} */
function oldReference(whole, name, isBeforeValue, isAttribute) {
  for (let length = Math.min(name.length, LONGEST_OLD); length > 1; length -= 1) {
    const found = NAMED.get(name.slice(0, length));
    if (found === undefined) continue;
    return isAttribute && (length < name.length || isBeforeValue) ? whole : found + whole.slice(length + 1);
  }
  return whole;
}

// The characters that windows-1252 has for the bytes from 0x80 on.
const OF_WINDOWS = '€\x81‚ƒ„…†‡ˆ‰Š‹Œ\x8dŽ\x8f\x90‘’“”•–—˜™š›œ\x9džŸ';

// The character of a number. Some numbers mean what windows-1252 has there, and some mean nothing.
/** @type {(digits: string, base: number) => string} */
function characterOf(digits, base) {
  const code = parseInt(digits, base);
  if (code >= 0x80 && code < 0xa0) return OF_WINDOWS[code - 0x80];
  if (code === 0 || (code >= 0xd800 && code < 0xe000) || code > 0x10ffff) return NO_CHARACTER;
  return String.fromCodePoint(code);
}

// The beginning of a text that has a number of characters at most.
/** @type {(text: string, most: number) => string} */
function beginningOf(text, most) {
  if (text.length <= most) return text;
  let at = 0;
  for (let count = 0; count < most && at < text.length; count += 1) at += text.codePointAt(at) > 0xffff ? 2 : 1;
  return text.slice(0, at);
}

// A text on one line, without what vanishes, in composed form (NFC), and no longer than a number of characters.
/** @type {(text: string, most: number) => string} */
const tidied = (text, most) =>
    beginningOf(text.replace(VANISHING, '').replace(SPACES, ' ').replace(/^ | $/g, '').normalize('NFC'), most);

// A text that is no markup.
/** @type {(text: string) => PageText} */
const plainText = (text) => ({title: '', text: tidied(beginningOf(text, 2 * MOST_CHARACTERS), MOST_CHARACTERS)});

// The text of a page, while it is read.
class Gathered {
  constructor() {
    /** @type {string[]} */
    this.parts = [];
    this.length = 0;
    /** @type {string|null} */
    this.title = null;
  }

  /** @type {(text: string) => void} */
  add(text) {
    this.parts.push(text);
    this.length += text.length;
  }

  // Takes content that is no markup. The first title of the page is its title, and no part of its text.
  /** @type {(name: string, text: string) => void} */
  takeContent(name, text) {
    if (name === 'title')
      this.title ??= unescaped(text);
    else if (!NOT_SEEN.has(name))
      this.add(name === 'textarea' ? unescaped(text) : text);
  }
}

// The title and the text of a page.
/** @type {(page: string) => PageText} */
function scanned(page) {
  const it = new Gathered();
  for (const part of partsOf(page)) {
    const {kind, name, begin, end} = part;
    if (kind === TEXT_PART)
      it.add(unescaped(page.slice(begin, end)));
    else if (kind === CONTENT)
      it.takeContent(name, page.slice(begin, end));
    else if (APART.has(name)) {
      it.parts.push(' ');
      if (kind === START && WITH_ALT.has(name)) it.add(`${attributesOfTag(page, part).get('alt') ?? ''} `);
    }
    if (it.length > 2 * MOST_CHARACTERS) break;
  }
  return {title: tidied(it.title ?? '', MOST_OF_TITLE), text: tidied(it.parts.join(''), MOST_CHARACTERS)};
}

// The elements `meta` of a page: what gives the values of their attributes.
/** @type {(page: string) => Generator<(name: string) => string|undefined>} */
function* metasIn(page) {
  for (const part of partsOf(page)) {
    if (part.kind !== START || part.name !== 'meta') continue;
    const values = attributesOfTag(page, part);
    yield(name) => values.get(name);
  }
}
