// Styles, read token by token by css-tree, which the build puts before the scripts, and written anew. What names a
// resource is replaced, and nothing is copied that wasn't read: comments are left out, and brackets are closed. In a
// name each letter outside of ASCII is written as an escape, since versions of CSS differ on which of them a name has.
'use strict';

/** @typedef {{kind: number, text: string}} Token a kind of css-tree, and the text as it was read */

/**
 * What a style names is given to a host, which says what to write in its place, and hears where a style is cut.
 * @typedef {{
 *   url: (reference: string) => string,
 *   sheet: (reference: string, media: string) => string,
 *   cut: () => void
 * }} StyleHost
 */

const {tokenize, tokenTypes: KIND} = cssTree;

// What means nothing but itself, if it is of ASCII and has no escape.
const PLAIN = new Set([
  ...[KIND.Ident, KIND.Hash, KIND.Number, KIND.Percentage, KIND.Dimension, KIND.WhiteSpace, KIND.Delim],
  ...[KIND.Colon, KIND.Semicolon, KIND.Comma, KIND.CDO, KIND.CDC],
]);
const NOT_PLAIN = /[\\\x80-\uffff]/g;
const BLANK = /[ \t\n]/;
const BLANKS = /^[ \t\n]*$/;
const ESCAPED = /\\(?:([0-9a-fA-F]{1,6})[ \t\n]?|\n|([^])|$)/gu;
const ESCAPED_OR_FOREIGN = /\\(?:[0-9a-fA-F]{1,6}[ \t\n]?|[^])|[^\x00-\x7f]/gu;
const ADDRESS_NAME = ['u', 'r', 'l'].map(spellings).join('');
const NAMES_ADDRESS = new RegExp(String.raw`${ADDRESS_NAME}\(|\\[^]`, 'g');

// Functions whose texts name resources, and what may be called within those that take more than a text: what gives no
// text that names one.
const ADDRESSES = new Set(['url', 'src']);
const CHOICES = new Set(['image-set', '-webkit-image-set', 'image', 'cross-fade', '-webkit-cross-fade']);
const KNOWN_IN_CHOICES = new RegExp(
    '^(?:type|calc|min|max|clamp|rgba?|hsla?|hwb|(?:ok)?(?:lab|lch)|color(?:-mix)?|' +
    '(?:-webkit-)?(?:repeating-)?(?:linear|radial|conic)-gradient)$');
const NOT_OF_MEDIA = new Set([...ADDRESSES, 'layer', 'supports']);
const MOST_NESTED = 100;   // brackets in brackets: far deeper ones end the browser
const NOTHING = 'data:,';  // an address of no bytes
const BAD_TEXT = '"\n';
const BAD_ADDRESS = 'url(()';
const NOWHERE = '`';  // a sign that has no place in any style
const CLOSERS = new Map([['(', ')'], ['[', ']'], ['{', '}']]);
const NO_RULE = {
  reference: /** @type {string|null} */ (null),
  words: ''
};

/**
 * The spellings of a letter in a name, as a pattern: itself, after a backslash, or by its number.
 * @param {string} letter
 */
function spellings(letter) {
  const [small, large] = [letter, letter.toUpperCase()].map((it) => it.charCodeAt(0).toString(16));
  const digits = [small, small.toUpperCase(), large, large.toUpperCase()].join('|');
  return String.raw`(?:\\?[${letter}${letter.toUpperCase()}]|\\0{0,4}(?:${digits})[ \t\n]?)`;
}

/**
 * A style as CSS Syntax has it before it is read: with one kind of line end, and without what is no letter. css-tree
 * looks for the name of an address before escapes are undone, and leaves out a mark at the beginning.
 * @param {string} css
 */
function prepared(css) {
  const lines = css.replace(/\r\n?|\f/g, '\n').replace(/[\0\p{Surrogate}]/gu, '\ufffd');
  const text = lines.replace(/^[\ufeff\ufffe]/, escaped);
  return text.includes('\\') ? text.replace(NAMES_ADDRESS, (it) => (it.length > 2 ? unescaped(it) : it)) : text;
}

/** @param {string} text A name, a text or an address, with escapes. */
const unescaped = (text) => text.replace(ESCAPED, (_, digits, letter) => (digits ? letterOf(digits) : letter ?? ''));

/**
 * The letter that has a number, in hexadecimal digits.
 * @param {string} digits
 */
function letterOf(digits) {
  const code = parseInt(digits, 16);
  return code === 0 || code > 0x10ffff || (code >= 0xd800 && code < 0xe000) ? '\ufffd' : String.fromCodePoint(code);
}

/** @param {string} letter */
const escaped = (letter) => `\\${letter.codePointAt(0).toString(16)} `;

/**
 * A token that has no text: a name with its signs, or a number with its unit.
 * @param {string} text
 */
const writtenName = (text) =>
    text.replace(ESCAPED_OR_FOREIGN, (it) => escaped(it.startsWith('\\') ? unescaped(it) : it));

/** @param {string} text */
const writtenText = (text) => `"${text.replace(/["\\\x00-\x1f\x7f]/g, escaped)}"`;

/**
 * Whether a backslash makes a letter mean itself.
 * @param {string} text
 * @param {number} at
 */
function isEscaped(text, at) {
  let from = at;
  while (text[from - 1] === '\\') from -= 1;
  return (at - from) % 2 === 1;
}

/**
 * What is before a closing sign; everything where a style ends before it.
 * @param {string} text
 * @param {string} closer
 */
function before(text, closer) {
  const last = text.length - 1;
  return text[last] === closer && !isEscaped(text, last) ? text.slice(0, last) : text;
}

/**
 * What a text between quotes says.
 * @param {string} text
 */
const saidBy = (text) => unescaped(before(text.slice(1), text[0]));

/**
 * What an address without quotes says.
 * @param {string} text
 */
function addressBy(text) {
  const inner = before(text.slice('url('.length), ')').replace(/^[ \t\n]+/, '');
  let end = inner.length;
  while (end && BLANK.test(inner[end - 1]) && !isEscaped(inner, end - 1)) end -= 1;
  return unescaped(inner.slice(0, end));
}

/**
 * The name of a function, in small letters.
 * @param {string} text
 */
const calledBy = (text) => unescaped(text.slice(0, -1)).toLowerCase();

/**
 * A token of an import as it counts in its media: without comments, and without its layer.
 * @type {(token: Token, isOuter: boolean) => Token}
 */
function plainer({kind, text}, isOuter) {
  const isLayer = isOuter && kind === KIND.Ident && unescaped(text).toLowerCase() === 'layer';
  return isLayer || kind === KIND.Comment ? {kind: KIND.WhiteSpace, text: ' '} : {kind, text};
}

// The tokens of a style, one after another.
class StyleReader {
  /** @param {string} css */
  constructor(css) {
    this.css = prepared(css);
    this.kinds = new Uint8Array(this.css.length);
    this.ends = new Uint32Array(this.css.length);  // where each token ends
    this.count = 0;
    this.at = 0;        // tokens that were taken
    this.notPlain = 0;  // where the next letter is that isn't plain
    tokenize(this.css, (kind, _, end) => {
      this.kinds[this.count] = kind;
      this.ends[this.count] = end;
      this.count += 1;
    });
  }

  /** Where the next token begins. */
  get place() {
    return this.at ? this.ends[this.at - 1] : 0;
  }

  // The next tokens that are plain, as one text.
  run() {
    const {css, kinds, ends, count, place} = this;
    if (this.notPlain < place) this.notPlain = this.placeAfter(place);
    while (this.at < count && PLAIN.has(kinds[this.at]) && ends[this.at] <= this.notPlain) this.at += 1;
    return css.slice(place, this.place);
  }

  /** @param {number} place */
  placeAfter(place) {
    NOT_PLAIN.lastIndex = place;
    return NOT_PLAIN.exec(this.css)?.index ?? this.css.length;
  }

  /** @returns {Token|null} */
  next() {
    if (this.at === this.count) return null;
    const {place} = this, kind = this.kinds[this.at];
    this.at += 1;
    return {kind, text: this.css.slice(place, this.place)};
  }

  // Gives the last token once more.
  back() {
    this.at -= 1;
  }
}

// Writes a style anew.
class StyleWriter {
  /**
   * @param {string} css
   * @param {StyleHost} host
   */
  constructor(css, host) {
    this.reader = new StyleReader(css);
    this.host = host;
    /** @type {string[]} */
    this.out = [];
    /** @type {{closer: string, name: string}[]} */
    this.open = [];         // what is open, the innermost last
    this.hasRules = false;  // an import counts before the first rule alone
  }

  // The whole style, or what comes before brackets that nest too deep.
  whole() {
    for (;;) {
      this.out.push(this.reader.run());
      const token = this.reader.next();
      if (!token || !this.add(token)) return this.text();
    }
  }

  /**
   * Adds a token. Returns whether more may follow.
   * @param {Token} token
   */
  add(token) {
    this.out.push(this.written(token));
    const isShallow = this.open.length <= MOST_NESTED;
    if (!isShallow) this.host.cut();
    return isShallow;
  }

  // What was added, with all brackets closed.
  text() {
    return this.out.join('') + this.open.map((it) => it.closer).reverse().join('');
  }

  /** @param {Token} token */
  written({kind, text}) {
    switch (kind) {
      case KIND.Comment: return '/**/';
      case KIND.String: return this.quoted(saidBy(text));
      case KIND.BadString: return BAD_TEXT;
      case KIND.Url: return `url(${writtenText(this.host.url(addressBy(text)))})`;
      case KIND.BadUrl: return BAD_ADDRESS;
      case KIND.AtKeyword: return this.ruled(text);
      case KIND.Function: return this.called(text);
      case KIND.LeftParenthesis:
      case KIND.LeftSquareBracket:
      case KIND.LeftCurlyBracket: return this.opened(text);
      case KIND.RightParenthesis:
      case KIND.RightSquareBracket:
      case KIND.RightCurlyBracket: return this.closed(text);
      default: return text === '\\' ? NOWHERE : writtenName(text);
    }
  }

  /** The innermost function that is open. */
  within() {
    return this.open.length ? this.open[this.open.length - 1].name : '';
  }

  /** @param {string} value */
  quoted(value) {
    const isAddress = ADDRESSES.has(this.within()) || CHOICES.has(this.within());
    return writtenText(isAddress ? this.host.url(value) : value);
  }

  /** @param {string} text */
  called(text) {
    const name = calledBy(text), outer = this.within(), isInner = CHOICES.has(outer) || outer === 'src';
    const isKnown = ADDRESSES.has(name) || CHOICES.has(name) || KNOWN_IN_CHOICES.test(name);
    this.open.push({closer: ')', name});
    return isInner && !isKnown ? 'none(' : writtenName(text);  // it may give an address
  }

  /** @param {string} bracket */
  opened(bracket) {
    this.open.push({closer: CLOSERS.get(bracket), name: bracket === '(' ? this.within() : ''});
    if (bracket === '{') this.hasRules = true;
    return bracket;
  }

  // A bracket that closes nothing makes what is around it invalid, and must close nothing where the style is put.
  /** @param {string} bracket */
  closed(bracket) {
    if (this.open[this.open.length - 1]?.closer !== bracket) return BAD_TEXT;
    this.open.pop();
    return bracket;
  }

  // What is before a rule that is left out, and what follows it, must not become one token.
  /** @param {string} text */
  ruled(text) {
    const name = unescaped(text).toLowerCase();
    return name === '@import' || name === '@namespace' ? ` ${this.imported(name)} ` : writtenName(text);
  }

  /** @param {string} name */
  imported(name) {
    const {reference, words} = this.prelude();
    if (reference === null || this.hasRules || this.open.length) return '';
    if (name === '@namespace') return `@namespace ${words} ${writtenText(reference)};`;  // a name, which isn't loaded
    return this.host.sheet(reference, words);
  }

  // What a rule says up to its end: a reference, and other words. Its layer and what it supports are left out. There is
  // no reference where it has a block, or nests too deep.
  prelude() {
    const rest = new StyleWriter('', {url: () => NOTHING, sheet: () => '', cut: this.host.cut});
    let reference = null;
    for (let token = this.reader.next(); token; token = this.reader.next()) {
      const {kind, text} = token, isOuter = !rest.open.length, name = kind === KIND.Function ? calledBy(text) : '';
      if (isOuter && (text === ';' || this.ends(text))) break;
      if (isOuter && text === '{') this.skip('}');
      if (isOuter && text === '{') return NO_RULE;
      if (isOuter && reference === null && kind === KIND.String)
        reference = saidBy(text);
      else if (isOuter && reference === null && kind === KIND.Url)
        reference = addressBy(text);
      else if (isOuter && NOT_OF_MEDIA.has(name)) {
        const first = this.skip(')');
        if (ADDRESSES.has(name)) reference ??= first;
      } else if (!rest.add(plainer(token, isOuter)))
        return NO_RULE;
      else
        continue;
      rest.out.push(' ');  // what is before it, and what follows it, must not become one token
    }
    const words = rest.text();
    return {reference, words: BLANKS.test(words) ? '' : words};
  }

  // Whether a bracket ends what the rule is in. It is read again.
  /** @param {string} bracket */
  ends(bracket) {
    const isEnd = bracket === '}' && this.open.length > 0;
    if (isEnd) this.reader.back();
    return isEnd;
  }

  /**
   * Reads up to a bracket that closes one. Returns the first text before it.
   * @param {string} closer
   */
  skip(closer) {
    const open = [closer];
    let first = null;
    for (let token = null; open.length && (token = this.reader.next());) {
      const {kind, text} = token, opens = kind === KIND.Function ? ')' : CLOSERS.get(text);
      if (kind === KIND.String) first ??= saidBy(text);
      if (opens)
        open.push(opens);
      else if (text === open[open.length - 1])
        open.pop();
    }
    return first;
  }
}

/**
 * A style in which each reference is what its host gives for it.
 * @param {string} css
 * @param {StyleHost} host
 */
const rewritten = (css, host) => new StyleWriter(css, host).whole();

/**
 * Whether brackets nest too deep in a text that a browser may read as a style.
 * @param {string} text
 */
function nestsDeep(text) {
  if ((text.match(/[([{]/g)?.length ?? 0) <= MOST_NESTED) return false;
  let isDeep = false;
  const cut = () => {
    isDeep = true;
  };
  rewritten(text, {url: (it) => it, sheet: () => '', cut});
  return isDeep;
}
