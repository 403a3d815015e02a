// Texts of an archive for readers, and the elements that show them.
'use strict';

const MOST_TEXT = 2 * MEGABYTE;  // characters of a text that are shown
const MOST_BYTES = 4096;         // of a view of bytes
const MOST_LISTED = 2000;        // lines of a list
const HOUR = 3600e3;
const DAY = 24 * HOUR;
const BINARY = /[\x00-\x08]/;

const utf8 = new TextDecoder('utf-8', {fatal: true});

/**
 * Bytes as text for people: UTF-8 if they are, else byte by byte.
 * @param {Uint8Array} bytes
 */
function shown(bytes) {
  try {
    return utf8.decode(bytes);
  } catch {
    return latin.decode(bytes);
  }
}

/**
 * A text for people that a reader typed, as the bytes of an archive.
 * @param {string} text
 */
const typed = (text) => new TextEncoder().encode(text);

/** @type {(id: string) => any} */
const byId = (id) => document.getElementById(id);

/**
 * An element with properties, attributes and children. Texts are never read as HTML.
 * @param {string} name
 * @param {Record<string, any>} properties
 * @param {...(Node|string|null|undefined)} children
 * @returns {any}
 */
function make(name, properties = {}, ...children) {
  const node = document.createElement(name);
  for (const [key, value] of Object.entries(properties)) {
    if (key === 'on')
      Object.entries(value).forEach(([event, act]) => node.addEventListener(event, act));
    else if (key === 'style')
      Object.entries(value).forEach(([rule, it]) => node.style.setProperty(rule, it));
    else if (key.includes('-') || key === 'role')
      node.setAttribute(key, value);
    else /** @type {any} */
      (node)[key] = value;
  }
  node.append(...children.filter((child) => child !== null && child !== undefined));
  return node;
}

/**
 * A button that does something.
 * @param {string} className
 * @param {() => void} click
 * @param {Record<string, any>} properties
 * @param {...(Node|string)} children
 */
function button(className, click, properties, ...children) {
  return make('button', {className, type: 'button', on: {click}, ...properties}, ...children);
}

/** @param {string} text */
const none = (text) => make('p', {className: 'none'}, text);

// Signs that turn the direction of the text around them, or that aren't seen.
const UNSEEN =
    /[\u0000-\u0008\u000b\u000c\u000e-\u001f\u007f-\u009f\u061c\u200b-\u200f\u202a-\u202e\u2060-\u2069\ufeff]/g;

/**
 * A text from an archive or a disk as a reader sees it: signs that turn it, or hide in it, are written by their
 * numbers.
 * @param {string} text
 */
function plainly(text) {
  return text.replace(UNSEEN, (sign) => `⟨U+${sign.charCodeAt(0).toString(16).toUpperCase().padStart(4, '0')}⟩`);
}

/**
 * Bytes of an archive for readers.
 * @param {Uint8Array} bytes
 */
const seen = (bytes) => plainly(shown(bytes));

/**
 * A text with the words in it marked.
 * @param {string} text
 * @param {[number, number][]} marks by its characters
 */
function markedText(text, marks) {
  const letters = [...text], part = (/** @type {number[]} */...ends) => plainly(letters.slice(...ends).join(''));
  const nodes = [];
  let at = 0;
  for (const [begin, end] of marks) {
    nodes.push(part(at, begin), make('mark', {}, part(begin, end)));
    at = end;
  }
  return [...nodes, part(at, letters.length)];
}

/** @param {string} date */
function captureTime(date) {
  const time = Date.parse(date);
  return Number.isNaN(time) ? null : time;
}

/** @param {number} time */
const dateText = (time) => new Date(time).toISOString().replace(/\.000Z$/, 'Z');

/** @type {(...children: (Node|string)[]) => HTMLElement} */
const note = (...children) => make('p', {className: 'note plainly'}, ...children);

/** @param {string} text */
function textView(text) {
  const rest = text.length > MOST_TEXT ? `\n… (the first ${size(MOST_TEXT)} are shown)` : '';
  return make('pre', {className: 'text', tabIndex: 0, dir: 'auto'}, text.slice(0, MOST_TEXT), rest);
}

/** @param {string} text */
const headView = (text) => textView(plainly(text.replace(/\r\n/g, '\n').trimEnd()));

/** @param {Uint8Array} bytes */
function hexView(bytes) {
  const lines = [];
  for (let at = 0; at < Math.min(bytes.length, MOST_BYTES); at += 16) {
    const part = [...bytes.subarray(at, at + 16)],
          digits = part.map((it) => it.toString(16).padStart(2, '0')).join(' ');
    const letters = part.map((it) => (it > 31 && it < 127 ? String.fromCharCode(it) : '·')).join('');
    lines.push(`${at.toString(16).padStart(6, '0')}  ${digits.padEnd(48)} ${letters}`);
  }
  return make('pre', {className: 'text', tabIndex: 0}, lines.join('\n'), bytes.length > MOST_BYTES ? '\n…' : '');
}

/**
 * Stored bytes as text, if they look like text.
 * @param {Uint8Array} bytes
 */
function storedView(bytes) {
  return BINARY.test(latin.decode(bytes.subarray(0, MOST_BYTES))) ? hexView(bytes) : textView(shown(bytes));
}

/**
 * A list that is folded.
 * @param {string} title
 * @param {Node[]} lines
 */
function folded(title, lines) {
  if (!lines.length) return '';
  const list = make('ul', {className: 'plain-list'}, ...lines.slice(0, MOST_LISTED));
  return make('details', {}, make('summary', {}, title), list);
}

/**
 * The name of a place, as it is in the page.
 * @param {string} place
 */
function nameOf(place) {
  try {
    return decodeURIComponent(place);
  } catch {
    return place;
  }
}

/**
 * @param {Blob} blob
 * @param {string} name
 */
function download(blob, name) {
  const url = URL.createObjectURL(blob);
  make('a', {href: url, download: name.replace(/[^\w.-]+/g, '_').slice(-100) || 'bytes'}).click();
  setTimeout(() => URL.revokeObjectURL(url), 60e3);
}

/** @type {(name: string, bytes: Uint8Array, text: string) => HTMLButtonElement} */
const saving = (name, bytes, text) => button('button', () => download(new Blob([bytes]), name), {}, text);
