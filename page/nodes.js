// Calls on the nodes of a captured page. A form, and a document, answer with an element of the page where one has the
// name of a property (`<input name=attributes>`), so each call goes through the prototype that has it.
'use strict';

/**
 * A property of a node, read through its prototype.
 * @param {object} prototype
 * @param {string} name
 * @returns {(node: Node) => any}
 */
function reader(prototype, name) {
  const {get} = Object.getOwnPropertyDescriptor(prototype, name);
  return (node) => get.call(node);
}

const rootOf = reader(Document.prototype, 'documentElement');
const parentOf = reader(Node.prototype, 'parentNode');
const ownerOf = reader(Node.prototype, 'ownerDocument');
const firstOf = reader(Node.prototype, 'firstChild');
const textIn = reader(Node.prototype, 'textContent');
const spaceOf = reader(Element.prototype, 'namespaceURI');
const tagOf = reader(Element.prototype, 'localName');

/** @type {(node: Document|Element, selector: string) => Element[]} */
const every =
    (node,
     selector) => [...(node instanceof Document ? Document : Element).prototype.querySelectorAll.call(node, selector)];

/** @type {(node: Element, name: string) => string|null} */
const attributeOf = (node, name) => Element.prototype.getAttribute.call(node, name);

/** @type {(node: Element) => string[]} */
const attributesOf = (node) => Element.prototype.getAttributeNames.call(node);

/** @type {(node: Element, name: string, value: string) => void} */
const setAttribute = (node, name, value) => Element.prototype.setAttribute.call(node, name, value);

/** @type {(node: Element, name: string) => void} */
const dropAttribute = (node, name) => Element.prototype.removeAttribute.call(node, name);

/** @type {(node: Element, ...others: Node[]) => void} */
const replaceBy = (node, ...others) => Element.prototype.replaceWith.call(node, ...others);

/** @type {(node: Element) => void} */
const drop = (node) => Element.prototype.remove.call(node);

/** @type {(node: Node, other: Node) => boolean} */
const holds = (node, other) => Node.prototype.contains.call(node, other);

/** @type {(document: Document, name: string) => HTMLElement} */
const newElement = (document, name) => Document.prototype.createElement.call(document, name);

/** @type {(node: Node|Window, event: string, act: (event: any) => void) => void} */
const hearOf = (node, event, act) => EventTarget.prototype.addEventListener.call(node, event, act);

/**
 * Puts what an element holds in its place.
 * @param {Element} node
 */
function unwrap(node) {
  const parent = parentOf(node);
  if (!parent) return;
  for (let child = firstOf(node); child; child = firstOf(node)) Node.prototype.insertBefore.call(parent, child, node);
  drop(node);
}
