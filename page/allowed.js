// What a view may hold: elements, attributes, and what an attribute may lead to. All else is left out of it.
'use strict';

/** @param {string} names */
const words = (names) => names.trim().split(/\s+/);

const ELEMENTS = new Set(words(`
  html head body a abbr acronym address area article aside audio b bdi bdo big blockquote br button canvas caption
  center cite code col colgroup data datalist dd del details dfn dialog dir div dl dt em fieldset figcaption figure
  font footer form h1 h2 h3 h4 h5 h6 header hgroup hr i img input ins kbd label legend li main map mark marquee menu
  meter nav nobr noscript ol optgroup option output p picture pre progress q rp rt ruby s samp search section select
  slot small span strike strong style sub summary sup table tbody td textarea tfoot th thead time tr tt u ul var
  video wbr svg circle clippath defs desc ellipse filter g image line lineargradient marker mask path pattern
  polygon polyline radialgradient rect stop switch symbol text textpath title tspan view feblend fecolormatrix
  fecomponenttransfer fecomposite feconvolvematrix fediffuselighting fedisplacementmap fedistantlight feflood
  fefunca fefuncb fefuncg fefuncr fegaussianblur femerge femergenode femorphology feoffset fepointlight
  fespecularlighting fespotlight fetile feturbulence math menclose merror mfenced mfrac mi mmultiscripts mn mo mover
  mpadded mphantom mroot mrow ms mspace msqrt mstyle msub msubsup msup mtable mtd mtext mtr munder munderover`));

// What is left out with all that it holds. The children of any other element that isn't allowed are kept.
const WITH_CONTENT = new Set(words(`
  annotation-xml applet base bgsound embed fencedframe foreignobject frame frameset iframe link meta noembed
  noframes object param plaintext portal script source template track xmp`));

const ATTRIBUTES = new Set(words(`
  abbr align alt axis bgcolor border cellpadding cellspacing char charoff checked class clear color cols colspan
  compact coords datetime dir disabled face for frame headers height hidden high hspace id label lang low max
  maxlength media min minlength multiple noshade nowrap open optimum pattern placeholder readonly required reversed
  role rows rowspan rules scope selected shape size span start step style summary tabindex title translate type
  valign value vspace width wrap alignment-baseline amplitude azimuth basefrequency baseline-shift bias clip-rule
  clippathunits color-interpolation color-interpolation-filters cx cy d diffuseconstant direction display divisor
  dominant-baseline dx dy edgemode elevation exponent fill-opacity fill-rule filterunits flood-color flood-opacity
  font-family font-size font-size-adjust font-stretch font-style font-variant font-weight fx fy gradienttransform
  gradientunits image-rendering in in2 intercept k1 k2 k3 k4 kernelmatrix kernelunitlength lengthadjust
  letter-spacing lighting-color markerheight markerunits markerwidth maskcontentunits maskunits mode numoctaves
  offset opacity operator order orient overflow paint-order pathlength patterncontentunits patterntransform
  patternunits points preservealpha preserveaspectratio primitiveunits r radius refx refy result rotate rx ry scale
  seed shape-rendering slope specularconstant specularexponent spreadmethod startoffset stddeviation stitchtiles
  stop-color stop-opacity stroke-dasharray stroke-dashoffset stroke-linecap stroke-linejoin stroke-miterlimit
  stroke-opacity stroke-width surfacescale tablevalues targetx targety text-anchor text-decoration text-rendering
  textlength transform transform-origin values vector-effect version viewbox visibility word-spacing writing-mode x
  x1 x2 xchannelselector xml:space y y1 y2 ychannelselector z accent accentunder columnalign columnlines
  columnspacing columnspan depth displaystyle fence linethickness lspace mathbackground mathcolor mathsize
  mathvariant maxsize minsize movablelimits notation rowalign rowlines rowspacing rspace scriptlevel separator
  stretchy symmetric voffset`));

// Attributes that are styles, and may name resources as styles do.
const STYLES = new Set(words('style clip-path cursor fill filter marker-end marker-mid marker-start mask stroke'));

// Attributes that name a resource or a place, and what they may name: bytes that are in the page, or one of its links.
const NAMING = new Set(['href', 'src', 'xlink:href']);
const PICTURES = new Set(['image', 'img', 'input']);
const LINKS = new Set(['a', 'area']);
const OWN_BYTES = /^(?:blob:|data:image\/[a-z0-9.+-]+[;,])/i;
const OWN_LINK = /^about:srcdoc#\d+$/;

/**
 * Whether an attribute may be in a view.
 * @param {Element} node
 * @param {string} name
 */
function mayHave(node, name) {
  const small = name.toLowerCase(), tag = tagOf(node).toLowerCase();
  if (NAMING.has(small)) return (PICTURES.has(tag) ? OWN_BYTES : OWN_LINK).test(attributeOf(node, name));
  if (small === 'name') return LINKS.has(tag);  // no document and no form answers with a link
  return ATTRIBUTES.has(small) || STYLES.has(small) || /^(?:aria|data)-[\w.-]+$/.test(small);
}

/**
 * Whether an element may be in a view. A custom element is one without behaviour.
 * @param {string} tag
 */
const mayBe = (tag) => ELEMENTS.has(tag) || (/^[a-z][a-z0-9]*(?:-[a-z0-9]+)+$/.test(tag) && !WITH_CONTENT.has(tag));

/**
 * Takes out of a tree what a view may not hold.
 * @param {Element} root
 */
function narrow(root) {
  for (const node of every(root, '*')) {
    const tag = tagOf(node).toLowerCase();
    if (WITH_CONTENT.has(tag))
      drop(node);
    else if (!mayBe(tag))
      unwrap(node);
    else
      attributesOf(node).filter((name) => !mayHave(node, name)).forEach((name) => dropAttribute(node, name));
  }
  attributesOf(root).filter((name) => !mayHave(root, name)).forEach((name) => dropAttribute(root, name));
}

// DOMPurify, with a window of its own, so that it makes no policy: it gets a tree, and never a text.
const purifier = createPurifier({
  document,
  DocumentFragment,
  DOMParser,
  Element,
  HTMLFormElement,
  HTMLTemplateElement,
  NamedNodeMap,
  Node,
  NodeFilter,
});

const OWN_LISTS = {
  ADD_URI_SAFE_ATTR: [...ATTRIBUTES, ...STYLES, ...NAMING],  // texts, or what `mayHave` judges
  ALLOWED_ATTR: [...ATTRIBUTES, ...STYLES, ...NAMING, 'name'],
  ALLOWED_TAGS: [...ELEMENTS],
  CUSTOM_ELEMENT_HANDLING: {tagNameCheck: mayBe, attributeNameCheck: () => false},
  IN_PLACE: true,
  SANITIZE_DOM: false,  // names and ids that styles select by; each call here goes through a prototype
};

/**
 * Cleans the tree of a page.
 * @param {Element} root
 */
function clean(root) {
  narrow(root);
  purifier.sanitize(root, OWN_LISTS);
  purifier.removed = [];
}
