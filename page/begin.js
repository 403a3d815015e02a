// Begins: the module, the worker, and what a reader does.
'use strict';

const SEARCH_AFTER = 120;  // milliseconds without a key

/** @param {string} text */
function refuse(text) {
  const title = make('p', {className: 'lead'}, 'This browser can’t run the library.');
  byId('start').replaceChildren(make('div', {className: 'drop', role: 'alert'}, title, make('p', {}, text)));
}

/** @param {FileList} files */
function take(files) {
  if (files.length) openFiles([...files]);
}

/**
 * Files are dropped. What is dragged out of a page comes with HTML, a picture as a file too, and is no file.
 * @param {Node|Window} place
 */
function hearDrops(place) {
  const isOver = (/** @type {boolean} */ it) => byId('drop').classList.toggle('over', it);
  hearOf(place, 'dragover', (event) => {
    event.preventDefault();
    isOver(true);
  });
  hearOf(place, 'dragleave', () => isOver(false));
  hearOf(place, 'drop', (event) => {
    event.preventDefault();
    isOver(false);
    if (!event.dataTransfer.types.includes('text/html')) take(event.dataTransfer.files);
  });
}

// Files are chosen, or dropped anywhere.
function hearFiles() {
  for (const input of [byId('file'), byId('file-again')]) {
    input.addEventListener('change', () => {
      take(input.files);
      input.value = '';
    });
  }
  hearDrops(window);
}

// The search, and the question for a URI as of a date.
function hearForms() {
  let waits = 0;
  byId('words').addEventListener('input', () => {
    clearTimeout(waits);
    waits = setTimeout(() => {
      room.words = byId('words').value;
      body().scrollTop = 0;
      findTexts();
    }, SEARCH_AFTER);
  });
  byId('search').addEventListener('submit', (/** @type {Event} */ event) => {
    event.preventDefault();
    byId('list').focus();
  });
  byId('as-of').addEventListener('submit', (/** @type {Event} */ event) => {
    event.preventDefault();
    openAsOf(typed(byId('uri').value.trim()), byId('moment').value.trim(), true);
  });
  byId('uri').addEventListener('input', () => {
    byId('uri').dataset.typed = byId('uri').value;
  });
}

// The position of the last record that begins at an offset or before it.
const positionAt = (/** @type {number} */ offset) =>
    lastOf(room.rows.count, (position) => room.rows.offset(position) <= offset);

// A click on the strip opens the record there, or says which damage is there.
function clickStrip(/** @type {MouseEvent} */ event) {
  const {size: length} = room.file, pixel = length / byId('strip').clientWidth, mark = LEAST_MARK * pixel;
  const at = event.offsetX * pixel, number = room.damages.between(at - mark, at > length - mark ? length : at);
  if (number === null) {
    if (room.rows.count) openRecord(positionAt(at));
    return;
  }
  const damage = room.damages.at(number), line = make('p', {}, ...damageLine(damage)).textContent;
  const which = `${(number + 1).toLocaleString('en')} of ${room.damages.count.toLocaleString('en')}`;
  say(`Damage ${which}: ${line}. ${plain(inWords(damage.fault)[1])}`);
}

// The list and the plots.
function hearList() {
  byId('only').addEventListener('click', () => toggle('only', 'captures', 'captures'));
  byId('save-shown').addEventListener('click', saveShown);
  byId('list').addEventListener('keydown', listKey);
  body().addEventListener('scroll', () => requestAnimationFrame(drawRows), {passive: true});
  body().addEventListener('click', () => byId('list').focus({preventScroll: true}));
  byId('fold').addEventListener('click', () => foldPlots(!byId('plots').hidden));
  byId('strip').addEventListener('click', clickStrip);
}

/**
 * Keys that count anywhere.
 * @param {KeyboardEvent} event
 */
function anyKey(event) {
  const {activeElement} = document, isTyping = /^(input|select|textarea)$/i.test(activeElement.tagName);
  if (event.key === '/' && !isTyping && !byId('room').hidden) {
    event.preventDefault();
    byId('words').focus();
  }
  if (event.key !== 'Escape') return;
  if (byId('record').contains(activeElement)) leaveRecord();
  if (activeElement !== byId('words')) return;
  byId('words').value = '';
  room.words = '';
  findTexts();
  byId('list').focus();
}

// Keys, Back, and another size or other colours of the window.
function hearWindow() {
  const drawAgain = () => {
    if (!room.file) return;
    drawStrip();
    drawRows();
  };
  addEventListener('keydown', anyKey);
  addEventListener('popstate', goBack);
  addEventListener('resize', drawAgain);
  matchMedia('(prefers-color-scheme: dark)').addEventListener('change', drawAgain);
}

function begin() {
  byId('limit').textContent = size(LIMIT);
  if (!hasWideMemory()) {
    refuse(byId('needs').textContent);
    return;
  }
  try {
    const module = Uint8Array.from(atob(MODULE), (letter) => letter.charCodeAt(0));
    room.library = new Library(module, LIMIT, WORKER, hear);
  } catch (error) {
    refuse(whyOf(error));
    return;
  }
  [hearFiles, hearForms, hearList, hearTexts, hearWindow].forEach((listen) => listen());
}

begin();
