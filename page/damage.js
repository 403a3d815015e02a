// What is said of an archive that is damaged, or that can't be read or decompressed.
'use strict';

const DAMAGES_AT_ONCE = 100;  // lines
const MOST_OPEN = 10;         // damages whose lines aren't folded
const MOST_MEANINGS = 2;      // numbers of faults whose meanings aren't folded
const REFUSED_WHOLE = 'Nothing is repaired. The program refuses the whole archive.';
const ORDER = 'A position counts good records, as in what `warc salvage --all` writes; an offset is one in the file.';
const ORDER_OF_MEMBERS = 'A position counts good records, as in what is saved; an offset is one in what the good ' +
    'members hold.';
const OF_DAMAGED = 'the answer comes from the good records. A later capture, or a record that this one leads to, may ' +
    'have been in bytes that are damaged or missing.';
const GZIP_ALONE = 'This page decompresses gzip alone.';
const PLAIN_NAME = /^[A-Za-z0-9][\w.-]*$/;  // a name that a shell takes as it is

/**
 * The name of a file in a command for a reader's shell.
 * @param {string} name
 * @param {string} other which is shown where a shell could read the name as more than a name
 */
const inShell = (name, other) => (PLAIN_NAME.test(name) ? name : other);

/** @param {string} command */
const code = (command) => make('code', {}, command);

/**
 * What is wrong with a compressed file: in a few words, and in a sentence.
 * @type {Record<string, (damage: PackedDamage, offset: string) => [string, string]>}
 */
const PACKED_WORDS = {
  torn: (_, offset) => ['is torn', `The gzip member at byte ${offset} isn’t whole: the file ends before it does.`],
  damaged:
      ({why}, offset) => ['is damaged', `The gzip member at byte ${offset} can’t be decompressed: ${plainly(why)}.`],
  other: (_, offset) => ['is damaged', `At byte ${offset}, after a gzip member, come bytes that gzip didn’t write.`],
  long: (_, offset) =>
      ['is too long to be decompressed here',
       `This page decompresses up to ${size(LIMIT)}. The gzip member at byte ${offset} leads beyond that.`,
],
  zstd: () => ['is compressed by zstd', GZIP_ALONE],
  zip: ({why}, offset) => ['is refused', `Its ZIP isn’t read, at byte ${offset}. ${plainly(why)}.`],
  entry: ({why}, offset) => [OF_PACKAGE.entry, `Its bytes at byte ${offset} of the package: ${plainly(why)}.`],
  members: ({why}, offset) =>
      [OF_PACKAGE.members,
       `Its bytes at byte ${offset} of the package: ${plainly(why)}. Its gzip members are good by their own ` +
           'checksums, and are shown.',
],
  unread: (_, offset) =>
      [OF_PACKAGE.unread,
       `zstd compressed its bytes at byte ${offset} of the package. ${GZIP_ALONE}`,
],
  crossing: (_, offset) =>
      ['isn’t an archive by itself', `Its last record, at its byte ${offset}, goes on in the file after it.`],
};

/**
 * What a reader can do about it.
 * @param {PackedDamage} damage
 */
function packedAdvice({kind, name}) {
  if (kind === 'zip')
    return ['Of a ZIP that contradicts itself one program would show what another didn’t check. Fetch it again.'];
  const thenOpen = ', and open what that gives.';
  if (kind === 'unread')
    return ['Unpack the package, decompress this archive, as by ', code('zstd -d a.warc.zst'), thenOpen];
  if (isOfPackage(kind)) return ['Fetch the package again.'];
  if (kind === 'crossing') return ['What that record gives was never captured so. All else is as in the files.'];
  const packed = inShell(name, kind === 'zstd' ? 'a.warc.zst' : 'a.warc.gz');
  const to = packed.replace(/(\.gz|\.zst)?$/, '');
  if (kind === 'zstd') return ['Decompress it first, as by ', code(`zstd -d ${packed}`), thenOpen];
  if (kind === 'long') return ['Decompress it first, as by ', code(`gunzip ${packed}`), thenOpen];
  if (kind === 'other') return ['Whether they belong to it isn’t known. ', code('zwarc'), ' refuses the file.'];
  const part = ' writes what can be decompressed up to the damage, also of this member; its checksum isn’t tried. ' +
      'Open what that gives.';
  return [code(`gzip -dc ${packed} > ${to === packed ? 'a.warc' : to}`), part];
}

// A compressed file that isn't read to its end: where and why, what to do, and what is shown.
function packedNodes() {
  const {damage, left, end, rows} = room;
  const [short, long] = PACKED_WORDS[damage.kind](damage, damage.offset.toLocaleString('en'));
  const whole = room.damages.count ? 'What is good of the bytes before it' : 'What comes before it';
  const part = `${whole} is shown: ${many(rows.count, 'record')}, ${size(end)} decompressed. Nothing is repaired.`;
  const after = left ? ` ${many(left, 'file')} after it ${left === 1 ? 'isn’t' : 'aren’t'} opened.` : '';
  return [
    make('h2', {}, make('bdi', {}, plainly(damage.name)), ` ${short}`),
    make('p', {}, `${long} `, ...packedAdvice(damage)),
    damage.kind === 'crossing' ? '' : make('p', {}, `${end ? part : 'No record comes before it.'}${after}`),
  ];
}

// A file without a record that can be read: why.
function unreadableNodes() {
  const {fault, unsought} = room, [, ...words] = inWords(fault);
  const none = unsought ? `No record comes before the fault. ${notSought()} ` : 'It has no record that is whole. ';
  const why = make('p', {}, none, ...prose(words.join(' ')));
  return [make('h2', {}, `This file can’t be read: ${fault}`), why];
}

/** @param {Gap} gap */
const gapWords = (gap) => PACKED_WORDS[gap.kind](gap, gap.offset.toLocaleString('en'));

/**
 * Where a damage is, and why no record begins there, or no good member.
 * @param {Damage} damage
 */
function damageLine({place, length, fault, gap}) {
  if (gap) {
    const said = [make('bdi', {}, plainly(gap.name)), `: ${gapWords(gap)[1]} `];
    const bytes = many(gap.length, isOfPackage(gap.kind) ? 'packed byte' : 'compressed byte');
    const left = make('b', {}, `${bytes} ${gap.length === 1 ? 'is' : 'are'} left out`);
    return gap.kind === 'members' ? said : [...said, left];
  }
  const bytes = room.unsought ? 'All bytes' : many(length, 'byte');
  return [`${bytes} from byte ${place.toLocaleString('en')} on${placeInFile(place)}: `, make('b', {}, fault)];
}

// What the faults of all damages mean, and what to do: once for each number.
function faultMeanings() {
  const numbers = new Set([...room.damages.faults.values()].map(numberOf).filter((it) => it));
  const words = [...numbers].map((number) => {
    const [name, meaning, advice] = inWords(number);
    return make('p', {}, make('b', {}, `${number} ${name}`), ': ', ...prose(`${meaning} ${advice}`));
  });
  if (words.length <= MOST_MEANINGS) return words;
  return [make('details', {}, make('summary', {}, `What the faults mean, and what to do (${words.length})`), ...words)];
}

// A line for each damage: the first ones, and more of them as the reader wants them.
function damageList() {
  const {damages} = room, list = make('ul', {className: 'plain-list', tabIndex: 0, 'aria-label': 'Damages'});
  const more = button('button quiet', () => add(), {});
  const add = () => {
    const first = list.childElementCount, last = Math.min(damages.count, first + DAMAGES_AT_ONCE);
    for (let number = first; number < last; number += 1) list.append(make('li', {}, ...damageLine(damages.at(number))));
    const next = Math.min(DAMAGES_AT_ONCE, damages.count - last);
    more.hidden = !next;
    more.textContent = `Show ${next.toLocaleString('en')} more of ${many(damages.count, 'damage')}`;
  };
  add();
  const title = make('summary', {}, `Where the damages are (${damages.count.toLocaleString('en')})`);
  return make('details', {open: damages.count <= MOST_OPEN}, title, list, more);
}

const notSought = () => `Nobody looked for good records after it: ${plainly(room.unsought)}.`;

// What is shown of a damaged archive.
function shownPart() {
  const {rows, end, damages, unsought, file} = room, shown = `${many(rows.count, 'record')}, ${size(end)}`;
  if (unsought) {
    const {name, start} = room.parts[fileAt(end)], byte = (end - start).toLocaleString('en');
    const upTo = isOfFiles() ? `up to byte ${byte} of ${plainly(name)}` : 'before the damage';
    return make('p', {}, `Its good part is shown: ${shown}, ${upTo}. ${notSought()} ${REFUSED_WHOLE}`);
  }
  const bad = `${damagedBytes(damages.length, file.size)} ${REFUSED_WHOLE}`;
  if (!rows.count) return make('p', {}, `It has no record that is whole. ${bad}`);
  const order = prose(room.gaps.length ? ORDER_OF_MEMBERS : ORDER);
  return make('p', {}, `All good records are shown: ${shown}. ${bad} `, ...order);
}

/**
 * How much of an archive is damaged, and of its compressed files.
 * @param {number} bytes
 * @param {number} size of the archive
 */
function damagedBytes(bytes, size) {
  const sumOf = (/** @type {boolean} */ isOfEntries) =>
      room.gaps.reduce((sum, {kind, length}) => sum + (isOfPackage(kind) === isOfEntries ? length : 0), 0);
  const [members, entries] = [sumOf(false), sumOf(true)], isOne = (bytes || members || entries) === 1;
  const ofArchive = bytes ? [`${many(bytes, 'byte')} of ${size.toLocaleString('en')}`] : [];
  const ofFiles = members ? [many(members, 'compressed byte')] : [];
  const ofPackages = entries ? [many(entries, 'packed byte')] : [];
  return `${[...ofArchive, ...ofFiles, ...ofPackages].join(' and ')} ${isOne ? 'is' : 'are'} damaged.`;
}

// Compressed files with one damage in all: where and why, and what is shown.
/** @param {Gap} gap */
function gapNodes(gap) {
  const [short, long] = gapWords(gap), title = make('h2', {}, make('bdi', {}, plainly(gap.name)), ` ${short}`);
  return [title, make('p', {}, `${long} `, ...packedAdvice(gap)), shownPart()];
}

// A damaged archive: where and why, and what is shown.
function faultNodes() {
  const {damages} = room, isOne = damages.count === 1, {fault, gap} = damages.at(0);
  if (isOne && gap) return gapNodes(gap);
  const title = plainly(isOne ? fault : `${many(damages.count, 'damage')}, the first is ${fault}`);
  const where = isOne ? make('p', {}, ...damageLine(damages.at(0)), '.') : damageList();
  return [make('h2', {}, `This archive is damaged: ${title}`), shownPart(), ...faultMeanings(), where];
}

// A button that saves the good records, which are uncompressed.
function savingGoodRecords() {
  const {runs, rows} = room, save = () => saveRecords(runs.ranges(0, runs.length), 'good-records', rows.count);
  return make('div', {className: 'actions'}, button('button', save, {}, 'Save the good records'));
}

// The mark of an answer, and of a record, as soon as it is known that the archive is damaged.
function damageMark() {
  const isMarked = room.fault !== '' || room.damage !== null;
  return isMarked ? [make('b', {className: 'of-damaged', title: OF_DAMAGED}, 'damaged archive')] : [];
}

// The mark with its words, beside an answer.
const damageNote = () => damageMark().map((mark) => note(mark, `: ${OF_DAMAGED}`));

// What is wrong with the archive, once it is listed.
function showDamage() {
  const {fault, damage, end} = room, place = byId('damage');
  place.hidden = !fault && !damage;
  byId('room').classList.toggle('unreadable', !place.hidden && !end);
  if (place.hidden) return;
  const isShown = end || room.gaps.length, packed = damage ? packedNodes() : [];
  const faulty = fault && isShown ? faultNodes() : [], unreadable = fault && !isShown ? unreadableNodes() : [];
  place.replaceChildren(...packed, ...unreadable, ...faulty, end ? savingGoodRecords() : '');
}
