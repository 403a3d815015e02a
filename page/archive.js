// One archive in a worker: its records are listed, its blocks judged, and questions on it answered.
'use strict';

const MOST_PIECE = 4096 * MEGABYTE;
const LEAST_SHARED = 32 * MEGABYTE;  // bytes: a shorter file is listed by this worker alone
const IS_LARGE = /** @type {any} */ (navigator).deviceMemory >= 8;
const MOST_TWICE = IS_LARGE ? Infinity : 1024 * MEGABYTE;  // bytes: of a longer file there is no second copy in memory
const SLOWEST = 10000;  // bytes that a helper looks through in a millisecond at least
const TOO_LONG = 'the file is longer than what this page keeps in memory';
const BAD_PART = 'A member of gzip, or a file of a package, is damaged';

// One archive, from the opening of its files until others are opened.
//
// Its state is 'listing' while its files are joined and its records are found, 'listed' while its blocks are judged and
// it isn't open for questions, 'open' then, and 'over' once others are opened. Of a damaged file it is the good records
// of all runs, one after another: offsets here are those of that, and the page gets those of the file.
class Archive {
  /**
   * @param {Desk} desk
   * @param {File[]} files
   * @param {number} number by which the page knows it
   */
  constructor(desk, files, number) {
    this.desk = desk;
    this.files = files;
    /** @type {Blob} */
    this.file = new Blob();              // what they are, once they are joined
    this.sides = Float64Array.of(0, 0);  // where it begins, where each gap is, and where it ends
    this.runs = Runs.one(0);             // which parts of it are the archive, as far as that is known
    this.number = number;
    this.state = 'listing';
    /** @type {Keeper|null} */
    this.keeper = null;  // the module that has the good records, if they are short enough
    this.judge = null;   // where this worker judges blocks itself
    /** @type {Texts|null} */
    this.texts = null;  // of its captures, once somebody looks for words
    this.helpers = this.newHelpers();
    this.records = 0;
    this.textBytes = 0;
    this.end = 0;  // of the good records so far
    /** @type {{first: number, start: number, stop: number, rows: ArrayBuffer}[]} */
    this.pieces = [];  // of records that were listed together
  }

  get isOver() {
    return this.state === 'over';
  }

  get holds() {
    return this.end <= this.desk.limit;
  }

  get size() {
    return this.runs.length;
  }

  // What a new module is filled with: the good records.
  get part() {
    return {file: this.file, runs: this.runs.ends, end: this.end};
  }

  // Whether this worker looks for the findings itself, as there is no helper, or no room for a second copy.
  get isAlone() {
    return HELPERS < 2 || this.end > MOST_TWICE;
  }

  get heap() {
    return 32 * MEGABYTE + 4 * this.textBytes + 600 * this.records;
  }

  newHelpers() {
    return new Helpers(this.desk.script, this.desk.module);
  }

  close() {
    this.state = 'over';
    this.helpers.stop();
    this.texts?.close();
  }

  // Reports something of this file to the page.
  /** @type {(message: object, moved?: Transferable[]) => void} */
  tell(message, moved = []) {
    if (!this.isOver) postMessage({...message, of: this.number}, moved);
  }

  /** @type {(error: any) => void} */
  fail(error) {
    this.tell({report: 'failed', why: whyOf(error)});
  }

  /** @type {(from: number, to: number) => Promise<Uint8Array>} */
  read(from, to) {
    return bytesOfRanges(this.file, this.runs.ranges(from, to));
  }

  // Reports the records that were found from an offset on. Returns whether there may be more after the bytes so far.
  /** @type {(found: Front, start: number, stop: number) => boolean} */
  report({records, texts, rows, words, end: length, fault}, start, stop) {
    const {size} = this, end = start + length;
    if (records) this.pieces.push({first: this.records, start, stop: end, rows: rows.slice(0)});
    this.records += records;
    this.textBytes += texts;
    this.end = end;
    const base = this.baseOf(rows, start);
    this.tell({report: 'rows', base, count: records, rows, words, read: end, size}, [rows, words]);
    return !fault || (fault.startsWith('F11 ') && stop < size);
  }

  // What is added to the offsets of rows that were found from an offset on, so that they are the file's. After damage
  // each row gets its own.
  /** @type {(rows: ArrayBuffer, start: number) => number} */
  baseOf(rows, start) {
    if (this.runs.isFront) return start;
    const view = new DataView(rows);
    for (let at = 0; at < rows.byteLength; at += ROW_BYTES) {
      const [record, block] = [at, at + 8].map((place) => Number(view.getBigUint64(place, true)) + start);
      const shift = this.runs.shiftAt(record);
      view.setBigUint64(at, BigInt(record + shift), true);
      view.setBigUint64(at + 8, BigInt(block + shift), true);
    }
    return 0;
  }

  // Joins the files, and reports what they are. Returns whether they are whole.
  async join() {
    const tell = (/** @type {object} */ progress) => this.tell({report: 'unpacking', ...progress});
    const opening = new Opening(this.files, () => this.isOver, tell), archives = await opening.archives();
    const joining = new Joining(archives, this.desk.limit, () => this.isOver, tell);
    this.file = await joining.join();
    const {parts, gaps} = joining, damage = joining.damage ?? opening.damage;
    const left = opening.left + archives.length - parts.length;
    this.packages = opening.packages;
    this.sides = Float64Array.of(0, ...gaps.map((gap) => gap.place), this.file.size);
    this.runs = Runs.one(this.sides[1]);
    this.tell({report: 'joined', file: this.file, parts, damage, gaps, left});
    return !damage;
  }

  // Lists the archive piece by piece, as it comes into the memory of a module, from a record's beginning on.
  /** @type {(filling: Filling, from: number) => Promise<string|null>} */
  async listOn(filling, from) {
    const {keeper} = filling, {size} = this;
    for (let start = from, length = FIRST_PIECE; start < size;) {
      const stop = Math.min(size, start + length);
      while (filling.stop < stop)
        if (!await filling.take()) return null;
      const found = keeper.front(keeper.file + start, stop - start);
      if (!this.report(found, start, stop)) return placed(found.fault, start);
      length = found.end > 0 ? PIECE : 4 * length;  // a record that doesn't end in the bytes so far
      start = this.end;
    }
    return '';
  }

  // Finds the pieces of the file, by a helper if it can be: a file may be made so that this takes long.
  /** @type {() => Promise<Pieces>} */
  async findPieces() {
    const {file, sides} = this, {size} = file, whole = {file, runs: Float64Array.of(0, size), end: size, sides};
    if (HELPERS >= 2 && size <= MOST_TWICE)
      return (await this.helpers.ask({seek: whole}, [], PATIENCE + size / SLOWEST)).pieces;
    this.keeper = null;  // its memory is given back first
    this.keeper = await filled(this.desk.module, whole);
    return piecesBetween(this.keeper, sides);
  }

  // Looks for good records after the first damage, and lists them. Returns the pieces of the file; if they can't be
  // found, the front and one damage, and why.
  /** @type {(fault: string) => Promise<Pieces|null>} */
  async listRest(fault) {
    const {runs} = this;
    if (this.file.size > this.desk.limit) return this.frontAlone(fault, TOO_LONG);
    this.tell({report: 'seeking', fault});
    try {
      const pieces = await this.findPieces();
      return this.isOver || !await this.listRuns(pieces) ? null : pieces;
    } catch (error) {
      if (this.runs !== runs) throw error;
      return this.frontAlone(fault, whyOf(error));
    }
  }

  // Lists the records of the runs that aren't listed. Returns whether they are still wanted.
  /** @type {(pieces: Pieces) => Promise<boolean>} */
  async listRuns(pieces) {
    const runs = new Runs(pieces.runs), front = this.sides[1] && runs.ends[0] === 0 ? runs.ends[1] : 0;
    this.helpers.stop();  // their memory is given back
    this.helpers = this.newHelpers();
    if (front !== this.end) throw new Error(CHANGED);
    if (runs.length === front) return true;
    this.keeper = null;  // its memory is given back first
    const keeper = new Keeper(this.desk.module, runs.length);
    this.runs = runs;
    const fault = await this.listOn(new Filling(this, keeper), this.end);
    this.keeper = keeper;
    if (fault || (fault === '' && this.records !== pieces.records)) throw new Error(CHANGED);
    return fault !== null;
  }

  // A file whose pieces aren't known: the front, and damage.
  /** @type {(fault: string, why: string) => Pieces} */
  frontAlone(fault, why) {
    const {end, file} = this, place = Number(/ at (\d+)$/.exec(fault)?.[1] ?? end);
    const damages = fault ? Float64Array.of(end, file.size - end, 0, place) : new Float64Array();
    return {runs: Float64Array.of(0, end), damages, faults: new Map([[0, fault]]), records: this.records, why};
  }

  // Lists a long file by helpers. If a segment doesn't end where the next was thought to begin, this worker lists the
  // rest.
  /** @type {(filling: Filling) => Promise<string|null>} */
  async listByHelpers(filling) {
    const segments = new Segments(filling, this.helpers);
    while (filling.stop < this.size && !segments.isBroken) {
      if (!await filling.take()) return null;
      await segments.handOut();
    }
    if (!segments.isBroken) segments.hand(this.size);
    const isWhole = await segments.whole;
    this.helpers.stop();  // their memory is given back
    this.helpers = this.newHelpers();
    if (isWhole) return '';
    return this.isOver ? null : this.listOn(filling, this.end);
  }

  // Lists a file that fits into the module's memory. It is read once.
  async listKept() {
    const keeper = new Keeper(this.desk.module, this.size), filling = new Filling(this, keeper);
    const isShared = this.size >= LEAST_SHARED && HELPERS >= 2;
    const fault = await (isShared ? this.listByHelpers(filling) : this.listOn(filling, 0));
    this.keeper = keeper;
    return fault;
  }

  // Lists a longer file piece by piece.
  async listPieces() {
    const {size} = this;
    let start = 0, length = FIRST_PIECE, instance = new Instance(this.desk.module);
    while (start < size) {
      const stop = Math.min(size, start + length);
      if (instance.spent > SPENT / 2) instance = new Instance(this.desk.module);
      const bytes = await this.read(start, stop);
      if (this.isOver) return null;
      const [at] = instance.put('bytes', bytes, PIECE), found = instance.front(at, bytes.length);
      if (!this.report(found, start, stop)) return placed(found.fault, start);
      length = found.end > 0 ? PIECE : length * 4;
      if (found.end === 0 && length > MOST_PIECE) throw new Error('a record is longer than this page can read');
      start = this.end;
    }
    return '';
  }

  // The module that has the good records, or a new one if that has spent too much memory.
  async full() {
    if (!this.keeper || this.keeper.spent >= this.keeper.most) {
      this.keeper = null;  // its memory is given back first
      this.keeper = await filled(this.desk.module, this.part);
    }
    return this.keeper;
  }

  // That module, with the archive open.
  async ready() {
    const keeper = await this.full();
    if (!keeper.isOpen) this.openIn(keeper);
    return keeper;
  }

  /** @type {(keeper: Keeper) => void} */
  openIn(keeper) {
    keeper.open(this.end, this.heap);
    this.desk.openings += 1;
  }

  // The answers to questions, one after another.
  /** @type {(questions: Question[]) => Promise<Answer[]>} */
  async ask(questions) {
    const answers = [];
    for (const question of questions) {
      const keeper = await this.ready();
      answers.push(keeper.answer(question, () => this.openIn(keeper)));
    }
    return answers;
  }

  // The findings by a helper, so that questions don't wait for them; of a long archive by this worker.
  async find() {
    const {part, end, records, heap} = this;
    const none = {lines: new Uint8Array()};
    const alone = async () => (this.isOver ? none : {lines: (await this.full()).findings(end, heap, records)});
    const byHelper = () =>
        this.helpers.ask({find: {...part, records, heap}}, [], PATIENCE + end / SLOWEST).catch(alone);
    const {lines} = await (this.isAlone ? alone() : byHelper());
    this.tell({report: 'findings', lines: text(lines)});
  }

  // The verdicts on all blocks by helpers side by side, or by this worker between questions.
  async judgeAll() {
    const waiting = this.pieces.splice(0);
    const goOn = async () => {
      for (let next; !this.isOver && (next = waiting.shift());) {
        const {first, start, stop, rows} = next;
        const verdicts = await this.verdicts({file: this.file, ranges: this.runs.ranges(start, stop), rows});
        this.tell({report: 'verdicts', first, verdicts}, [verdicts.buffer]);
      }
    };
    await Promise.all(Array.from({length: HELPERS}, goOn));
  }

  // The verdicts on some blocks by a helper, or by this worker if there is none, or the helper fails.
  /** @type {(task: JudgeTask) => Promise<Uint8Array>} */
  async verdicts(task) {
    const alone = () => {
      this.judge ??= new Judge(this.desk.module);
      return this.judge.judge(task);
    };
    if (HELPERS < 2) return alone();
    try {
      return (await this.helpers.ask({judge: task})).verdicts;
    } catch {
      return this.isOver ? new Uint8Array() : alone();
    }
  }

  // The pages that packages list.
  async tellPages() {
    for (const it of this.packages) this.tell({report: 'package', name: it.name, pages: await it.pages()});
  }

  // What packages say of their files, compared with them.
  async judgePackages() {
    for (const it of this.packages) {
      const signer = await it.signer(), resources = await it.resources((task) => this.verdicts(task));
      this.tell({report: 'packed', name: it.name, signer, resources});
    }
  }

  // What takes hashes, beside the questions.
  async work() {
    const report = (/** @type {any} */ error) => this.fail(error);
    const found = this.holds ? this.find().catch(report) : null;
    const judged = this.tellPages().then(() => this.judgeAll()).then(() => this.judgePackages()).catch(report);
    Promise.all([found, judged]).then(() => this.helpers.stop());
    if (this.isAlone) await found;
  }

  async open() {
    const isWhole = !this.isOver && await this.join();
    if (this.isOver) return;
    const found = await (this.size <= this.desk.limit ? this.listKept() : this.listPieces());
    if (this.isOver || found === null) return;
    const fault = found || (this.sides.length > 2 ? BAD_PART : '');
    const pieces = await (fault ? this.listRest(fault) : this.frontAlone('', ''));
    if (this.isOver || !pieces) return;
    this.state = 'listed';
    this.tell({report: 'listed', fault, pieces, end: this.end, holds: this.holds});
    if (this.end === 0 && (fault || !isWhole)) return;
    await this.work();
    if (!this.holds || this.isOver) return;
    await this.ready();
    this.state = 'open';
    this.tell({report: 'opened'});
  }
}
