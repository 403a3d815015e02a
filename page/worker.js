// The worker's two desks: one takes the page's messages, and one works as a helper.
'use strict';

// Where the page's messages arrive: it opens one archive after another, and asks questions on the last.
class Desk {
  /** @param {{wasm: Uint8Array, limit: number, script: string}} given */
  constructor({wasm, limit, script}) {
    this.module = new WebAssembly.Module(wasm);
    this.limit = limit;    // bytes: a longer archive is listed, and not kept in memory
    this.script = script;  // this one, for helpers
    this.openings = 0;     // how often an archive was opened in a module's memory
    this.heads = new HeadReader(this.module);
    /** @type {Archive|null} */
    this.archive = null;
    this.queue = Promise.resolve();
  }

  /** @type {(message: any) => void} */
  hear(message) {
    const failed = (/** @type {any} */ error) => postMessage({id: message.id, why: whyOf(error)});
    if (message.heads) {
      this.readHeads(message).catch(failed);
      return;
    }
    if (message.texts) {
      this.askTexts(message).catch(failed);
      return;
    }
    if (message.open) {
      this.archive?.close();
      this.archive = new Archive(this, message.open, message.number);
    }
    const {archive} = this;
    this.inTurn(() => this.respond(archive, message)).catch(failed);
  }

  // Does something after all that was asked before.
  /** @type {<T>(act: () => Promise<T>) => Promise<T>} */
  inTurn(act) {
    const turn = this.queue.then(act);
    this.queue = turn.then(() => {}, () => {});
    return turn;
  }

  // Answers what is asked of texts. Only what this asks the library waits for its turn.
  /** @type {(message: {id: number, texts: any}) => Promise<void>} */
  async askTexts({id, texts}) {
    const {archive} = this;
    if (!archive) throw new Error('no archive is open');
    archive.texts ??= new Texts(this, archive);
    const answer = await archive.texts.answerOf(texts);
    postMessage({id, answers: [answer], openings: this.openings});
  }

  // Says what heads say: at once, also while an archive is being opened.
  /** @type {(message: {id: number, heads: AskedHead[]}) => Promise<void>} */
  async readHeads({id, heads}) {
    postMessage({id, answers: this.heads.read(heads), openings: this.openings});
  }

  /** @type {(archive: Archive|null, message: {id: number, questions?: Question[]}) => Promise<void>} */
  async respond(archive, {id, questions}) {
    if (!archive) throw new Error('no archive is open');
    if (!questions) {
      await archive.open().catch((error) => archive.fail(error));
      return;
    }
    const answers = await archive.ask(questions);
    postMessage({id, answers, openings: this.openings}, answers.filter((it) => it.body).map((it) => it.body.buffer));
  }
}

// What a helper does: it lists bytes, judges blocks of a file, looks for its findings or its pieces, or reads a text.
class HelperDesk {
  /** @param {WebAssembly.Module} module */
  constructor(module) {
    this.module = module;
    this.judge = new Judge(module);
    this.lister = new Instance(module);
  }

  /** @type {(message: any) => void} */
  hear(message) {
    this.respond(message).catch((error) => postMessage({why: whyOf(error)}));
  }

  /** @type {(message: any) => Promise<void>} */
  async respond({list, find, judge, seek, extract}) {
    if (list) {
      if (this.lister.spent > SPENT / 2) this.lister = new Instance(this.module);
      const [at] = this.lister.put('bytes', list, PIECE), found = this.lister.front(at, list.length);
      postMessage(found, [found.rows, found.words]);
    } else if (judge) {
      const verdicts = await this.judge.judge(judge);
      postMessage({verdicts}, [verdicts.buffer]);
    } else if (seek)
      postMessage({pieces: piecesBetween(await filled(this.module, seek), seek.sides)});
    else if (extract)
      postMessage(await textOfBody(extract));
    else {
      const lines = (await filled(this.module, find)).findings(find.end, find.heap, find.records);
      postMessage({lines}, [lines.buffer]);
    }
  }
}

/** @type {Desk|HelperDesk|null} */
let desk = null;

onmessage = ({data}) => {
  if (data.wasm)
    desk = new Desk(data);
  else if (data.helps)
    desk = new HelperDesk(data.helps);
  else
    desk.hear(data);
};
