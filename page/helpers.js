// Helpers: workers with the same script, each with a module of its own, that work side by side.
'use strict';

const HELPERS = typeof Worker === 'function' ? Math.min(4, navigator.hardwareConcurrency || 1) : 1;
const PATIENCE = 60000;  // milliseconds after which a helper counts as lost

// One helper, and what it is asked. It is lost where it reports an error, or doesn't answer in time.
class Helper {
  /**
   * @param {string} script
   * @param {WebAssembly.Module} module
   */
  constructor(script, module) {
    /** @type {{done: (answer: any) => void, failed: (error: Error) => void}|null} */
    this.turn = null;
    this.worker = startWorker(script);
    this.worker.onmessage = ({data}) => this.turn?.done(data);
    this.worker.onerror = (event) => {
      event.preventDefault();  // or it counts as an error of this worker too
      this.lose(event.message || 'a helper stopped');
    };
    this.worker.postMessage({helps: module});
    this.isLost = false;
  }

  /** @type {(message: object, moved: Transferable[], patience: number) => Promise<any>} */
  async ask(message, moved, patience) {
    if (this.isLost) throw new Error('a helper stopped');
    const answer = new Promise((done, failed) => {
      this.turn = {done, failed};
    });
    const clock = setTimeout(() => this.lose('a helper doesn’t answer'), patience);
    this.worker.postMessage(message, moved);
    return answer.finally(() => clearTimeout(clock));
  }

  /** @type {(why: string) => void} */
  lose(why) {
    this.isLost = true;
    this.worker.terminate();
    this.turn?.failed(new Error(why));
  }
}

// Helpers that work side by side. Each is started when it is needed, also in the place of one that is lost.
class Helpers {
  /**
   * @param {string} script
   * @param {WebAssembly.Module} module
   */
  constructor(script, module) {
    this.start = () => new Helper(script, module);
    this.isStopped = false;
    /** @type {Set<Helper>} */
    this.all = new Set();
    /** @type {Helper[]} */
    this.free = [];
    /** @type {((value?: any) => void)[]} */
    this.waiting = [];
  }

  // A helper that has nothing to do.
  async one() {
    while (!this.isStopped && !this.free.length && this.all.size >= HELPERS)
      await new Promise((done) => this.waiting.push(done));
    if (this.isStopped) throw new Error('the helpers are stopped');
    const next = this.free.pop() ?? this.start();
    this.all.add(next);
    return next;
  }

  // What a helper answers to a message, once one is free.
  /** @type {(message: object, moved?: Transferable[], patience?: number) => Promise<any>} */
  async ask(message, moved = [], patience = PATIENCE) {
    const helper = await this.one();
    try {
      const answer = await helper.ask(message, moved, patience);
      if (answer.why) throw new Error(answer.why);
      return answer;
    } finally {
      if (helper.isLost)
        this.all.delete(helper);
      else
        this.free.push(helper);
      this.waiting.shift()?.();
    }
  }

  stop() {
    this.isStopped = true;
    this.all.forEach((helper) => helper.lose('the helpers are stopped'));
    this.waiting.splice(0).forEach((done) => done());
  }
}
