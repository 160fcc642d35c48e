// Calls of the module from the page: in a worker, one at a time, each of which can be stopped.

// A worker that has the module.
function workerWith(url, module) {
  const worker = new Worker(url);
  worker.postMessage({ module });
  return worker;
}

/** What stands for the answer of a call that was stopped. */
export const STOPPED = { isStopped: true };

/** Runs calls of a module, given as bytes, by the source of a worker. */
export class Runner {
  constructor(bytes, source) {
    this.url = URL.createObjectURL(new Blob([source], { type: 'text/javascript' }));
    this.ready = WebAssembly.compile(bytes).then((module) => {
      this.module = module;
      this.functions = WebAssembly.Module.exports(module).map(({ name }) => name);
    });
    this.worker = null;
    this.finish = null;
  }

  /** One with a worker of its own, whose calls this one's do not stop. */
  beside() {
    const other = Object.assign(Object.create(Runner.prototype), { url: this.url, worker: null, finish: null });
    other.ready = this.ready.then(() => { other.module = this.module; });
    return other;
  }

  /** Calls a command; a call that still runs is stopped before. The answer has status and text; `fault` where the module broke off. */
  async call(asked) {
    await this.ready;
    this.stop();
    if (this.worker === null) this.worker = workerWith(this.url, this.module);
    const { worker } = this;
    return new Promise((finish) => {
      this.finish = finish;
      const end = (answer) => {
        if (this.finish === finish) this.finish = null;
        finish(answer);
      };
      worker.onmessage = ({ data }) => end(data);
      // A worker that failed hears no further call, so the next one has another.
      worker.onerror = (event) => {
        worker.terminate();
        if (this.worker === worker) this.worker = null;
        end({ fault: event.message || 'the worker does not start' });
      };
      worker.postMessage(asked);
    });
  }

  /** Stops the call that runs, if one does. */
  stop() {
    if (this.finish === null) return;
    this.worker.terminate();
    this.worker = null;
    this.finish(STOPPED);
    this.finish = null;
  }
}
