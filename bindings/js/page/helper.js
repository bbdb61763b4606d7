// A worker as the page sees it: it is asked, answers later, and can be ended at any time.

/** Why there is no answer: the worker was ended, or was asked something else. */
class Unanswered extends Error {}

class Helper {
  #worker;
  #waiting = new Map();
  #last = 0;

  /** A worker that runs this script, over a compiled module. */
  constructor(script, module) {
    this.#worker = new Worker(script);
    this.#worker.onmessage = ({ data }) => this.#hear(data);
    this.#worker.onerror = (event) => this.#fail(event.message);
    this.ask("start", { module });
  }

  /** What it answers; `onProgress` hears how far it is. */
  ask(name, given, onProgress) {
    const id = ++this.#last;
    return new Promise((resolve, reject) => {
      this.#waiting.set(id, { resolve, reject, onProgress });
      this.#worker.postMessage({ id, name, given });
    });
  }

  end() {
    this.#worker.terminate();
    for (const { reject } of this.#waiting.values()) reject(new Unanswered());
    this.#waiting.clear();
  }

  #hear({ id, progress, answer, error, isOver }) {
    const asked = this.#waiting.get(id);
    if (asked === undefined) return;
    if (progress !== undefined) return asked.onProgress?.(progress);
    this.#waiting.delete(id);
    if (error === undefined) asked.resolve(answer);
    else asked.reject(isOver ? new Unanswered() : new Error(error));
  }

  /** The worker's own error, as of want of memory. */
  #fail(message) {
    for (const { reject } of this.#waiting.values()) reject(new Error(message || "the worker ended, for want of memory perhaps"));
    this.#waiting.clear();
  }
}
