/**
 * Questions to a worker, one at a time. Of the questions of one call only the newest counts: an
 * older one that waits is not asked, and its answer is dropped where it was asked already.
 */

/** What a question comes to that a newer one replaced. */
export const STALE = Symbol("stale");

/** How long a question that a newer one replaced may go on, in milliseconds. */
const PATIENCE = 1500;

/** A worker, and the questions to it. */
export class Desk {
  #start;
  #failed;
  #worker = null;
  #running = null;
  #waiting = new Map();
  #patience = 0;

  /**
   * @param {() => Worker} start begins a worker that was sent its module
   * @param {(refusal: import("./worker.mjs").Refusal) => void} failed is told where it cannot be
   *   loaded
   */
  constructor(start, failed) {
    this.#start = start;
    this.#failed = failed;
    this.#begin();
  }

  /**
   * Asks the worker, and gives `{answer}` or `{refusal}`, or STALE.
   *
   * @param {string} call
   * @param {object} given
   * @returns {Promise<{answer?: unknown, refusal?: import("./worker.mjs").Refusal} | typeof STALE>}
   */
  ask(call, given) {
    return new Promise((tell) => {
      this.#waiting.get(call)?.tell(STALE);
      this.#waiting.set(call, { call, given, tell });
      if (this.#running?.call === call) this.#giveUp();
      this.#next();
    });
  }

  /** Drops the answer that is awaited, and ends its worker where that takes too long. */
  #giveUp() {
    this.#running.tell(STALE);
    this.#running.tell = () => {};
    this.#patience ||= setTimeout(() => this.#begin(), PATIENCE);
  }

  /** Begins a worker in place of the one that is there. */
  #begin() {
    this.#worker?.terminate();
    this.#worker = this.#start();
    this.#worker.onmessage = ({ data }) => this.#told(data);
    this.#worker.onerror = (event) => this.#told({ broken: event.message });
    this.#running = { call: "load", tell: ({ refusal }) => refusal && this.#failed(refusal) };
    clearTimeout(this.#patience);
    this.#patience = 0;
  }

  /** Hands an answer on. A worker that broke is replaced, since its core may be in any state. */
  #told(data) {
    const { call, tell } = this.#running;
    clearTimeout(this.#patience);
    this.#patience = 0;
    if ("broken" in data) {
      tell({ refusal: { name: "Broken", message: data.broken } });
      if (call !== "load") this.#begin();
      return;
    }
    this.#running = null;
    tell(data);
    this.#next();
  }

  #next() {
    if (this.#running !== null || this.#waiting.size === 0) return;
    const [call, question] = this.#waiting.entries().next().value;
    this.#waiting.delete(call);
    this.#running = question;
    this.#worker.postMessage({ call, given: question.given });
  }
}
