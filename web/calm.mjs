/** How long nothing is asked for before what is not urgent is done, in milliseconds. */
const CALM = 200;

/** Runs what was asked for last, once nothing was asked for some time. */
export class Calm {
  #timer = 0;

  run(work) {
    this.stop();
    this.#timer = setTimeout(work, CALM);
  }

  stop() {
    clearTimeout(this.#timer);
  }
}
