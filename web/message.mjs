/**
 * What is said under the panes: that the document was translated, or why not and what can be done.
 */
export class Message {
  #box;
  #said;
  #more;

  /** @param {HTMLElement} box */
  constructor(box) {
    this.#box = box;
    [this.#said, this.#more] = box.children;
  }

  /** Says that the document was translated, in so many milliseconds. */
  accept(time) {
    this.#say("", "Translated.", `It took ${Math.max(1, Math.round(time))} ms.`);
  }

  /** Says that an answer takes its time. */
  wait() {
    this.#say("", "Reading the sheet and the document ..");
  }

  /**
   * Says what is wrong.
   *
   * @param {string} words
   * @param {...(string | HTMLElement)} more what else there is to say, and to do
   */
  refuse(words, ...more) {
    this.#say("wrong", words, ...more);
  }

  /** Offers something to do, in place of what was offered, and goes to the first of it. */
  offer(...more) {
    this.#more.replaceChildren(...more);
    this.#more.querySelector("button, summary")?.focus();
  }

  #say(kind, words, ...more) {
    this.#box.className = kind;
    this.#said.textContent = words;
    this.#more.replaceChildren(...more);
  }
}

/** Makes a button that shows the key that does the same. */
export function button(words, key, work) {
  const it = document.createElement("button");
  it.type = "button";
  it.append(`${words} `, Object.assign(document.createElement("kbd"), { textContent: key }));
  it.addEventListener("click", work);
  return it;
}
