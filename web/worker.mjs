/**
 * The core in a worker. The first message is the bytes of the module; each later one is a question,
 * `{call, given}`, of which the answer is `{answer}`, or `{refusal}`: the error's name, its message
 * and what else it tells.
 *
 * @typedef {{name: string, message: string, [told: string]: unknown}} Refusal
 */
import { openedBefore } from "./brackets.mjs";
import { quoted, SheetError, XsugarError } from "./errors.mjs";
import { fencesOf, productionsOf } from "./productions.mjs";
import { rowsOf } from "./tree.mjs";
import { load } from "./xsugar.mjs";

/** A sheet that was opened, or refused, and what its source says. */
class Opened {
  sheet = null;
  refused = null;
  fences = [];

  /**
   * @param {import("./xsugar.mjs").Xsugar} xsugar
   * @param {string} source
   */
  constructor(xsugar, source) {
    this.source = source;
    this.productions = productionsOf(source);
    try {
      this.sheet = xsugar.open(source);
    } catch (error) {
      if (!(error instanceof SheetError)) throw error;
      this.refused = error;
      return;
    }
    this.fences = fencesOf(xsugar, source);
  }
}

/** The core, and the sheet that was asked for last. */
class Translator {
  #xsugar;
  #last = null;

  constructor(xsugar) {
    this.#xsugar = xsugar;
  }

  /** Returns a sheet that is accepted; one that was asked for last is not checked again. */
  #opened(source) {
    if (this.#last?.source !== source) {
      this.#last?.sheet?.close();
      this.#last = null;
      this.#last = new Opened(this.#xsugar, source);
    }
    if (this.#last.refused !== null) throw this.#last.refused;
    return this.#last;
  }

  /** Answers whether a sheet is accepted: true, or the refusal. */
  check({ source }) {
    return this.#opened(source) !== null;
  }

  /** Answers the other document. A refusal also tells what was opened and is not closed. */
  translate({ source, side, document, form }) {
    const opened = this.#opened(source);
    try {
      return side === "text" ? opened.sheet.toXml(document, form) : opened.sheet.toText(document);
    } catch (error) {
      if (typeof error.offset === "number") error.opened = openedBefore(side, document, error.offset, opened);
      throw error;
    }
  }

  /** Answers the characters that may come after a text, as ranges, or null where it begins none. */
  next({ source, text }) {
    return this.#opened(source).sheet.next(text);
  }

  /**
   * Answers the rows of the outline of a text and its XML, or null where it is no text of the
   * sheet.
   */
  rows({ source, text, form, xml }) {
    const { sheet, productions } = this.#opened(source);
    const counted = form === "asis" ? text : text.normalize(form.toUpperCase());
    const line = sheet.session(`put 0 0 ${quoted(counted)}\ntree\n`).split("\n")[1];
    if (!line.startsWith("(") || productions === null) return null;
    const rows = rowsOf(line, productions, xml);
    return counted === text ? rows : rows.map((it) => ({ ...it, text: null }));
  }
}

let translator = null;

/** Returns what is answered to a message. */
async function answerTo(data) {
  if (translator === null) {
    translator = new Translator(await load(data));
    return { answer: true };
  }
  try {
    return { answer: translator[data.call](data.given) };
  } catch (error) {
    if (!(error instanceof XsugarError)) throw error;
    return { refusal: { ...error, name: error.name, message: error.message } };
  }
}

self.onmessage = async ({ data }) => {
  try {
    self.postMessage(await answerTo(data));
  } catch (error) {
    self.postMessage({ broken: String(error) });
  }
};
