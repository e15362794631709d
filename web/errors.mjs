/**
 * What is refused, as classes of errors. Where a place of a document is told, `line` and `column`
 * count from 1 and in characters; `offset` counts from 0, in units of a JavaScript string.
 *
 * @typedef {{line: number, column: number, offset: number | null}} Place
 */

const QUOTED = /"((?:[^"\\]|\\.)*)"/gsu;
const SHOWN = { n: "\n", t: "\t", r: "\r" };

/** Returns the characters of a word as reports show it: those of `a\n\u{E9}`, say. */
export function unquoted(shown) {
  return shown.replace(/\\(?:u\{([0-9A-Fa-f]+)\}|(.))/gsu, (_, code, plain) =>
    code ? String.fromCodePoint(parseInt(code, 16)) : (SHOWN[plain] ?? plain));
}

/** Returns characters in quotes, as a line of an edit script has them. */
export function quoted(text) {
  const shown = (it) => `\\u{${it.codePointAt(0).toString(16).toUpperCase()}}`;
  return `"${text.replace(/[^\x20-\x7e]|["\\]/gu, shown)}"`;
}

/** A refusal: its `status`, and the `report` that the program prints for it, in one line. */
export class XsugarError extends Error {
  /**
   * @param {number} status
   * @param {string} report
   * @param {string} [message] what is said instead of the report
   */
  constructor(status, report, message = report) {
    super(message);
    this.name = new.target.name;
    this.status = status;
    this.report = report;
  }
}

/**
 * The sheet is not accepted. Where its syntax is wrong, `byte`, `line`, `column` and `offset` are
 * the place; where it breaks a rule, `line`; where a production is too large, `weight`; else all
 * are null.
 */
export class SheetError extends XsugarError {
  byte = null;
  line = null;
  column = null;
  offset = null;
  weight = null;
}

/**
 * The sheet may be ambiguous. `side` ("text" or "xml") and `production` are those of a production,
 * and `lines` has its line; or two lines of productions that share the one word of `words`. Where
 * the production can be cut in two ways after `cut` items, `words` are three. `line` is the first
 * of `lines`.
 */
export class SuspectError extends SheetError {
  constructor(status, report) {
    super(status, report);
    const head = /^suspect: (text|xml): ([^:]*): /iu.exec(report);
    const said = head ? report.slice(head[0].length) : report;
    const plain = said.replace(QUOTED, "");
    const numbers = [...plain.matchAll(/\d+/gu)].map((it) => Number(it[0]));
    const two = /^lines \d+ and \d+/u.test(plain);
    this.side = head ? head[1].toLowerCase() : null;
    this.production = head ? head[2] : null;
    this.lines = numbers.slice(0, two ? 2 : 1);
    this.line = this.lines[0] ?? null;
    this.cut = two || numbers.length < 2 ? null : numbers[1];
    this.words = [...said.matchAll(QUOTED)].map((it) => unquoted(it[1]));
  }
}

/**
 * The document is not of the sheet's language. Its first `symbols` symbols begin some document of
 * it, and what stands at `line`, `column` and `offset` does not fit. Of a text, `expected` are the
 * ranges of the characters that can stand there, as pairs of the first and the last; none where
 * only the end can. It is null of XML, and where the text is too long to ask. `offset` is null
 * where a normal form made another text of it.
 */
export class ForeignError extends XsugarError {
  /**
   * @param {number} symbols
   * @param {Place} place
   * @param {[string, string][] | null} expected
   */
  constructor(status, report, message, symbols, place, expected) {
    super(status, report, message);
    Object.assign(this, place, { symbols, expected });
  }
}

/** The document is not XML of the profile: what stands at `line` and `column` is not legal. */
export class NotXmlError extends XsugarError {
  /**
   * @param {number} characters how many characters of the document are of legal pieces
   * @param {Place} place
   */
  constructor(status, report, message, characters, place) {
    super(status, report, message);
    Object.assign(this, place, { characters });
  }
}

/** The document is not UTF-8: its first `byte` bytes are, and end at `line` and `column`. */
export class NotUtf8Error extends XsugarError {
  /**
   * @param {number} byte
   * @param {Place} place
   */
  constructor(status, report, byte, place) {
    super(status, report);
    Object.assign(this, place, { byte });
  }
}

/** The document has more than 1,048,576 bytes. */
export class TooLongError extends XsugarError {}

/** The document is no outline; `line` is the first that does not fit. */
export class OutlineError extends XsugarError {
  /** @param {number} line */
  constructor(status, report, line) {
    super(status, report);
    this.line = line;
  }
}

/** The document is no edit script; `line` is the first that is no request. */
export class ScriptError extends OutlineError {}

/** Memory ran out. Nothing was done, and the module and all open sheets go on. */
export class OutOfMemoryError extends XsugarError {
  constructor() {
    super(8, "", "want of memory");
  }
}
