/**
 * A document that is open in the editor. An offset counts the units of a JavaScript string from 0;
 * a position is a line and a character in it, both from 0, where a character is such a unit too.
 *
 * @typedef {{line: number, character: number}} Position
 * @typedef {{start: Position, end: Position}} Range
 * @typedef {"sheet" | "xml" | "text"} Kind
 */
export class OpenDocument {
  #starts = null;

  /**
   * @param {string} uri
   * @param {number} version
   * @param {string} text
   */
  constructor(uri, version, text) {
    Object.assign(this, { uri, version, text });
  }

  /** What the document is, by the end of its name. */
  get kind() {
    if (/\.xsugar$/iu.test(this.uri)) return "sheet";
    return /\.xml$/iu.test(this.uri) ? "xml" : "text";
  }

  /** Makes a change: of a range, or of the whole text where there is none. */
  change({ range, text }) {
    const [begin, end] = range
      ? [this.offsetAt(range.start), this.offsetAt(range.end)]
      : [0, this.text.length];
    this.text = this.text.slice(0, begin) + text + this.text.slice(end);
    this.#starts = null;
  }

  /** The offset of each line's begin. */
  get #lines() {
    const ends = () => [...this.text.matchAll(/\r\n|\n|\r/gu)];
    this.#starts ??= [0, ...ends().map((it) => it.index + it[0].length)];
    return this.#starts;
  }

  /** @returns {Position} */
  positionAt(offset) {
    let [low, high] = [0, this.#lines.length];
    while (high - low > 1) {
      const middle = (low + high) >> 1;
      if (this.#lines[middle] <= offset) low = middle;
      else high = middle;
    }
    return { line: low, character: offset - this.#lines[low] };
  }

  /** @param {Position} position */
  offsetAt({ line, character }) {
    if (line >= this.#lines.length) return this.text.length;
    return Math.min(this.#lines[line] + character, this.#endOf(line));
  }

  /** Returns the offset of a line's end, before what ends it. */
  #endOf(line) {
    const end = this.#lines[line + 1] ?? this.text.length;
    const [ending] = /(?:\r\n|\n|\r)?$/u.exec(this.text.slice(this.#lines[line], end));
    return end - ending.length;
  }

  /** @returns {Range} */
  range(begin, end) {
    return { start: this.positionAt(begin), end: this.positionAt(end) };
  }

  /** Returns the range of what is written on a line, counted from 1. */
  lineRange(number) {
    const line = Math.min(number, this.#lines.length) - 1;
    const [begin, end] = [this.#lines[line], this.#endOf(line)];
    const [indent] = /^[ \t]*/u.exec(this.text.slice(begin, end));
    return this.range(begin + indent.length, end);
  }

  /** @returns {Range} */
  get whole() {
    return this.range(0, this.text.length);
  }
}
