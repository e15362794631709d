/**
 * A pane: a text that is typed in, with marks under its letters.
 *
 * @typedef {{begin: number, end: number, kind: "wrong" | "open" | "here"}} Mark
 */
import { placeOf } from "./places.mjs";

/** Returns where the line of an offset ends. */
function endOfLine(text, offset) {
  const end = text.indexOf("\n", offset);
  return end < 0 ? text.length : end;
}

/** Returns where a line, counted from 1, begins and ends. */
export function lineSpan(text, line) {
  let begin = 0;
  for (let left = line; left > 1; left -= 1) begin = text.indexOf("\n", begin) + 1 || text.length;
  return [begin, endOfLine(text, begin)];
}

/** A text area, and behind it the same letters, unseen, of which some are marked. */
export class Pane {
  #marks;
  #shown = [];

  /** @param {HTMLElement} panel */
  constructor(panel) {
    this.panel = panel;
    this.area = panel.querySelector("textarea");
    this.#marks = panel.querySelector(".marks > div");
    this.output = panel.querySelector("output");
    this.area.addEventListener("scroll", () => this.#follow());
    new ResizeObserver(() => this.#draw()).observe(this.area);
    this.area.addEventListener("selectionchange", () => this.#tellCursor());
  }

  get text() {
    return this.area.value;
  }

  /** Puts a text in place of the one that is there; what is in view stays there. */
  set text(text) {
    if (this.area.value !== text) this.area.value = text;
  }

  /** Puts another document into the pane, and the cursor at its front. */
  load(text) {
    this.area.value = text;
    this.area.setSelectionRange(0, 0);
    this.area.scrollTop = 0;
  }

  get cursor() {
    return this.area.selectionStart;
  }

  /**
   * Replaces what stands from one place to another, as if it were typed, so that it can be undone.
   */
  type(begin, end, letters) {
    this.area.focus();
    this.area.setSelectionRange(begin, end);
    document.execCommand("insertText", false, letters);
  }

  /**
   * Shows marks in place of those that were shown.
   *
   * @param {Mark[]} marks
   */
  mark(marks) {
    if (marks.length === 0 && this.#shown.length === 0) return;
    this.#shown = [...marks].sort((left, right) => left.begin - right.begin);
    this.#draw();
  }

  /** Brings a mark of a kind into view. */
  reveal(kind) {
    const mark = this.#marks.querySelector(`.${kind}`);
    if (mark === null) return;
    const { scrollTop, clientHeight } = this.area;
    if (mark.offsetTop < scrollTop || mark.offsetTop > scrollTop + clientHeight - 40) {
      this.area.scrollTop = mark.offsetTop - clientHeight / 3;
    }
    if (mark.offsetLeft > this.area.clientWidth) this.area.scrollLeft = mark.offsetLeft;
  }

  /** Says whether a mark of a kind is shown. */
  isMarked(kind) {
    return this.#shown.some((it) => it.kind === kind);
  }

  /** Puts the cursor before a mark of a kind, and says whether there is one. */
  goTo(kind) {
    const mark = this.#shown.find((it) => it.kind === kind);
    if (mark === undefined) return false;
    this.area.focus();
    this.area.setSelectionRange(mark.begin, mark.begin);
    this.reveal(kind);
    return true;
  }

  /** Draws the letters up to the end of the line of the last mark, and the marks. */
  #draw() {
    const text = this.text;
    const parts = [];
    let at = 0;
    for (const { begin, end, kind } of this.#shown) {
      if (begin < at) continue;
      const last = text[begin] === "\n" ? begin : end;
      const letters = text.slice(begin, last) || "\u{a0}";
      const mark = Object.assign(document.createElement("mark"), { className: kind, textContent: letters });
      parts.push(text.slice(at, begin), mark);
      at = last;
    }
    if (parts.length > 0) parts.push(text.slice(at, endOfLine(text, at)));
    this.#marks.style.width = `${this.area.clientWidth}px`;
    this.#marks.replaceChildren(...parts);
    this.#follow();
  }

  #follow() {
    const { scrollLeft, scrollTop } = this.area;
    this.#marks.style.transform = `translate(${-scrollLeft}px, ${-scrollTop}px)`;
  }

  #tellCursor() {
    const { line, column } = placeOf(this.text, this.cursor);
    this.output.value = `line ${line}, column ${column}`;
  }
}
