/**
 * The outline beside the panes: only the rows in view are in the page, so its length takes no time.
 *
 * @typedef {import("./tree.mjs").Row} Row
 */
import { counted, seen } from "./characters.mjs";

const HEIGHT = 24;
const INDENT = 14;
const MOST_INDENT = 12;

/** A tree of rows, of which one may be chosen. */
export class OutlineView {
  #tree;
  #ground;
  #rows = [];
  #chosen = -1;

  /**
   * @param {HTMLElement} panel
   * @param {(row: Row) => void} choose is told which row the reader chooses
   */
  constructor(panel, choose) {
    this.panel = panel;
    this.#tree = panel.querySelector(".tree");
    this.#ground = this.#tree.firstElementChild;
    this.choose = choose;
    this.#tree.addEventListener("scroll", () => this.#draw());
    new ResizeObserver(() => this.#draw()).observe(this.#tree);
    this.#tree.addEventListener("click", (event) => {
      const item = event.target.closest("[role=treeitem]");
      if (item) this.#take(Number(item.dataset.row));
    });
    this.#tree.addEventListener("keydown", (event) => this.#key(event));
  }

  /** @param {Row[]} rows */
  set rows(rows) {
    this.#rows = rows;
    this.#chosen = -1;
    this.#ground.style.height = `${rows.length * HEIGHT}px`;
    this.panel.querySelector("output").value = rows.length > 0 ? counted(rows.length, "row") : "";
    this.#draw();
  }

  /**
   * Shows the row of a place: the smallest part of the document that it stands in.
   *
   * @param {"text" | "xml"} side
   * @param {number} place
   * @returns {Row | undefined}
   */
  show(side, place) {
    let [chosen, least] = [-1, Infinity];
    this.#rows.forEach((row, number) => {
      if (row[side] === null) return;
      const [begin, end] = row[side];
      if (begin <= place && place < end && end - begin <= least) [chosen, least] = [number, end - begin];
    });
    this.#chosen = chosen;
    this.#reveal();
    return this.#rows[chosen];
  }

  #take(number) {
    if (this.#rows.length === 0) return;
    this.#chosen = Math.max(0, Math.min(number, this.#rows.length - 1));
    this.#reveal();
    this.choose(this.#rows[this.#chosen]);
  }

  #key(event) {
    const page = Math.floor(this.#tree.clientHeight / HEIGHT);
    const steps = { ArrowUp: -1, ArrowDown: 1, PageUp: -page, PageDown: page, Home: -Infinity, End: Infinity };
    if (!(event.key in steps)) return;
    event.preventDefault();
    this.#take(this.#chosen + steps[event.key]);
  }

  /** Brings the chosen row into view. */
  #reveal() {
    const top = this.#chosen * HEIGHT;
    const { scrollTop, clientHeight } = this.#tree;
    if (this.#chosen >= 0 && (top < scrollTop || top > scrollTop + clientHeight - HEIGHT)) {
      this.#tree.scrollTop = top - clientHeight / 3;
    }
    this.#draw();
  }

  #draw() {
    const first = Math.floor(this.#tree.scrollTop / HEIGHT);
    const last = Math.ceil((this.#tree.scrollTop + this.#tree.clientHeight) / HEIGHT);
    const items = this.#rows.slice(first, last).map((row, place) => this.#item(row, first + place));
    this.#ground.replaceChildren(...items);
    const chosen = this.#chosen >= first && this.#chosen < last;
    if (chosen) this.#tree.setAttribute("aria-activedescendant", `row-${this.#chosen}`);
    else this.#tree.removeAttribute("aria-activedescendant");
  }

  #item(row, number) {
    const item = document.createElement("div");
    item.id = `row-${number}`;
    item.role = "treeitem";
    item.dataset.row = number;
    item.ariaLevel = row.depth + 1;
    item.ariaSelected = number === this.#chosen;
    item.style.top = `${number * HEIGHT}px`;
    item.style.paddingLeft = `${10 + Math.min(row.depth, MOST_INDENT) * INDENT}px`;
    const part = (name, textContent) => Object.assign(document.createElement(name), { textContent });
    if (row.label === "") item.append(part("span", seen(row.detail)));
    else item.append(part("b", row.label), " ", part("i", row.detail));
    return item;
  }
}
