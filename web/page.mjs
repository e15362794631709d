/**
 * The page for editors: a text and its XML side by side, either typed in, by a sheet that is chosen
 * or written beside them.
 *
 * @typedef {import("./worker.mjs").Refusal} Refusal
 * @typedef {"text" | "xml"} Side
 */
import { Calm } from "./calm.mjs";
import { told } from "./characters.mjs";
import { Desk, STALE } from "./desk.mjs";
import { Diagrams } from "./diagrams.mjs";
import { opened, save } from "./files.mjs";
import { button, Message } from "./message.mjs";
import { OutlineView } from "./outline.mjs";
import { lineSpan, Pane } from "./pane.mjs";
import { placeOf, standingAt } from "./places.mjs";
import { productionAt, productionsOf } from "./productions.mjs";
import { isOfSheet, said, sheetMarks } from "./refusals.mjs";
import { keep, kept } from "./storage.mjs";
import { suggestions } from "./suggestions.mjs";

const OWN = "own";
const OTHER = { text: "xml", xml: "text" };

const element = (id) => document.getElementById(id);

/** Begins a worker over the core that the page holds. */
function startWorker(script, bytes) {
  const address = URL.createObjectURL(new Blob([script], { type: "text/javascript" }));
  const worker = new Worker(address);
  worker.postMessage(bytes);
  return worker;
}

/** The page: what is typed, by which sheet, and what is shown of it. */
class Page {
  /** @type {{name: string, text: string, example: string}[]} the sheets that the page holds */
  shelf = JSON.parse(element("shelf").textContent);
  panes = { text: new Pane(element("text")), xml: new Pane(element("xml")) };
  source = new Pane(element("source"));
  message = new Message(element("message"));
  outline = new OutlineView(element("outline"), (row) => this.#showRow(row));
  diagrams = new Diagrams(element("diagrams"), (production) => this.#showProduction(production));
  /**
   * What is kept: the name of the sheet, one's own sheet, the side that was typed, its document, ..
   */
  state = { sheet: "@leiden2", own: "", side: "text", document: "", form: "asis", panels: {}, ...kept() };
  productions = null;
  /** Whether both panes have one document. */
  isSettled = false;
  focused = this.panes.text;
  /** The name of the file that was opened last. */
  name = "document.txt";
  #calm = { long: new Calm(), rows: new Calm(), check: new Calm(), keep: new Calm(), cursor: new Calm() };

  constructor(script, bytes) {
    const start = () => startWorker(script, bytes);
    const failed = (refusal) => this.#say(refusal);
    this.translator = new Desk(start, failed);
    this.reader = new Desk(start, failed);
    this.#fillShelf();
    this.#listen();
    this.#restore();
  }

  get #sheet() {
    const { sheet, own } = this.state;
    return sheet === OWN ? own : this.shelf.find((it) => it.name === sheet).text;
  }

  get #example() {
    return this.shelf.find((it) => it.name === this.state.sheet)?.example;
  }

  /** The characters that close a bracket of the sheet. */
  get #closing() {
    return this.productions?.fences.map(([, right]) => right);
  }

  #fillShelf() {
    const options = this.shelf.map(({ name, title }) => new Option(title, name));
    element("sheet").append(...options, new Option("my own sheet", OWN));
  }

  /** Shows what was kept when the page was left, or an example. */
  #restore() {
    const { state } = this;
    if (state.sheet !== OWN && !this.shelf.some((it) => it.name === state.sheet)) state.sheet = "@leiden2";
    element("sheet").value = state.sheet;
    element("form").value = state.form;
    for (const it of document.querySelectorAll("[data-panel]")) {
      it.checked = state.panels[it.dataset.panel] ?? it.checked;
      element(it.dataset.panel).hidden = !it.checked;
    }
    this.#load(this.panes[state.side], state.document || this.#example || "");
    this.#sheetChanged();
  }

  /** Shows the sheet that is chosen, and translates by it. */
  #sheetChanged() {
    this.source.text = this.#sheet;
    this.source.mark([]);
    element("sheet-said").textContent = "";
    element("example").disabled = !this.#example;
    this.#readSheet();
    this.#translate();
  }

  #readSheet() {
    this.productions = productionsOf(this.#sheet);
    if (!element("diagrams").hidden) this.diagrams.sheet = this.productions;
  }

  /** Chooses a sheet; an example, or nothing, gives way to the example of the new one. */
  #choose(name) {
    const { text } = this.panes.text;
    const isExample = text.trim() === "" || text === this.#example;
    this.state.sheet = name;
    if (name === OWN && this.state.own === "") this.state.own = this.source.text;
    if (name === OWN) this.#show("source", true);
    if (isExample && this.#example) this.#load(this.panes.text, this.#example);
    this.#sheetChanged();
  }

  /** Puts a document into a pane, which the other follows. */
  #load(pane, text) {
    pane.load(text);
    this.#typedLast(pane);
  }

  /** Takes a pane as the one that the other follows. */
  #typedLast(pane) {
    this.state.side = pane === this.panes.text ? "text" : "xml";
    for (const it of Object.values(this.panes)) it.panel.classList.toggle("last-typed", it === pane);
  }

  /** Translates what was typed last into the other pane. */
  async #translate() {
    const { state } = this;
    const { side, form } = state;
    const begin = performance.now();
    state.document = this.panes[side].text;
    this.isSettled = false;
    this.#calm.keep.run(() => this.#keep());
    const given = { source: this.#sheet, side, document: state.document, form };
    this.#calm.long.run(() => this.message.wait());
    const answered = await this.translator.ask("translate", given);
    if (answered === STALE || side !== state.side) return;
    this.#calm.long.stop();
    if (answered.refusal) {
      this.#refused(answered.refusal);
      return;
    }
    this.panes[OTHER[side]].text = answered.answer;
    performance.measure("keystroke", { start: begin });
    this.#accepted(performance.now() - begin);
  }

  #accepted(time) {
    this.isSettled = true;
    this.#stale(null);
    for (const it of Object.values(this.panes)) it.mark([]);
    this.message.accept(time);
    this.#calm.rows.run(() => this.#outline());
  }

  /** Shows a refusal; what the other pane holds is of an earlier document then. */
  #refused(refusal) {
    this.#stale(OTHER[this.state.side]);
    this.outline.rows = [];
    this.diagrams.show(0);
    this.#say(refusal);
  }

  #stale(side) {
    for (const [name, it] of Object.entries(this.panes)) it.panel.classList.toggle("stale", name === side);
  }

  /** Says a refusal of the document, marks its place and offers what may come there. */
  #say(refusal) {
    const { side } = this.state;
    const pane = this.panes[side];
    if (isOfSheet(refusal)) {
      this.#saySheet(refusal);
      return;
    }
    const { offset = null, expected = null, opened = null } = refusal;
    const [marks, more] = [[], []];
    if (offset !== null) {
      const end = offset + standingAt(pane.text, side, offset).length;
      marks.push({ begin: offset, end, kind: "wrong" });
      more.push(button("Go there", "F8", () => this.#goToWrong()));
    }
    if (opened !== null) {
      marks.push({ ...opened, kind: "open" });
      more.push(openSaid(opened, pane.text), button("Go to the opening", "Shift F8", () => pane.goTo("open")));
    }
    if (expected !== null) {
      const isTyped = offset !== null && expected.length > 0;
      more.push("May come here:", ...(isTyped ? this.#suggestions(expected, offset) : [told(expected, this.#closing)]));
    }
    this.message.refuse(said(refusal, side, pane.text), ...more);
    pane.mark(marks);
  }

  /** Says a refusal of the sheet, and shows in the sheet why it is refused. */
  #saySheet(refusal) {
    for (const it of Object.values(this.panes)) it.mark([]);
    const why = element("source").hidden ? [said(refusal)] : [];
    const marks = sheetMarks(refusal, (line) => lineSpan(this.source.text, line));
    const go = marks.length > 0 ? [button("Go there", "F8", () => this.#goToWrong())] : [];
    this.message.refuse("The sheet is not accepted, so nothing is translated.", ...why, ...go);
    element("sheet-said").className = "wrong";
    element("sheet-said").textContent = said(refusal);
    this.source.mark(marks);
    this.source.reveal("wrong");
  }

  /** Takes over a sheet that is typed, once it was checked. */
  async #checkSheet() {
    const source = this.source.text;
    const answered = await this.reader.ask("check", { source });
    if (answered === STALE || source !== this.source.text) return;
    this.#readSheet();
    if (answered.refusal) {
      this.#refused(answered.refusal);
      return;
    }
    this.source.mark([]);
    element("sheet-said").className = "";
    element("sheet-said").textContent = "The sheet is accepted.";
    this.#translate();
  }

  /** Shows the outline of the document that was translated. */
  async #outline() {
    if (!this.isSettled || (element("outline").hidden && element("diagrams").hidden)) return;
    const [text, xml] = [this.panes.text.text, this.panes.xml.text];
    const form = this.state.side === "text" ? this.state.form : "asis";
    const given = { source: this.#sheet, text, form, xml };
    const answered = await this.reader.ask("rows", given);
    if (answered === STALE || !this.isSettled || xml !== this.panes.xml.text) return;
    this.outline.rows = answered.answer ?? [];
    this.#showCursor();
  }

  /** Shows what stands at the cursor: its row, its production, and its place in the other pane. */
  #showCursor() {
    if (document.activeElement === this.source.area) {
      this.diagrams.show(productionAt(this.productions, this.source.cursor)?.number);
      return;
    }
    if (!this.isSettled) return;
    const side = document.activeElement === this.panes.xml.area ? "xml" : "text";
    const row = this.outline.show(side, this.panes[side].cursor);
    for (const it of ["text", "xml"]) this.panes[it].mark(marksOf(row, it));
    if (row !== undefined) this.panes[OTHER[side]].reveal("here");
    this.diagrams.show(row?.production);
  }

  #showRow(row) {
    for (const it of ["text", "xml"]) {
      this.panes[it].mark(marksOf(row, it));
      this.panes[it].reveal("here");
    }
    this.diagrams.show(row.production);
  }

  /** Shows a production in the sheet. */
  #showProduction({ number, begin, end }) {
    this.#show("source", true);
    this.diagrams.show(number);
    this.source.mark([{ begin, end, kind: "here" }]);
    this.source.reveal("here");
  }

  /** Makes buttons that type characters into the text. */
  #suggestions(ranges, at) {
    return suggestions(ranges, this.#closing, (it) => this.panes.text.type(at, at, it));
  }

  /** Offers what may come next at the cursor of the text. */
  async #suggest() {
    const pane = this.panes.text;
    const at = pane.cursor;
    const answered = await this.translator.ask("next", { source: this.#sheet, text: pane.text.slice(0, at) });
    if (answered === STALE || answered.refusal) return;
    if (answered.answer === null) {
      this.message.offer("What stands before the cursor does not fit, or is too long: nothing is offered.");
      return;
    }
    const buttons = this.#suggestions(answered.answer, at);
    this.message.offer("May come at the cursor:", ...(buttons.length > 0 ? buttons : ["the end"]));
  }

  #keep() {
    if (!keep(this.state)) this.message.offer("The document is too large to be kept in the browser: save it.");
  }

  #show(panel, shown) {
    document.querySelector(`[data-panel=${panel}]`).checked = shown;
    element(panel).hidden = !shown;
    this.state.panels[panel] = shown;
    if (panel === "diagrams" && shown) this.diagrams.sheet = this.productions;
    if (shown) this.#calm.rows.run(() => this.#outline());
    this.#calm.keep.run(() => this.#keep());
  }

  /** Opens a file in the pane that its name says. */
  async #open(file) {
    const { kind, text } = await opened(file);
    if (text === null) {
      this.message.refuse(`${file.name} is not UTF-8. Save it as UTF-8, and open it again.`);
      return;
    }
    this.name = file.name;
    if (kind === "source") {
      this.state.own = text;
      element("sheet").value = OWN;
      this.#choose(OWN);
      return;
    }
    this.#load(this.panes[kind], text);
    this.#translate();
    this.panes[kind].area.focus();
  }

  /** Saves the pane that the cursor is in, or was in last. */
  #save() {
    save(this.name, this.focused.panel.id, this.focused.text);
  }

  #listen() {
    for (const pane of Object.values(this.panes)) {
      pane.area.addEventListener("input", () => {
        this.#typedLast(pane);
        this.#translate();
      });
    }
    this.source.area.addEventListener("input", () => {
      Object.assign(this.state, { sheet: OWN, own: this.source.text });
      element("sheet").value = OWN;
      element("example").disabled = true;
      this.#calm.keep.run(() => this.#keep());
      this.#calm.check.run(() => this.#checkSheet());
    });
    for (const pane of [...Object.values(this.panes), this.source]) {
      pane.area.addEventListener("focus", () => {
        this.focused = pane;
      });
      pane.area.addEventListener("selectionchange", () => {
        if (document.activeElement === pane.area) this.#calm.cursor.run(() => this.#showCursor());
      });
    }
    this.#listenToButtons();
    document.addEventListener("keydown", (event) => this.#key(event));
    addEventListener("pagehide", () => this.#keep());
  }

  #listenToButtons() {
    const on = (id, name, work) => element(id).addEventListener(name, work);
    on("sheet", "change", () => this.#choose(element("sheet").value));
    on("form", "change", () => {
      this.state.form = element("form").value;
      this.#translate();
    });
    on("example", "click", () => this.panes.text.type(0, this.panes.text.text.length, this.#example));
    on("open", "click", () => element("file").click());
    on("file", "change", () => {
      this.#open(element("file").files[0]);
      element("file").value = "";
    });
    on("save", "click", () => this.#save());
    on("keys", "click", () => element("help").showModal());
    for (const it of document.querySelectorAll("[data-panel]")) {
      it.addEventListener("change", () => this.#show(it.dataset.panel, it.checked));
    }
    document.addEventListener("dragover", (event) => event.preventDefault());
    document.addEventListener("drop", (event) => {
      event.preventDefault();
      if (event.dataTransfer.files.length > 0) this.#open(event.dataTransfer.files[0]);
    });
  }

  /** What each key does, named as the page shows it. */
  #keys = {
    "Alt Digit1": () => this.panes.text.area.focus(),
    "Alt Digit2": () => this.panes.xml.area.focus(),
    "Alt Digit3": () => this.#goTo("outline", ".tree"),
    "Alt Digit4": () => this.#goTo("source", "textarea"),
    "Alt Digit5": () => this.#goTo("diagrams", ".rules"),
    "F8": () => this.#goToWrong(),
    "Shift F8": () => this.panes[this.state.side].goTo("open"),
    "Ctrl Space": () => this.#suggest(),
    "Ctrl KeyO": () => element("file").click(),
    "Ctrl KeyS": () => this.#save(),
    "F1": () => element("help").showModal(),
  };

  /** Goes to what does not fit in the document, or in the sheet. */
  #goToWrong() {
    if (this.panes[this.state.side].goTo("wrong") || !this.source.isMarked("wrong")) return;
    this.#show("source", true);
    this.source.goTo("wrong");
  }

  #goTo(panel, part) {
    this.#show(panel, true);
    element(panel).querySelector(part).focus();
  }

  #key(event) {
    const held = [["Ctrl", event.ctrlKey || event.metaKey], ["Alt", event.altKey], ["Shift", event.shiftKey]];
    const name = [...held.filter(([, it]) => it).map(([key]) => key), event.code].join(" ");
    if (!Object.hasOwn(this.#keys, name)) return;
    event.preventDefault();
    this.#keys[name]();
  }
}

/** Says where a bracket was opened that is not closed. */
function openSaid({ begin, end, sure }, text) {
  const { line, column } = placeOf(text, begin);
  const opening = `${text.slice(begin, end)} was opened at line ${line}, column ${column}`;
  return `${opening}, and is ${sure ? "" : "perhaps "}still open here.`;
}

/** Returns the marks of a row in a pane; the root is the whole document, which is not marked. */
function marksOf(row, side) {
  const span = row?.depth > 0 ? row[side] : null;
  return span ? [{ begin: span[0], end: span[1], kind: "here" }] : [];
}

const core = Uint8Array.from(atob(element("core").textContent), (it) => it.charCodeAt(0));
new Page(element("worker").textContent, core);
