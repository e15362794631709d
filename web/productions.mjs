/**
 * A sheet as its author wrote it: its productions with their places, for the diagrams, the outline
 * and the fences. Whether a sheet is right is the core's to say; what is not read here is null.
 *
 * @typedef {{kind: "string", value: string} | {kind: "slot", name: string, slot: string}
 *   | {kind: "ignorable", name: string}} Item
 * @typedef {{kind: "element", tag: string, attributes: {name: string, items: Item[]}[],
 *   parts: Part[]}} Element
 * @typedef {Item | Element} Part
 * @typedef {{number: number, name: string, line: number, begin: number, end: number, text: Item[],
 *   xml: Part[]}} Production numbers and lines count from 1, places from 0
 * @typedef {{start: string, terminals: Map<string, string>, ignorables: Map<string, string>,
 *   productions: Production[], fences: [string, string][]}} Productions a terminal has its regular
 *   expression, an ignorable its normal spelling
 */
import { unquoted } from "./errors.mjs";

const SPACE = /(?:\s|#.*)*/uy;
const VERSION = /xsugar-[12]/uy;
const NAME = /[\p{L}_][\p{L}\p{N}\p{M}_.\u{B7}\-]*/uy;
const TAG = /[\p{L}_:][\p{L}\p{N}\p{M}_:.\u{B7}\-]*/uy;
const STRING = /"(?:[^"\\\n]|\\.)*"/uy;
const REGEX = /\/(?:[^/\\\n]|\\.)*\//uy;

/** Reads tokens from the front of a sheet. */
class Reader {
  constructor(source) {
    this.source = source;
    this.at = 0;
    this.end = 0;
  }

  /** Takes what the pattern matches after white space and comments, or nothing. */
  take(pattern) {
    SPACE.lastIndex = this.at;
    pattern.lastIndex = this.at + SPACE.exec(this.source)[0].length;
    const found = pattern.exec(this.source);
    if (found === null) return null;
    this.begin = found.index;
    this.at = this.end = pattern.lastIndex;
    return found[0];
  }

  expect(pattern) {
    const found = this.take(pattern);
    if (found === null) throw new SyntaxError(`no ${pattern} at ${this.at}`);
    return found;
  }

  string() {
    return unquoted(this.expect(STRING).slice(1, -1));
  }

  /** Takes a string or an item in brackets, or nothing. */
  item() {
    const string = this.take(STRING);
    if (string !== null) return { kind: "string", value: unquoted(string.slice(1, -1)) };
    if (this.take(/\[/uy) === null) return null;
    const name = this.expect(NAME);
    const slot = this.take(NAME);
    this.expect(/\]/uy);
    return slot === null ? { kind: "ignorable", name } : { kind: "slot", name, slot };
  }

  items() {
    return this.all(() => this.item());
  }

  parts() {
    return this.all(() => this.item() ?? this.element());
  }

  attribute() {
    const name = this.take(TAG);
    if (name === null) return null;
    this.expect(/=/uy);
    return { name, items: this.items() };
  }

  /** Takes an element, or nothing. */
  element() {
    if (this.take(/<(?!\s*\/)/uy) === null) return null;
    const tag = this.expect(TAG);
    const attributes = this.all(() => this.attribute());
    if (this.take(/\/\s*>/uy) !== null) return { kind: "element", tag, attributes, parts: [] };
    this.expect(/>/uy);
    const parts = this.parts();
    this.expect(/<\s*\//uy);
    this.expect(TAG);
    this.expect(/>/uy);
    return { kind: "element", tag, attributes, parts };
  }

  all(one) {
    const found = [];
    for (let it = one(); it !== null; it = one()) found.push(it);
    return found;
  }
}

/** Reads the unit that a name begins into a sheet. */
function unit(reader, sheet, name) {
  if (name === "terminal") {
    const it = reader.expect(NAME);
    reader.expect(/=/uy);
    sheet.terminals.set(it, reader.expect(REGEX));
  } else if (name === "ignorable") {
    const it = reader.expect(NAME);
    reader.expect(/=/uy);
    reader.expect(REGEX);
    sheet.ignorables.set(it, reader.string());
  } else if (name === "fence") {
    sheet.fences.push([reader.string(), reader.string()]);
  } else {
    const { begin, source } = reader;
    const line = source.slice(0, begin).split("\n").length;
    reader.expect(/:/uy);
    const text = reader.items();
    reader.expect(/=/uy);
    const xml = reader.parts();
    const number = sheet.productions.length + 1;
    sheet.productions.push({ number, name, line, begin, end: reader.end, text, xml });
  }
}

/**
 * Reads a sheet.
 *
 * @param {string} source
 * @returns {Productions | null}
 */
export function productionsOf(source) {
  const reader = new Reader(source);
  const sheet = {
    start: "", terminals: new Map(), ignorables: new Map(), productions: [], fences: [],
  };
  try {
    reader.expect(VERSION);
    reader.expect(/start/uy);
    sheet.start = reader.expect(NAME);
    for (let name = reader.take(NAME); name !== null; name = reader.take(NAME)) {
      unit(reader, sheet, name);
    }
    reader.expect(/$/uy);
    return sheet;
  } catch (error) {
    if (error instanceof SyntaxError) return null;
    throw error;
  }
}

/**
 * Returns the fences of a sheet that is accepted, those too that it could have in version 2.
 *
 * @param {import("./xsugar.mjs").Xsugar} xsugar
 * @param {string} source
 */
export function fencesOf(xsugar, source) {
  const { output } = xsugar.run(["upgrade", "sheet"], { sheet: source });
  return productionsOf(output)?.fences ?? [];
}

/** Returns the production that stands at a place of the sheet, or nothing. */
export function productionAt(sheet, place) {
  return sheet?.productions.find((it) => it.begin <= place && place <= it.end);
}
