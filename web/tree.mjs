/**
 * From the derivation of a text, as the core tells it, to the rows of an outline: one for each
 * element of the XML and one for each word but spaces, with the places of both in the text and in
 * the XML.
 *
 * @typedef {import("./productions.mjs").Productions} Productions
 * @typedef {import("./productions.mjs").Production} Production
 * @typedef {{begin: number, end: number, word: string}} Leaf
 * @typedef {{begin: number, end: number, production: Production, slots: Map<string, Leaf | Node>}}
 *   Node
 * @typedef {{depth: number, label: string, detail: string, production: number,
 *   text: [number, number] | null, xml: [number, number] | null}} Row
 */
import { unquoted } from "./errors.mjs";
import { inXml } from "./places.mjs";

const PART = /(?:([^\s:"()~]+):)?(?:\((\d+)|"((?:[^"\\]|\\.)*)"|(\)))/gu;

/** Returns how many characters a word has. */
function lengthOf(word) {
  let length = 0;
  for (const _ of word) length += 1;
  return length;
}

/** Reads a derivation from its front, and keeps where in the text each part of it stands. */
class Derivation {
  /** @param {Productions} sheet */
  constructor(sheet) {
    this.sheet = sheet;
    this.place = 0;
    this.open = [];
  }

  /** Goes over the strings that stand next on the text side of the innermost open node. */
  strings() {
    const frame = this.open.at(-1);
    while (frame?.node.production.text[frame.next]?.kind === "string") {
      this.place += frame.node.production.text[frame.next].value.length;
      frame.next += 1;
    }
  }

  /** Ends a part of the innermost open node. */
  pass() {
    if (this.open.length > 0) this.open.at(-1).next += 1;
    this.strings();
  }

  enter(slot, number) {
    const production = this.sheet.productions[number - 1];
    const node = { begin: this.place, end: this.place, production, slots: new Map() };
    this.open.at(-1)?.node.slots.set(slot, node);
    this.open.push({ node, next: 0 });
    this.strings();
    return node;
  }

  word(slot, word) {
    const begin = this.place;
    this.place += word.length;
    if (slot) this.open.at(-1).node.slots.set(slot, { begin, end: this.place, word });
    this.pass();
  }

  leave() {
    this.open.pop().node.end = this.place;
    this.pass();
  }
}

/**
 * Reads the line of a derivation.
 *
 * @param {string} line
 * @param {Productions} sheet
 * @returns {Node}
 */
export function derivationOf(line, sheet) {
  const read = new Derivation(sheet);
  let root = null;
  for (const [, slot, number, word, close] of line.matchAll(PART)) {
    if (number) {
      const node = read.enter(slot, Number(number));
      root ??= node;
    } else if (close) {
      read.leave();
    } else {
      read.word(slot, unquoted(word));
    }
  }
  return root;
}

/** Yields the slots of parts of an XML side, those of attributes too. */
function* slotsIn(parts) {
  for (const it of parts) {
    if (it.kind === "slot") yield it.slot;
    if (it.kind === "element") {
      for (const { items } of it.attributes) yield* slotsIn(items);
      yield* slotsIn(it.parts);
    }
  }
}

/**
 * Returns where in the text an element of a node stands: the whole node, or what its slots take up.
 */
function spanOf(element, node) {
  if (node.production.xml.length === 1 && node.production.xml[0] === element) {
    return [node.begin, node.end];
  }
  const found = [...slotsIn([element])].map((it) => node.slots.get(it));
  if (found.length === 0) return null;
  return [Math.min(...found.map((it) => it.begin)), Math.max(...found.map((it) => it.end))];
}

/** Writes the rows of a tree, in the order of its XML, and counts the symbols before each. */
class Outline {
  /** @param {Productions} sheet */
  constructor(sheet) {
    this.sheet = sheet;
    this.symbols = 0;
    this.rows = [];
  }

  /** Returns the word of an item whose word is known without going deeper. */
  wordOf(item, node) {
    if (item.kind === "string") return item.value;
    if (item.kind === "ignorable") return this.sheet.ignorables.get(item.name);
    return node.slots.get(item.slot).word;
  }

  /** Goes over the attributes of an element and returns them as they are shown. */
  attributes(element, node) {
    const shown = element.attributes.map(({ name, items }) => {
      const value = items.map((it) => this.wordOf(it, node)).join("");
      this.symbols += lengthOf(value) + 2;
      return `${name}="${value}"`;
    });
    return shown.join(" ");
  }

  enter(element, node, depth) {
    const row = { depth, label: element.tag, production: node.production.number };
    const begin = this.symbols;
    this.symbols += 1;
    row.detail = this.attributes(element, node);
    row.text = spanOf(element, node);
    row.xml = [begin, begin];
    this.rows.push(row);
    return row;
  }

  leaf(leaf, node, depth) {
    const begin = this.symbols;
    this.symbols += lengthOf(leaf.word);
    if (/^ *$/u.test(leaf.word)) return;
    const { number } = node.production;
    const [text, xml] = [[leaf.begin, leaf.end], [begin, this.symbols]];
    this.rows.push({ depth, label: "", detail: leaf.word, production: number, text, xml });
  }

  /** Goes over a part, and returns what is to be gone over before the part after it, or nothing. */
  part(part, node, depth) {
    if (part.kind === "element") {
      return { parts: part.parts, next: 0, node, depth: depth + 1, row: this.enter(part, node, depth) };
    }
    if (part.kind !== "slot") {
      this.symbols += lengthOf(this.wordOf(part, node));
      return null;
    }
    const child = node.slots.get(part.slot);
    if ("slots" in child) return { parts: child.production.xml, next: 0, node: child, depth, row: null };
    this.leaf(child, node, depth);
    return null;
  }

  /** Goes over a whole tree; its depth, that of a list in it too, takes no stack. */
  tree(root) {
    const open = [{ parts: root.production.xml, next: 0, node: root, depth: 0, row: null }];
    while (open.length > 0) {
      const it = open.at(-1);
      if (it.next < it.parts.length) {
        const inner = this.part(it.parts[it.next++], it.node, it.depth);
        if (inner !== null) open.push(inner);
      } else {
        open.pop();
        if (it.row !== null) it.row.xml[1] = ++this.symbols;
      }
    }
  }
}

/**
 * Returns the rows of a derivation. The places in the XML are null where it is written otherwise
 * than the core writes it.
 *
 * @param {string} line
 * @param {Productions} sheet
 * @param {string} xml
 * @returns {Row[]}
 */
export function rowsOf(line, sheet, xml) {
  const outline = new Outline(sheet);
  outline.tree(derivationOf(line, sheet));
  const offsets = [...inXml(xml)];
  const last = xml.trimEnd().length;
  const known = offsets.length === outline.symbols;
  for (const row of outline.rows) {
    row.xml = known ? row.xml.map((it) => offsets[it] ?? last) : null;
  }
  return outline.rows;
}
