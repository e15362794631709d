/**
 * The outline of a document, as an editor shows it: one symbol for each element of the XML, and of
 * a text one for each word too.
 *
 * @typedef {{depth: number, name: string, kind: number, begin: number, end: number, head: number}}
 *   Entry a symbol before its inner ones, from `begin` to before `end`; its name stands before
 *   `head`
 */
import { markLength } from "../places.mjs";
import { rowsOf } from "../tree.mjs";
import { quoted } from "../xsugar.mjs";
import { tagsOf } from "./tags.mjs";

const KIND = { element: 23, word: 15 };
/**
 * Returns the symbols of a text: none where the text is not of the sheet. An element that nothing
 * in the text spells has none.
 */
function entriesOfText(text, { sheet, productions }) {
  const begin = markLength(text);
  const [, derivation] = sheet.session(`put 0 0 ${quoted(text.slice(begin))}\ntree\n`).split("\n");
  if (!derivation.startsWith("(")) return [];
  const entries = rowsOf(derivation, productions, "").map(({ depth, label, detail, text: span }) => {
    const name = `${label} ${detail}`.trim();
    const [first, end] = (span ?? [0, 0]).map((it) => begin + it);
    return { depth, name, kind: label ? KIND.element : KIND.word, begin: first, end, head: end };
  });
  return entries.filter((it) => it.name !== "" && it.begin < it.end);
}

/** Returns the elements of an XML document. */
function entriesOfXml(text) {
  const entries = [];
  const open = [];
  for (const { isClosing, isEmpty, label, begin, end } of tagsOf(text)) {
    if (isClosing) {
      const opened = open.pop();
      if (opened) opened.end = end;
      continue;
    }
    const entry = { depth: open.length, name: label, kind: KIND.element, begin, end, head: end };
    entries.push(entry);
    if (isEmpty) continue;
    entry.end = text.length;
    open.push(entry);
  }
  return entries;
}

/** Puts each symbol into that which it stands in. */
function nested(entries, document) {
  const roots = [];
  const open = [];
  for (const { depth, name, kind, begin, end, head } of entries) {
    const selectionRange = document.range(begin, head);
    const symbol = { name, kind, range: document.range(begin, end), selectionRange, children: [] };
    while (open.length > 0 && open.at(-1).depth >= depth) open.pop();
    (open.at(-1)?.symbol.children ?? roots).push(symbol);
    open.push({ depth, symbol });
  }
  return roots;
}

/**
 * Returns the symbols of a document.
 *
 * @param {import("./open_document.mjs").OpenDocument} document
 * @param {import("./notation.mjs").Notation} notation
 */
export function symbolsOf(document, notation) {
  const { kind, text } = document;
  return nested(kind === "xml" ? entriesOfXml(text) : entriesOfText(text, notation), document);
}
