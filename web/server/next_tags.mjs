/** Which tags may come next in an XML document. */
import { inXml } from "../places.mjs";
import { ForeignError, NotXmlError } from "../xsugar.mjs";
import { listOf } from "./completion.mjs";
import { tagsOf } from "./tags.mjs";

const KIND_OF_PROPERTY = 10;

/**
 * Returns the names of the elements that are open after a front of a document, from the innermost.
 */
function openAtEnd(xml) {
  const open = [];
  for (const { isClosing, isEmpty, name } of tagsOf(xml)) {
    if (isClosing) open.shift();
    else if (!isEmpty) open.unshift(name);
  }
  return open;
}

/** Yields the names of the elements that parts of an XML side have. */
function* namesIn(parts) {
  for (const { kind, tag, parts: inner } of parts) {
    if (kind !== "element") continue;
    yield tag;
    yield* namesIn(inner);
  }
}

/** Returns whether at least the first of so many symbols of a document begin one of the sheet. */
function begins(sheet, xml, symbols) {
  try {
    sheet.toText(xml);
    return true;
  } catch (error) {
    if (error instanceof ForeignError) return error.symbols >= symbols;
    if (error instanceof NotXmlError) return false;
    throw error;
  }
}

/**
 * Returns the begins of the tags that may come after a front of an XML document: each is tried,
 * with what is open closed after it. There are none inside a tag.
 */
function nextTags(before, { sheet, productions }) {
  if (productions === null || before.lastIndexOf("<") > before.lastIndexOf(">")) return [];
  const open = openAtEnd(before);
  const closed = open.map((it) => `</${it}>`).join("");
  const next = [...inXml(before)].length + 1;
  const names = new Set(productions.productions.flatMap(({ xml }) => [...namesIn(xml)]));
  const may = [...names].sort().filter((it) => begins(sheet, `${before}<${it}></${it}>${closed}`, next));
  const closing = open.length > 0 && begins(sheet, before + closed, next) ? [`</${open[0]}>`] : [];
  return [...closing, ...may.map((it) => `<${it}`)];
}

/**
 * Returns the completions at an offset of an XML document.
 *
 * @param {import("./open_document.mjs").OpenDocument} document
 * @param {number} offset
 * @param {import("./notation.mjs").Notation} notation
 */
export function tagCompletionsAt(document, offset, notation) {
  const [typed] = /(?:<\/?[^\s<>/]*)?$/u.exec(document.text.slice(0, offset));
  const begin = offset - typed.length;
  const tags = nextTags(document.text.slice(0, begin), notation);
  return listOf(tags.map((it) => [it, it]), KIND_OF_PROPERTY, document.range(begin, offset));
}
