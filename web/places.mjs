/**
 * From a number of symbols, characters or bytes to a place of a document.
 *
 * @typedef {import("./errors.mjs").Place} Place
 */

const ENCODER = new TextEncoder();
const SPACE = "[ \\t\\r\\n]";
const CHARACTER = /\r\n|&[^;]*;|./gsu;
const VALUE = `"[^"]*"|'[^']*'`;
const ATTRIBUTE = new RegExp(`${SPACE}+([^ \\t\\r\\n=>/]+)${SPACE}*=${SPACE}*(${VALUE})`, "gu");
const PIECE = new RegExp(
  [
    "<!--.*?-->|<\\?.*?\\?>|<!\\[CDATA\\[(?<section>.*?)\\]\\]>",
    `</(?<closed>[^ \\t\\r\\n>]+)${SPACE}*>`,
    `<(?<opened>[^ \\t\\r\\n>/]+)(?<attributes>(?:${SPACE}+[^ \\t\\r\\n=>/]+${SPACE}*=${SPACE}*(?:${VALUE}))*)`
      + `${SPACE}*(?<empty>/?)>`,
    "(?<character>\\r\\n|&[^;]*;|.)",
  ].join("|"),
  "gsu",
);

/**
 * What stands at a place of XML: a tag's begin or end, a reference, an attribute's name, a
 * character.
 */
const IN_XML = /<\/?[^\s<>/]*|\/?>|&[^\s;<]*;|[^\s"'<>/=]+(?=\s*=\s*["'])|[^\r\n]/suy;
const IN_TEXT = /[^\r\n]/suy;

/** Returns what stands at an offset of a document of a side: nothing at the end of a line. */
export function standingAt(document, side, offset) {
  const pattern = side === "xml" ? IN_XML : IN_TEXT;
  pattern.lastIndex = offset;
  return pattern.exec(document)?.[0] ?? "";
}

/** Returns how long the byte order mark at the front of a document is. */
export function markLength(document) {
  return document.startsWith("\ufeff") ? 1 : 0;
}

/**
 * Returns the line and the column of an offset of a document. A byte order mark counts for the
 * offset alone.
 *
 * @param {string} document
 * @param {number} offset
 * @returns {Place}
 */
export function placeOf(document, offset) {
  const before = document.slice(markLength(document), offset);
  const begin = before.lastIndexOf("\n") + 1;
  return {
    line: before.split("\n").length,
    column: [...before.slice(begin)].length + 1,
    offset,
  };
}

/** Returns the offset behind so many characters, of which the byte order mark is none. */
export function offsetBehind(document, characters) {
  let offset = markLength(document);
  for (let left = characters; left > 0 && offset < document.length; left--) {
    offset += document.codePointAt(offset) > 0xffff ? 2 : 1;
  }
  return offset;
}

/** Orders words as their bytes are ordered. */
function byBytes(left, right) {
  const [a, b] = [ENCODER.encode(left), ENCODER.encode(right)];
  const at = a.findIndex((it, place) => it !== b[place]);
  return at < 0 ? a.length - b.length : a[at] - (b[at] ?? -1);
}

/** Yields where each symbol of a start tag or an empty tag is written. */
function* inTag(tag, begin) {
  yield begin;
  const from = begin + 1 + tag.groups.opened.length;
  const attributes = [...tag.groups.attributes.matchAll(ATTRIBUTE)];
  attributes.sort((left, right) => byBytes(left[1], right[1]));
  for (const it of attributes) {
    const value = from + it.index + it[0].length - it[2].length + 1;
    yield from + it.index + it[0].indexOf(it[1]);
    for (const character of it[2].slice(1, -1).matchAll(CHARACTER)) yield value + character.index;
    yield value + it[2].length - 2;
  }
  if (tag.groups.empty) yield begin + tag[0].length - 2;
}

/** Yields where each symbol of an XML document is written. */
export function* inXml(document) {
  let depth = 0;
  for (const it of document.matchAll(PIECE)) {
    const { section, closed, opened, empty, character } = it.groups;
    if (opened) {
      yield* inTag(it, it.index);
      depth += empty ? 0 : 1;
    } else if (closed) {
      yield it.index;
      depth -= 1;
    } else if (section) {
      const begin = it.index + "<![CDATA[".length;
      for (const found of section.matchAll(/\r\n|./gsu)) yield begin + found.index;
    } else if (character && depth > 0) {
      yield it.index;
    }
  }
}

/** Returns the offset of the first symbol of an XML document after so many. */
export function offsetOfXmlSymbol(document, symbols) {
  let left = symbols;
  for (const offset of inXml(document)) {
    if (left === 0) return offset;
    left -= 1;
  }
  return document.length;
}
