/**
 * What is said of a refusal, in sentences.
 *
 * @typedef {import("./worker.mjs").Refusal} Refusal
 */
import { nameOf, seen } from "./characters.mjs";
import { standingAt } from "./places.mjs";

const SIDES = { text: "Text", xml: "XML" };
/** How much of a letter and its accents is looked at. */
const LONGEST_ACCENTED = 8;

/** Returns words in quotes, one after another. */
function quoted(...words) {
  return words.map((it) => `“${seen(it)}”`).join(" and ");
}

/** Says what the check found that a document may be read in two ways by. */
function suspected({ side, production, lines, cut, words }) {
  const where = `The sheet may be ambiguous. On the ${side === "xml" ? "XML" : "text"} side`;
  if (cut === null) {
    return `${where} the productions of “${production}” at lines ${lines.join(" and ")} can both spell `
      + `${quoted(words[0])}. Give one of them a mark of its own, or take the words of one out of the other.`;
  }
  const [before, middle, after] = words;
  return `${where} the production of “${production}” at line ${lines[0]} can be cut in two ways after its item `
    + `${cut}: ${quoted(words.join(""))} is ${quoted(before, middle + after)}, or ${quoted(before + middle, after)}. `
    + "Put a mark there that neither part can spell.";
}

/** Says why a sheet is not accepted. */
function sheetSaid(refusal) {
  if (refusal.name === "SuspectError") return suspected(refusal);
  if (refusal.byte !== null) {
    return `Sheet, line ${refusal.line}, column ${refusal.column}: this is not expected here. Where it is `
      + "a string or a pattern, what is wrong may stand anywhere in it.";
  }
  if (refusal.weight !== null) {
    return `A production of the sheet is too large to be checked: it weighs ${refusal.weight}, more than 8192. `
      + "What is repeated many times, as x{50}, weighs most: write x+, or a list in place of many items.";
  }
  if (refusal.line !== null) {
    return `Sheet, line ${refusal.line}: ${refusal.report.replace(/^sheet: line \d+: /u, "")}.`;
  }
  return `The sheet is not accepted: ${refusal.report.replace(/^sheet: /u, "")}.`;
}

/** Returns whether it is the sheet that is refused. */
export function isOfSheet(refusal) {
  return refusal.name === "SheetError" || refusal.name === "SuspectError";
}

/**
 * Says what splitting accents may make of a character that does not fit after others, or nothing.
 */
function split(character, before, expected) {
  const [letter] = character.normalize("NFD");
  const isExpected = expected?.some(([first, last]) => first <= letter && letter <= last);
  const [accented] = /\P{M}\p{M}+$/u.exec(before + character) ?? [""];
  if (letter !== character && isExpected) return `; ${nameOf(letter)} does: try “split” under Accents`;
  if (accented !== accented.normalize("NFD")) return " after an accent: try “split” under Accents";
  return "";
}

/** Says what does not fit at a place of a document. */
function foreign({ offset, expected }, side, document) {
  if (offset === document.length) return "the document ends too early.";
  if (offset === null) return "what stands here does not fit.";
  const standing = standingAt(document, side, offset) || document[offset];
  if (side === "xml") return `${nameOf(standing)} does not fit here.`;
  const before = document.slice(Math.max(0, offset - LONGEST_ACCENTED), offset);
  return `${nameOf(standing)} does not fit here${split(standing, before, expected)}.`;
}

/**
 * Says what is refused, and why.
 *
 * @param {Refusal} refusal
 * @param {"text" | "xml"} side that of the document
 * @param {string} document
 */
export function said(refusal, side, document) {
  const where = `${SIDES[side]}, line ${refusal.line}, column ${refusal.column}`;
  switch (refusal.name) {
    case "SheetError":
    case "SuspectError":
      return sheetSaid(refusal);
    case "ForeignError":
      return `${where}: ${foreign(refusal, side, document)}`;
    case "NotXmlError":
      return `${where}: this is not XML.`;
    case "TooLongError":
      return "The document has more than 1,048,576 bytes. Split it.";
    case "OutOfMemoryError":
      return "There is not enough memory for this document. Nothing is lost: make it shorter, or split it.";
    default:
      return `Something went wrong (${refusal.message}). Nothing is lost; type on, or split the document.`;
  }
}

/**
 * Returns the marks that show in a sheet why it is refused.
 *
 * @param {Refusal} refusal
 * @param {(line: number) => [number, number]} spanOf gives where a line begins and ends
 * @returns {import("./pane.mjs").Mark[]}
 */
export function sheetMarks(refusal, spanOf) {
  if (refusal.offset !== null && refusal.offset !== undefined) {
    const [, end] = spanOf(refusal.line);
    return [{ begin: refusal.offset, end: Math.max(end, refusal.offset), kind: "wrong" }];
  }
  const lines = refusal.lines ?? (refusal.line === null ? [] : [refusal.line]);
  return lines.map(spanOf).map(([begin, end]) => ({ begin, end, kind: "wrong" }));
}
